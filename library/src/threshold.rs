//! Whether two sequences score at least a threshold, from no more tiles than that takes.

use crate::{raw, Refusal, Settings};

/// Whether two sequences score at least a threshold.
#[derive(Clone, Copy, Debug, PartialEq, Eq, Hash)]
#[non_exhaustive]
pub struct Verdict {
    /// Whether the score that [`compare`](crate::compare) answers is at least the threshold.
    pub reached: bool,
    /// The number of tiles laid until that was decided: 0 where none was needed, and never more
    /// than `compare` lays.
    pub tiles: usize,
}

/// Says whether two sequences score at least `threshold`, from 0 to
/// [`MAX_THRESHOLD`](crate::MAX_THRESHOLD): yes exactly where the score of
/// [`compare`](crate::compare) is at least that. The tiles are laid in its order, but no more of
/// them than it takes to decide; they are counted and not kept, so no tile buffer is lent.
///
/// It is decided after the fewest tiles, 0 included, whose covered words alone score at least the
/// threshold, which is a yes; or score less even with every free stretch of the pattern added that
/// has at least `minimum` words, which is a no. Where neither ever holds, all tiles are laid, and it
/// is a no. A word is free until a tile covers it, so a no-call always is, and ends no stretch. The
/// threshold 0 is reached with 0 tiles by any two sequences, two empty ones included.
///
/// The workspace is that of the comparison, and as there the whole of it is zero afterwards.
/// Exchanging the sequences changes nothing, and neither do the settings.
///
/// Refused, in this order: [`TooLong`](Refusal::TooLong), [`Unsound`](Refusal::Unsound),
/// [`Minimum`](Refusal::Minimum), [`Buckets`](Refusal::Buckets),
/// [`SearchLength`](Refusal::SearchLength), [`Workspace`](Refusal::Workspace),
/// [`Threshold`](Refusal::Threshold). The workspace is then as it was.
///
/// ```
/// use sigxume::{at_least, workspace_words, Settings, Symbol};
///
/// let minimum = 2;
/// let first = [1, 2, 3, 4, 5, 6].map(|code| Symbol::Call(code).word());
/// let second = [4, 5, 6, 1, 2, 9].map(|code| Symbol::Call(code).word());
///
/// let mut workspace = vec![0; workspace_words(first.len(), second.len())];
/// let settings = Settings::for_minimum(minimum);
/// let mut ask = |second, threshold| {
///     let verdict = at_least(&first, second, minimum, threshold, settings, &mut workspace)?;
///     Ok((verdict.reached, verdict.tiles))
/// };
///
/// // A tile of three words and then one of two: scores 500 and 833.
/// assert_eq!(ask(&second, 500)?, (true, 1));
/// assert_eq!(ask(&second, 501)?, (true, 2));
/// assert_eq!(ask(&second, 834)?, (false, 2));
///
/// // Two words against six score 500 at most, whatever they are.
/// assert_eq!(ask(&second[..2], 501)?, (false, 0));
/// # Ok::<(), sigxume::Refusal>(())
/// ```
pub fn at_least(
    first: &[u32],
    second: &[u32],
    minimum: u32,
    threshold: u32,
    settings: Settings,
    workspace: &mut [u32],
) -> Result<Verdict, Refusal> {
    let answer = raw::at_least_fast(first, second, minimum, threshold, settings, workspace);
    Refusal::check(answer.refusal)?;
    Ok(Verdict {
        reached: answer.reached != 0,
        tiles: answer.tiles as usize,
    })
}
