//! The cover of two sequences at every minimum, from one comparison.

use crate::{raw, Comparison, Refusal, Settings, MAX_MINIMUM};

/// The entries of a cover: one for each minimum.
pub const COVER_WORDS: usize = MAX_MINIMUM as usize;

/// How much two sequences cover of one another at every minimum.
#[derive(Clone, Debug, PartialEq, Eq, Hash)]
#[non_exhaustive]
pub struct Cover {
    /// What the comparison at minimum 1 answered; its tiles are in the tile buffer.
    pub comparison: Comparison,
    /// Entry k is the covered count at minimum k + 1. The entries never rise, and the first is that
    /// of the comparison.
    pub covered: [u32; COVER_WORDS],
}

impl Cover {
    /// The covered count at a minimum, or `None` where that is not 1 to [`MAX_MINIMUM`]. The
    /// [`score`](crate::score) there is made of it.
    pub fn covered_at(&self, minimum: u32) -> Option<usize> {
        let entry = minimum.checked_sub(1)?;
        let covered = self.covered.get(entry as usize)?;
        Some(*covered as usize)
    }
}

/// Compares two sequences once, by the fast engine at minimum 1, and answers the covered count at
/// every minimum: what [`compare`](crate::compare) would answer at each of them. For the tiles at a
/// greater minimum are the first tiles at a smaller one, down to the last that is long enough.
///
/// Workspace and tile buffer are those of the comparison at minimum 1, and left as it leaves them:
/// tiles at the start of `tiles`, whose other words keep their values, and the whole workspace zero.
/// [`Settings::for_minimum`] of 1 serves well.
///
/// Refused, in this order: [`TooLong`](Refusal::TooLong), [`Unsound`](Refusal::Unsound),
/// [`Buckets`](Refusal::Buckets), [`SearchLength`](Refusal::SearchLength),
/// [`Workspace`](Refusal::Workspace), [`TileBuffer`](Refusal::TileBuffer). Both buffers are then as
/// they were.
///
/// ```
/// use sigxume::{cover, tile_words, tiles, workspace_words, Settings, Symbol};
///
/// let first = [1, 2, 3, 4, 5, 6].map(|code| Symbol::Call(code).word());
/// let second = [4, 5, 6, 1, 2, 9].map(|code| Symbol::Call(code).word());
///
/// let mut workspace = vec![0; workspace_words(first.len(), second.len())];
/// let mut buffer = vec![0; tile_words(first.len(), second.len(), 1)];
/// let settings = Settings::for_minimum(1);
/// let answer = cover(&first, &second, settings, &mut workspace, &mut buffer)?;
///
/// // Tiles of three words and of two, so both count up to minimum 2, and at 3 the first alone.
/// let lengths = tiles(&buffer, answer.comparison.tiles).map(|tile| tile.length);
/// assert_eq!(Vec::from_iter(lengths), [3, 2]);
/// assert_eq!(answer.covered[..4], [5, 5, 3, 0]);
///
/// assert_eq!(answer.covered_at(3), Some(3));
/// assert_eq!(answer.covered_at(256), Some(0));
/// assert_eq!([0, 257].map(|minimum| answer.covered_at(minimum)), [None; 2]);
/// # Ok::<(), sigxume::Refusal>(())
/// ```
pub fn cover(
    first: &[u32],
    second: &[u32],
    settings: Settings,
    workspace: &mut [u32],
    tiles: &mut [u32],
) -> Result<Cover, Refusal> {
    let mut covered = [0; COVER_WORDS];
    let answer = raw::cover_fast(first, second, settings, workspace, tiles, &mut covered);
    Ok(Cover {
        comparison: Comparison::of(answer)?,
        covered,
    })
}
