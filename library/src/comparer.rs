//! Comparing many pairs with the same buffers.

use crate::{
    at_least, compare, cover, tile_words, tiles, workspace_words, Comparison, Cover, Refusal,
    Settings, Tile, Verdict, MAX_WORDS,
};

/// Compares pairs of sequences, with buffers of its own that grow as needed and serve from one
/// comparison to the next. One for each thread is right.
///
/// ```
/// use sigxume::{Comparer, Symbol};
///
/// let words = [1, 2, 3].map(|code| Symbol::Call(code).word());
/// let mut comparer = Comparer::new();
/// let scores = [0, 1, 2, 3].map(|n| comparer.compare(&words, &words[..n], 1).unwrap().score());
/// assert_eq!(scores, [0, 500, 800, 1_000]);
/// ```
#[derive(Clone, Debug, Default)]
pub struct Comparer {
    workspace: Vec<u32>,
    tiles: Vec<u32>,
}

/// A comparison's answer with its tiles, as long as the [`Comparer`] is not used again.
#[derive(Clone, Copy, Debug)]
pub struct Tiling<'a> {
    answer: Comparison,
    buffer: &'a [u32],
}

impl Comparer {
    /// One with empty buffers.
    pub fn new() -> Self {
        Self::default()
    }

    /// Compares two sequences by the fast engine with the settings that serve well at this minimum.
    /// Refused, in this order: [`TooLong`](Refusal::TooLong), [`Unsound`](Refusal::Unsound),
    /// [`Minimum`](Refusal::Minimum).
    pub fn compare(
        &mut self,
        first: &[u32],
        second: &[u32],
        minimum: u32,
    ) -> Result<Tiling<'_>, Refusal> {
        let [workspace, buffer] = self.buffers(first, second, minimum);
        let settings = Settings::for_minimum(minimum);
        let answer = compare(first, second, minimum, settings, workspace, buffer)?;
        Ok(Tiling { answer, buffer })
    }

    /// Compares two sequences once, at minimum 1, and answers the covered count at every minimum.
    /// Refused, in this order: [`TooLong`](Refusal::TooLong), [`Unsound`](Refusal::Unsound).
    ///
    /// ```
    /// use sigxume::{score, Comparer, Symbol};
    ///
    /// let first = [1, 2, 3, 4, 5, 6].map(|code| Symbol::Call(code).word());
    /// let second = [4, 5, 6, 1, 2, 9].map(|code| Symbol::Call(code).word());
    ///
    /// let mut comparer = Comparer::new();
    /// let cover = comparer.cover(&first, &second)?;
    /// for minimum in 1..=256 {
    ///     let tiling = comparer.compare(&first, &second, minimum)?;
    ///     let covered = cover.covered_at(minimum).unwrap();
    ///     assert_eq!(covered, tiling.covered());
    ///     assert_eq!(score(covered, first.len() + second.len()), tiling.score());
    /// }
    /// # Ok::<(), sigxume::Refusal>(())
    /// ```
    pub fn cover(&mut self, first: &[u32], second: &[u32]) -> Result<Cover, Refusal> {
        let [workspace, buffer] = self.buffers(first, second, 1);
        cover(first, second, Settings::for_minimum(1), workspace, buffer)
    }

    /// Says whether two sequences score at least a threshold, and lays no more tiles than that
    /// takes. It has use for the workspace alone. Refused, in this order:
    /// [`TooLong`](Refusal::TooLong), [`Unsound`](Refusal::Unsound), [`Minimum`](Refusal::Minimum),
    /// [`Threshold`](Refusal::Threshold).
    ///
    /// ```
    /// use sigxume::{Comparer, Symbol, MAX_THRESHOLD};
    ///
    /// let first = [1, 2, 3, 4, 5, 6].map(|code| Symbol::Call(code).word());
    /// let second = [4, 5, 6, 1, 2, 9].map(|code| Symbol::Call(code).word());
    ///
    /// let mut comparer = Comparer::new();
    /// let score = comparer.compare(&first, &second, 2)?.score();
    /// for threshold in 0..=MAX_THRESHOLD {
    ///     let verdict = comparer.at_least(&first, &second, 2, threshold)?;
    ///     assert_eq!(verdict.reached, score >= threshold);
    /// }
    /// # Ok::<(), sigxume::Refusal>(())
    /// ```
    pub fn at_least(
        &mut self,
        first: &[u32],
        second: &[u32],
        minimum: u32,
        threshold: u32,
    ) -> Result<Verdict, Refusal> {
        let [n, m] = lengths(first, second);
        let workspace = part(&mut self.workspace, workspace_words(n, m));
        let settings = Settings::for_minimum(minimum);
        at_least(first, second, minimum, threshold, settings, workspace)
    }

    /// Workspace and tile buffer for a comparison of two sequences.
    fn buffers(&mut self, first: &[u32], second: &[u32], minimum: u32) -> [&mut [u32]; 2] {
        let [n, m] = lengths(first, second);
        [
            part(&mut self.workspace, workspace_words(n, m)),
            part(&mut self.tiles, tile_words(n, m, minimum)),
        ]
    }
}

impl<'a> Tiling<'a> {
    /// What the comparison answered.
    pub fn answer(&self) -> Comparison {
        self.answer
    }

    /// The sum of the tiles' lengths.
    pub fn covered(&self) -> usize {
        self.answer.covered
    }

    /// 2,000 × covered divided by the sum of both lengths, rounded down.
    pub fn score(&self) -> u32 {
        self.answer.score
    }

    /// The tiles in the order laid, so from the longest to the shortest.
    pub fn tiles(&self) -> impl ExactSizeIterator<Item = Tile> + 'a {
        tiles(self.buffer, self.answer.tiles)
    }
}

/// The lengths to make room for: a longer sequence than can be compared is refused.
fn lengths(first: &[u32], second: &[u32]) -> [usize; 2] {
    [first, second].map(|sequence| sequence.len().min(MAX_WORDS))
}

/// The first so many words of a buffer, which grows where it is shorter.
fn part(buffer: &mut Vec<u32>, words: usize) -> &mut [u32] {
    if buffer.len() < words {
        buffer.resize(words, 0);
    }
    &mut buffer[..words]
}
