//! Comparing two sequences with the caller's buffers.

use crate::{raw, Refusal};

/// How the fast engine searches. The answer does not depend on it, only the time.
#[derive(Clone, Copy, Debug, PartialEq, Eq, Hash)]
pub struct Settings {
    /// Of the rolling hash; any number.
    pub multiplier: u32,
    /// From 1 to [`MAX_BUCKETS`](crate::MAX_BUCKETS).
    pub buckets: u32,
    /// The first search length, from the minimum to 2,048: with windows about so long the search
    /// begins where those of the minimum length are too much alike.
    pub start: u32,
}

impl Settings {
    /// The settings that serve well at a minimum: multiplier 257, 1,021 buckets, and first search
    /// length 20, or the minimum if larger.
    pub const fn for_minimum(minimum: u32) -> Self {
        Self {
            multiplier: 257,
            buckets: 1_021,
            start: if minimum > 20 { minimum } else { 20 },
        }
    }
}

/// What a comparison answers.
#[derive(Clone, Copy, Debug, PartialEq, Eq, Hash)]
#[non_exhaustive]
pub struct Comparison {
    /// The number of tiles; each is three words at the start of the tile buffer.
    pub tiles: usize,
    /// The sum of their lengths.
    pub covered: usize,
    /// 2,000 × covered divided by the sum of both lengths, rounded down; 0 for two empty sequences.
    pub score: u32,
}

impl Comparison {
    pub(crate) fn of(answer: raw::Compared) -> Result<Self, Refusal> {
        Refusal::check(answer.refusal)?;
        Ok(Self {
            tiles: answer.tiles as usize,
            covered: answer.covered as usize,
            score: answer.score,
        })
    }
}

/// A stretch of words that is the same in both sequences.
#[derive(Clone, Copy, Debug, PartialEq, Eq, Hash)]
#[non_exhaustive]
pub struct Tile {
    /// Where it starts in the first sequence, counted from 0.
    pub first: usize,
    /// Where it starts in the second.
    pub second: usize,
    /// Its words.
    pub length: usize,
}

impl Tile {
    /// How much further on it lies in the second sequence: from -2,047 to 2,047, where it was laid
    /// by a comparison.
    pub const fn shift(self) -> i32 {
        (self.second as i32).wrapping_sub(self.first as i32)
    }
}

/// The first so many tiles of a tile buffer, in the order laid: a tile is three words.
///
/// ```
/// let buffer = [1, 7, 5, 6, 3, 1, 0, 0, 0];
/// let tiles = Vec::from_iter(sigxume::tiles(&buffer, 2));
/// assert_eq!(tiles.len(), 2);
/// assert_eq!(tiles[0].length, 5);
/// assert_eq!(tiles[1].shift(), -3);
/// ```
pub fn tiles(buffer: &[u32], count: usize) -> impl ExactSizeIterator<Item = Tile> + '_ {
    let (tiles, _) = buffer.as_chunks();
    tiles.iter().take(count).map(|&tile| {
        let [first, second, length] = tile.map(|word: u32| word as usize);
        Tile {
            first,
            second,
            length,
        }
    })
}

/// The words that a comparison of sequences of these lengths asks of its workspace: four for each
/// word of both.
pub const fn workspace_words(first: usize, second: usize) -> usize {
    first.saturating_add(second).saturating_mul(4)
}

/// The words that a comparison of sequences of these lengths asks of its tile buffer: three for
/// each tile that there can be. For minimum 0, which is refused, this is 0.
pub const fn tile_words(first: usize, second: usize, minimum: u32) -> usize {
    let shorter = if first < second { first } else { second };
    match shorter.checked_div(minimum as usize) {
        Some(tiles) => tiles.saturating_mul(3),
        None => 0,
    }
}

/// The score of a covered count, `words` being the sum of both lengths: 2,000 × covered divided by
/// words, rounded down, and 0 for 0 words. A comparison answers its score; this is for a count that
/// comes without one, as those of a [`Cover`](crate::Cover) do. It is not proved as the core's
/// scores are, but tested against them. Any numbers may be given: a quotient that exceeds a `u32` is
/// `u32::MAX`.
///
/// ```
/// use sigxume::{score, Comparer, Symbol};
///
/// let words = [7; 6].map(|code| Symbol::Call(code).word());
/// let mut comparer = Comparer::new();
/// let tiling = comparer.compare(&words, &words[..1], 1)?;
/// assert_eq!((tiling.covered(), tiling.score()), (1, 285));
/// assert_eq!(score(1, 6 + 1), 285);
/// assert_eq!(score(0, 0), 0);
/// # Ok::<(), sigxume::Refusal>(())
/// ```
pub const fn score(covered: usize, words: usize) -> u32 {
    match (2_000 * covered as u128).checked_div(words as u128) {
        Some(score) if score <= u32::MAX as u128 => score as u32,
        Some(_) => u32::MAX,
        None => 0,
    }
}

/// Compares two sequences by the fast engine, Running Karp-Rabin greedy string tiling. The tiles,
/// each of at least `minimum` words, go to the start of `tiles`, whose other words keep their
/// values; the whole workspace is zero afterwards, whatever it held.
///
/// Of equally long tiles the one that starts first in the pattern is laid first. The pattern is the
/// shorter sequence, and of two of equal length the one with the smaller word at the first position
/// where they differ, so that it is the same one whichever is passed first.
///
/// Refused, in this order: [`TooLong`](Refusal::TooLong), [`Unsound`](Refusal::Unsound),
/// [`Minimum`](Refusal::Minimum), [`Buckets`](Refusal::Buckets),
/// [`SearchLength`](Refusal::SearchLength), [`Workspace`](Refusal::Workspace),
/// [`TileBuffer`](Refusal::TileBuffer). Both buffers are then as they were.
///
/// ```
/// use sigxume::{compare, tile_words, tiles, workspace_words, Settings, Symbol};
///
/// let minimum = 2;
/// let first = [1, 2, 3, 4, 5].map(|code| Symbol::Call(code).word());
/// let second = [3, 4, 5, 1, 2].map(|code| Symbol::Call(code).word());
///
/// let mut workspace = vec![0; workspace_words(first.len(), second.len())];
/// let mut buffer = vec![0; tile_words(first.len(), second.len(), minimum)];
/// let settings = Settings::for_minimum(minimum);
/// let answer = compare(&first, &second, minimum, settings, &mut workspace, &mut buffer)?;
/// assert_eq!((answer.tiles, answer.covered, answer.score), (2, 5, 1_000));
///
/// let laid = tiles(&buffer, answer.tiles).map(|tile| (tile.first, tile.second, tile.length));
/// assert_eq!(Vec::from_iter(laid), [(2, 0, 3), (0, 3, 2)]);
///
/// // Exchanged, only the sides of each tile are exchanged.
/// assert_eq!(compare(&second, &first, minimum, settings, &mut workspace, &mut buffer)?, answer);
/// let laid = tiles(&buffer, answer.tiles).map(|tile| (tile.first, tile.second, tile.length));
/// assert_eq!(Vec::from_iter(laid), [(0, 2, 3), (3, 0, 2)]);
/// # Ok::<(), sigxume::Refusal>(())
/// ```
pub fn compare(
    first: &[u32],
    second: &[u32],
    minimum: u32,
    settings: Settings,
    workspace: &mut [u32],
    tiles: &mut [u32],
) -> Result<Comparison, Refusal> {
    Comparison::of(raw::compare_fast(
        first, second, minimum, settings, workspace, tiles,
    ))
}

/// The same by the plain engine, which uses no hash and is slower but for short sequences. It is
/// proved to give the same answer and the same tiles as [`compare`]. Refused as there, without
/// [`Buckets`](Refusal::Buckets) and [`SearchLength`](Refusal::SearchLength).
///
/// ```
/// use sigxume::{compare_plain, tile_words, workspace_words, Symbol};
///
/// let words = [7; 4].map(|code| Symbol::Call(code).word());
/// let mut workspace = vec![0; workspace_words(4, 2)];
/// let mut tiles = vec![0; tile_words(4, 2, 1)];
/// let answer = compare_plain(&words, &words[..2], 1, &mut workspace, &mut tiles)?;
/// assert_eq!((answer.tiles, answer.covered, answer.score), (1, 2, 666));
/// # Ok::<(), sigxume::Refusal>(())
/// ```
pub fn compare_plain(
    first: &[u32],
    second: &[u32],
    minimum: u32,
    workspace: &mut [u32],
    tiles: &mut [u32],
) -> Result<Comparison, Refusal> {
    Comparison::of(raw::compare_plain(first, second, minimum, workspace, tiles))
}
