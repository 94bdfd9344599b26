//! Pairs that are built so that their tiles are known beforehand, apart from any tiling.

use super::expect;
use crate::group::Group;
use crate::pairs::Pair;
use crate::reference::{exchanged, first_is_pattern, Tile};
use crate::samples::NO_CALL;

/// Words of the pattern and the text, and their tiles in the order laid, the pattern's start first.
pub struct Plan {
    pattern: Vec<u32>,
    text: Vec<u32>,
    tiles: Vec<Tile>,
}

impl Plan {
    /// Puts the blocks of each side one after another.
    pub fn new(pattern: &[&[u32]], text: &[&[u32]], tiles: &[[usize; 3]]) -> Self {
        let tiles = tiles.iter().map(|&tile| tile.into()).collect();
        Self::of(([pattern.concat(), text.concat()], tiles))
    }

    /// Of pattern and text.
    pub fn of(([pattern, text], tiles): (Pair, Vec<Tile>)) -> Self {
        Self {
            pattern,
            text,
            tiles,
        }
    }

    /// Puts no-calls after the text, so that it is longer than the pattern by `more` words.
    pub fn lengthen(mut self, more: usize) -> Self {
        let length = self.text.len().max(self.pattern.len() + more);
        self.text.resize(length, NO_CALL);
        self
    }

    /// Compares the pair with either side handed in first. Tiles below the minimum are not expected.
    pub fn expect(&self, g: &mut Group, minimum: u32) {
        let Self { pattern, text, .. } = self;
        assert!(first_is_pattern(pattern, text), "not the pattern");
        let mut tiles = self.tiles.clone();
        tiles.retain(|tile| tile.length >= minimum as usize);
        let (n, m) = (pattern.len(), text.len());
        let case = format_args!("first of {n}, second of {m} words, minimum {minimum}");
        expect(g, case, [pattern, text], minimum, &tiles);
        let case = format_args!("first of {m}, second of {n} words, exchanged, minimum {minimum}");
        expect(g, case, [text, pattern], minimum, &exchanged(tiles));
    }
}
