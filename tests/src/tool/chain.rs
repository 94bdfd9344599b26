//! Chains of tiles: tiles that follow one another in both sequences.

use crate::reference::Tile;

/// Whether the second tile follows the first in both sequences.
fn follows(a: &Tile, b: &Tile) -> bool {
    a.first + a.length <= b.first && a.second + a.length <= b.second
}

/// Whether these tiles are a chain, in some order.
pub fn is_chain(tiles: &[Tile]) -> bool {
    let mut tiles = tiles.to_vec();
    tiles.sort_by_key(|tile| tile.first);
    tiles.windows(2).all(|pair| follows(&pair[0], &pair[1]))
}

/// The most words that a chain of these tiles has, with every pair of tiles looked at.
pub fn most_words(tiles: &[Tile]) -> usize {
    let mut tiles = tiles.to_vec();
    tiles.sort_by_key(|tile| tile.first);
    let mut most = Vec::with_capacity(tiles.len());
    for (at, tile) in tiles.iter().enumerate() {
        let before = tiles[..at].iter().zip(&most);
        let before = before.filter(|(other, _)| follows(other, tile));
        let before = before.map(|(_, &words)| words).max().unwrap_or(0);
        most.push(before + tile.length);
    }
    most.into_iter().max().unwrap_or(0)
}
