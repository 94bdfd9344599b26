//! Which tiles are in order: the heaviest chain in which each follows the last in both sequences.

use sigxume::Tile;

/// For each tile, whether it is in the chain with the most words. Of several such chains, it is that whose last
/// tile was laid first, and so on back from there: so it is the same chain if the sequences are exchanged.
pub fn heaviest(tiles: &[Tile]) -> Vec<bool> {
    let mut order = Vec::from_iter(0..tiles.len());
    order.sort_by_key(|&at| tiles[at].first);
    // For each tile, the words of the heaviest chain that ends with it, and the tile before it there.
    let mut chains = vec![(0, None); tiles.len()];
    for at in order {
        let before = (0..tiles.len()).filter(|&other| follows(tiles[at], tiles[other]));
        let best = heavier(before, &chains);
        let words = best.map_or(0, |best| chains[best].0);
        chains[at] = (words + tiles[at].length, best);
    }
    let mut kept = vec![false; tiles.len()];
    let mut next = heavier(0..tiles.len(), &chains);
    while let Some(at) = next {
        kept[at] = true;
        next = chains[at].1;
    }
    kept
}

/// The first of those with the most words.
fn heavier(
    among: impl DoubleEndedIterator<Item = usize>,
    chains: &[(usize, Option<usize>)],
) -> Option<usize> {
    among.rev().max_by_key(|&at| chains[at].0)
}

fn follows(tile: Tile, other: Tile) -> bool {
    other.first + other.length <= tile.first && other.second + other.length <= tile.second
}
