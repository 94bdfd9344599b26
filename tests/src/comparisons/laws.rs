//! Laws of the tiling, tested on the core's own answers; the reference's tiling has no part in it.

use super::{engines, listed, turned_back};
use crate::engine::Engine;
use crate::group::Group;
use crate::pairs::{both_orders, periodic, related, unrelated, Pair, Sides};
use crate::random::Random;
use crate::reference::{covered, matches, replaced, score, Tile, MAX_WORDS};
use crate::retired::{mixed_pair, related_retired};
use crate::samples::call;
use std::collections::HashMap;

/// Which words of both sides no tile covers; none where a tile does not stand in the pair as a run
/// of free words.
fn free_words(pair: Sides, tiles: &[Tile]) -> Option<[Vec<bool>; 2]> {
    let mut free = pair.map(|words| vec![true; words.len()]);
    for tile in tiles {
        for (first, second) in (tile.first..).zip(tile.second..).take(tile.length) {
            let stands = *free[0].get(first)? && *free[1].get(second)?;
            if !stands || !matches(pair[0][first], pair[1][second]) {
                return None;
            }
            free[0][first] = false;
            free[1][second] = false;
        }
    }
    Some(free)
}

/// The longest run of free words that match one by one.
fn longest_free_run([first, second]: Sides, free: &[Vec<bool>; 2]) -> usize {
    let mut longest = 0;
    // The runs that end just before each position of the second side.
    let mut runs = vec![0; second.len() + 1];
    for i in 0..first.len() {
        for j in (0..second.len()).rev() {
            let goes_on = free[0][i] && free[1][j] && matches(first[i], second[j]);
            runs[j + 1] = if goes_on { runs[j] + 1 } else { 0 };
            longest = longest.max(runs[j + 1]);
        }
    }
    longest
}

/// How many calls of each replaced code a sequence has, by the call's word.
fn counts(words: &[u32]) -> HashMap<u32, usize> {
    let mut counts = HashMap::new();
    for &word in words.iter().filter(|&&word| matches(word, word)) {
        *counts.entry(replaced(word)).or_default() += 1;
    }
    counts
}

/// The sum, over all codes, of the smaller of its numbers of calls on the two sides.
fn shared_calls([first, second]: Sides) -> usize {
    let (first, second) = (counts(first), counts(second));
    let both = first
        .iter()
        .map(|(code, &n)| n.min(*second.get(code).unwrap_or(&0)));
    both.sum()
}

/// Tries every law on a pair, with each engine's answer; the next one has the exchanged sides.
fn hold(g: &mut Group, name: &str, pair: Sides, minimum: u32) {
    let engines = engines(&mut g.random, pair, minimum);
    for (at, &engine) in engines.iter().enumerate() {
        let other = engines[(at + 1) % engines.len()];
        hold_by(g, name, [engine, other], pair, minimum);
    }
}

/// Tries every law on the answer of the first engine; the other one has the exchanged sides.
fn hold_by(g: &mut Group, name: &str, [engine, other]: [Engine; 2], pair: Sides, minimum: u32) {
    let [n, m] = pair.map(<[u32]>::len);
    let name = format!("{engine}: {name}, {n} and {m} words, minimum {minimum}");
    let (answer, tiles) = listed(engine, pair, minimum);
    let sum = covered(&tiles);
    g.equal(
        format_args!("{name}: refusal, tiles, covered and score are those of the tiles listed"),
        [answer.refusal, answer.tiles, answer.covered, answer.score],
        [0, tiles.len(), sum, score(sum, n, m)].map(|number| number as u32),
    );
    g.equal(
        format_args!("{name}: lengths never rise, and none is below the minimum"),
        (
            tiles.is_sorted_by(|a, b| a.length >= b.length),
            tiles.iter().all(|tile| tile.length >= minimum as usize),
        ),
        (true, true),
    );
    let free = free_words(pair, &tiles);
    g.equal(
        format_args!("{name}: tiles stand in both sequences and share no word"),
        free.is_some(),
        true,
    );
    if let Some(free) = free {
        let longest = longest_free_run(pair, &free);
        g.equal(
            format_args!("{name}: no free run of the minimum is left, the longest has {longest}"),
            longest < minimum as usize,
            true,
        );
    }
    if minimum == 1 {
        g.equal(
            format_args!("{name}: covered is the sum of the smaller numbers of calls"),
            sum,
            shared_calls(pair),
        );
    }
    g.equal(
        format_args!("{name}: exchanging the sides exchanges the starts alone, by {other}"),
        turned_back(other, pair, minimum),
        (answer, tiles),
    );
}

/// Pairs of up to 2,048 words: of each kind one, and ten random ones.
pub fn larger_pairs(random: &mut Random) -> Vec<Pair> {
    let mut pairs = vec![
        related(random, MAX_WORDS, 40),
        related(random, MAX_WORDS, 4),
        related_retired(random, MAX_WORDS, 40),
        unrelated(random, MAX_WORDS, 40),
        unrelated(random, MAX_WORDS, 2),
        [vec![call(0); MAX_WORDS], vec![call(0); MAX_WORDS]],
        [periodic(MAX_WORDS, 6, 0), periodic(1_900, 9, 4)],
    ];
    pairs.extend((0..10).map(|_| mixed_pair(random, MAX_WORDS, 10)));
    pairs
}

/// Random pairs, every fourth with retired codes, and larger ones, up to 2,048 words.
pub fn laws(g: &mut Group) {
    for number in 0..8_000 {
        let codes = g.random.pick(&[1, 2, 3, 4, 6, 20]);
        let pair = mixed_pair(&mut g.random, 60, codes);
        let minimum = g.random.pick(&[1, 1, 2, 3, 5]);
        let [first, second] = &pair;
        hold(g, &format!("pair {number}"), [first, second], minimum);
    }
    for (number, pair) in larger_pairs(&mut g.random).iter().enumerate() {
        for sides in both_orders(pair) {
            for minimum in [1, 3, 8, 256] {
                hold(g, &format!("larger pair {number}"), sides, minimum);
            }
        }
    }
}
