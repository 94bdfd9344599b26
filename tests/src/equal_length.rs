//! Pairs of equal length: any, those in which a word decides which sequence is the pattern, and a sequence
//! with itself.

use crate::known::letters;
use crate::pairs::{any_pair, broken, calls, distinct, longest_first, periodic, Pair};
use crate::random::Random;
use crate::reference::{Tile, MAX_WORDS};
use crate::samples::{call, with, NO_CALL};

/// A pair of any kind, both sides filled up with calls to so many words.
pub fn equal_pair(random: &mut Random, length: usize, codes: u16) -> Pair {
    any_pair(random, length, codes).map(|mut words| {
        words.extend(calls(random, length - words.len(), codes));
        words
    })
}

/// Two words of which the first is the smaller: calls that differ in the low byte, in both with the low one
/// falling, in bit 15 and by as much as can be, and calls beside the no-call, whose low bits are zero.
pub fn rising() -> [[u32; 2]; 7] {
    [
        [call(3), call(4)],
        [call(255), call(256)],
        [call(0x7FFF), call(0x8000)],
        [call(0), call(0xFFFF)],
        [call(0), NO_CALL],
        [call(3), NO_CALL],
        [call(0xFFFF), NO_CALL],
    ]
}

/// Pattern, text and tiles of two sequences that come out otherwise with the other one as the pattern: at
/// minimum 2 twice as many words are then covered, or half as many.
const TELLING: [(&str, &str, &[[usize; 3]]); 2] = [
    ("bbab", "abbb", &[[0, 1, 2], [2, 0, 1], [3, 3, 1]]),
    ("abbb", "bbab", &[[0, 2, 2], [2, 0, 2]]),
];

/// The words after the front of a pair that [`decided`] makes.
const AFTER_FRONT: usize = 6;

/// What pairs begin with on both sides before they first differ: nothing, calls of codes that occur once,
/// no-calls, and calls with no-calls at the start, in the middle and at the end. Two equal no-calls do not match
/// and do not differ.
pub fn fronts() -> Vec<Vec<u32>> {
    let mut fronts = vec![Vec::new()];
    for length in [1, 2, 3, 20, MAX_WORDS - AFTER_FRONT] {
        let calls = distinct(10_000, length);
        let ends = [0, length / 2, length - 1];
        fronts.extend(ends.map(|at| with(&calls, at, NO_CALL)));
        fronts.extend([calls, vec![NO_CALL; length]]);
    }
    fronts
}

/// Pairs of pattern and text that begin with the same front and then differ first in these two words, of which
/// the smaller is the pattern's; a no-call and the telling words come after. And their tiles, which are known
/// where the front has each code once, and neither 1, 2 nor those of the two words.
pub fn decided(front: &[u32], [smaller, greater]: [u32; 2]) -> [(Pair, Vec<Tile>); 2] {
    TELLING.map(|(pattern, text, telling)| {
        let side = |word, rest| [front, &[word, NO_CALL], &letters(rest)].concat();
        let start = front.len() + 2;
        let after = telling
            .iter()
            .map(|&[p, t, length]| [start + p, start + t, length].into());
        let tiles = stretches(front).into_iter().chain(after).collect();
        let pair = [side(smaller, pattern), side(greater, text)];
        (pair, longest_first(tiles))
    })
}

/// The tiles of a sequence with itself at minimum 1: its stretches of calls, each with equal starts, the longest
/// first. No run leaves the stretches that it starts in, so that none is longer than the longest stretch with
/// itself, and none of its length has a smaller p, or the same p and a smaller t.
pub fn stretches(words: &[u32]) -> Vec<Tile> {
    let mut tiles = Vec::new();
    let mut at = 0;
    for stretch in words.split(|&word| word == NO_CALL) {
        if !stretch.is_empty() {
            tiles.push([at, at, stretch.len()].into());
        }
        at += stretch.len() + 1;
    }
    longest_first(tiles)
}

/// Sequences to compare with themselves: with repeats, and with no-calls or without.
pub fn with_themselves(random: &mut Random) -> Vec<Vec<u32>> {
    let mut all = vec![
        Vec::new(),
        vec![NO_CALL; 30],
        vec![NO_CALL; MAX_WORDS],
        vec![call(7); MAX_WORDS],
        broken(7, MAX_WORDS),
        periodic(MAX_WORDS, 7, 0),
        calls(random, MAX_WORDS, 2),
    ];
    for longest in [4, 12, 40, 300].repeat(250) {
        let codes = random.pick(&[1, 2, 3, 4]);
        let [words, _] = any_pair(random, longest, codes);
        all.push(words);
    }
    all
}
