//! Sequences to compare: over few codes, of codes that occur once, periodic, and edited copies.

use crate::random::Random;
use crate::reference::Tile;
use crate::samples::{call, NO_CALL};
use std::ops::Range;

/// The first and the second sequence of a comparison.
pub type Pair = [Vec<u32>; 2];

/// A pair as it is handed in, first and second.
pub type Sides<'a> = [&'a [u32]; 2];

/// The pair as handed in and the other way round.
pub fn both_orders(pair: &Pair) -> [Sides<'_>; 2] {
    let [first, second] = pair;
    [[first, second], [second, first]]
}

/// The length of the pattern, which is that of the shorter sequence.
pub fn pattern_words([first, second]: Sides) -> usize {
    first.len().min(second.len())
}

/// Every pair of short sequences: of one code, of two codes, of three, and of two and the no-call, each of up to so many
/// words.
pub fn every_small_pair(longest: [usize; 4], mut with: impl FnMut(Sides)) {
    let [a, b, c] = [1, 2, 3].map(call);
    let tables: [&[u32]; 4] = [&[a], &[a, b], &[a, b, c], &[a, b, NO_CALL]];
    for (table, longest) in tables.into_iter().zip(longest) {
        let all = every_sequence(table, longest);
        for first in &all {
            for second in &all {
                with([first, second]);
            }
        }
    }
}

/// Every sequence of up to `longest` words that are all in the table.
fn every_sequence(table: &[u32], longest: usize) -> Vec<Vec<u32>> {
    let mut all = vec![Vec::new()];
    let mut start = 0;
    for _ in 0..longest {
        let shorter = start..all.len();
        start = all.len();
        for at in shorter {
            for &word in table {
                all.push([&all[at][..], &[word]].concat());
            }
        }
    }
    all
}

/// A call of one of the codes 1 to `codes`.
fn letter(random: &mut Random, codes: u16) -> u32 {
    call(1 + random.below(codes.into()) as u16)
}

/// Calls of the codes 1 to `codes`.
pub fn calls(random: &mut Random, length: usize, codes: u16) -> Vec<u32> {
    (0..length).map(|_| letter(random, codes)).collect()
}

/// Calls of the codes from `start` on, each once.
pub fn distinct(start: usize, length: usize) -> Vec<u32> {
    (start..start + length)
        .map(|code| call(u16::try_from(code).expect("a code has 16 bits")))
        .collect()
}

/// Calls of the codes 0 to `period - 1` over and over, beginning with the code `phase`.
pub fn periodic(length: usize, period: usize, phase: usize) -> Vec<u32> {
    let codes = (phase..phase + length).map(|at| (at % period) as u16);
    codes.map(call).collect()
}

/// One code with a no-call in place of every 128th word. Against the code alone almost every pair of
/// positions begins a long run, and none of them is much longer than another.
pub fn broken(code: u16, length: usize) -> Vec<u32> {
    let mut words = vec![call(code); length];
    words
        .iter_mut()
        .skip(127)
        .step_by(128)
        .for_each(|word| *word = NO_CALL);
    words
}

/// 0 to `n - 1` in any order.
pub fn shuffled(random: &mut Random, n: usize) -> Vec<usize> {
    let mut order: Vec<usize> = (0..n).collect();
    for i in (1..n).rev() {
        order.swap(i, random.below(i + 1));
    }
    order
}

/// Tiles with the longest first, those of one length in the order they had.
pub fn longest_first(mut tiles: Vec<Tile>) -> Vec<Tile> {
    tiles.sort_by_key(|tile| std::cmp::Reverse(tile.length));
    tiles
}

/// Blocks of these lengths in this order on the first side, in any order on the second, each with a
/// no-call after it; and their tiles, which are known since every code occurs in one block only. The
/// first side is the pattern: the codes rise on it, so it has the smaller word where the two first
/// differ, which is where a block begins.
pub fn blocks(random: &mut Random, lengths: &[usize]) -> (Pair, Vec<Tile>) {
    let start = |order: &[usize], i: usize| -> usize {
        let before = order.iter().take_while(|&&other| other != i);
        before.map(|&other| lengths[other] + 1).sum()
    };
    let straight = Vec::from_iter(0..lengths.len());
    let order = shuffled(random, lengths.len());
    let separated: Vec<Vec<u32>> = straight
        .iter()
        .map(|&i| [&distinct(start(&straight, i), lengths[i])[..], &[NO_CALL]].concat())
        .collect();
    let tiles = straight
        .iter()
        .map(|&i| [start(&straight, i), start(&order, i), lengths[i]].into())
        .collect();
    let second: Vec<&[u32]> = order.iter().map(|&i| &separated[i][..]).collect();
    let pair = [separated.concat(), second.concat()];
    // Those of one length are in the order of the pattern.
    (pair, longest_first(tiles))
}

/// A stretch of 1 to `longest` words within the first `length` ones.
fn stretch(random: &mut Random, length: usize, longest: usize) -> Range<usize> {
    let size = 1 + random.below(longest.min(length));
    let start = random.below(length - size + 1);
    start..start + size
}

/// Puts a block before some word, or at the end.
fn put_block(random: &mut Random, words: &mut Vec<u32>, block: Vec<u32>) {
    let at = random.below(words.len() + 1);
    words.splice(at..at, block);
}

/// Cuts a block of up to `longest` words out and puts it back elsewhere.
fn move_block(random: &mut Random, words: &mut Vec<u32>, longest: usize) {
    let block = words.drain(stretch(random, words.len(), longest)).collect();
    put_block(random, words, block);
}

/// Changes a word or a block: another code, a no-call, a word more, a block less, a block moved,
/// repeated or turned round.
fn edit(random: &mut Random, words: &mut Vec<u32>, codes: u16) {
    if words.is_empty() {
        words.push(letter(random, codes));
    }
    let length = words.len();
    let block = stretch(random, length, length);
    match random.below(7) {
        0 => words[block.start] = letter(random, codes),
        1 => words[block.start] = NO_CALL,
        2 => words.insert(block.start, letter(random, codes)),
        3 => drop(words.drain(block)),
        4 => move_block(random, words, length),
        5 => put_block(random, words, words[block].to_vec()),
        _ => words[block].reverse(),
    }
}

/// A pair of up to `longest` words a side and up to `codes` codes, with or without no-calls: the
/// second sequence is an edited copy of the first, or has nothing to do with it; at random the two
/// are exchanged or made equally long.
pub fn any_pair(random: &mut Random, longest: usize, codes: u16) -> Pair {
    let side = |random: &mut Random| {
        let length = random.below(longest + 1);
        let mut words = calls(random, length, codes);
        let no_calls = random.pick(&[0, 0, 1, length / 4]);
        for _ in 0..no_calls.min(length) {
            words[random.below(length)] = NO_CALL;
        }
        words
    };
    let mut first = side(random);
    let mut second = if random.one_in(4) {
        side(random)
    } else {
        let mut copy = first.clone();
        for _ in 0..random.below(6) {
            edit(random, &mut copy, codes);
        }
        copy
    };
    if random.one_in(3) {
        let shorter = first.len().min(second.len());
        first.truncate(shorter);
        second.truncate(shorter);
    }
    second.truncate(longest);
    if random.one_in(2) {
        [second, first]
    } else {
        [first, second]
    }
}

/// A copy in which 1 word in so many is replaced and some blocks of up to a sixteenth of the whole are moved.
pub fn edited(random: &mut Random, words: &[u32], codes: u16, one_in: usize) -> Vec<u32> {
    let mut copy = words.to_vec();
    for word in &mut copy {
        if random.one_in(one_in) {
            *word = letter(random, codes);
        }
    }
    for _ in 0..8 {
        move_block(random, &mut copy, words.len() / 16);
    }
    copy
}

/// A copy in which 1 word in 20 is replaced and some blocks are moved.
pub fn relative(random: &mut Random, words: &[u32], codes: u16) -> Vec<u32> {
    edited(random, words, codes, 20)
}

/// The same with 1 word in so many a no-call.
pub fn with_no_calls(random: &mut Random, mut words: Vec<u32>, one_in: usize) -> Vec<u32> {
    for word in &mut words {
        if random.one_in(one_in) {
            *word = NO_CALL;
        }
    }
    words
}

/// Two sequences of one length: the second is a relative of the first.
pub fn related(random: &mut Random, length: usize, codes: u16) -> Pair {
    let first = calls(random, length, codes);
    let second = relative(random, &first, codes);
    [first, second]
}

/// Sequences of one length in families: the members of one are relatives of the same sequence.
pub fn families(
    random: &mut Random,
    [families, members]: [usize; 2],
    length: usize,
    codes: u16,
) -> Vec<Vec<u32>> {
    let mut all = Vec::new();
    for _ in 0..families {
        let founder = calls(random, length, codes);
        all.extend((0..members).map(|_| relative(random, &founder, codes)));
    }
    all
}

/// Two sequences of one length that have nothing to do with one another.
pub fn unrelated(random: &mut Random, length: usize, codes: u16) -> Pair {
    [(); 2].map(|()| calls(random, length, codes))
}
