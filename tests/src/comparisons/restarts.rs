//! Blocks that are longer than twice the search length, at which a search begins again: of every
//! length, after shorter ones, and one after another. Where the reference does not tile a pair, it is
//! built so that its tiles are known beforehand.

use super::Problem;
use crate::engine::Engine;
use crate::group::Group;
use crate::pairs::{blocks, distinct, periodic, Sides};
use crate::random::Random;
use crate::reference::{Tile, MAX_MINIMUM, MAX_WORDS};
use crate::samples::NO_CALL;

/// A minimum of which the length is more than twice as long, where there is one.
fn low_minimum(random: &mut Random, length: usize) -> u32 {
    let most = (length.saturating_sub(1) / 2).clamp(1, MAX_MINIMUM as usize) as u32;
    random.pick(&[1, 1, 2, 3, 5, 8, most, most]).min(most)
}

/// The fast engine with first search lengths of which the length is more than twice as long, twice as
/// long or less: the minimum, one at either side of half the length, and another one.
fn searching(random: &mut Random, length: usize, minimum: u32) -> Vec<Engine> {
    let length = length as u32;
    let others = [2 * minimum, length / 3, length / 2 + 1, length, length + 1];
    let other = random.pick(&others);
    let mut starts = vec![minimum, (length - 1) / 2, length / 2, other];
    starts.retain(|start| (minimum..=MAX_WORDS as u32).contains(start));
    starts.sort_unstable();
    starts.dedup();
    let searching = |start| Engine::searching(random, start);
    starts.into_iter().map(searching).collect()
}

/// A block of codes that do not occur elsewhere, between words that match nothing, up to 2,048 words
/// a side; the reference tiles it.
pub fn every_length(g: &mut Group) {
    for length in 2..=MAX_WORDS {
        let random = &mut g.random;
        let block = distinct(0, length);
        let around = (MAX_WORDS - length).min(4);
        let [first, second] = [10_000, 20_000].map(|code| {
            let before = random.below(around + 1);
            let after = random.below(around + 1 - before);
            let after = distinct(code + before, after);
            [&distinct(code, before)[..], &block, &after].concat()
        });
        let minimum = low_minimum(random, length);
        let engines = searching(random, length, minimum);
        let problem = Problem::new([&first, &second], minimum);
        for engine in engines.into_iter().chain([Engine::Plain]) {
            let case = format_args!("block of {length} words, minimum {minimum}");
            problem.compare_by(g, case, engine, 0);
        }
    }
}

/// A block of one code or of a longer period, whose windows are found in many places, after a
/// shorter block; the text has them the other way round. The shorter block has the smaller codes, so
/// that the sequence that begins with it is the pattern.
pub fn shorter_first(g: &mut Group) {
    for length in 2..=MAX_WORDS {
        let random = &mut g.random;
        let minimum = low_minimum(random, length);
        let period = random.pick(&[1, 2, 3, 7, MAX_WORDS]);
        let block = Vec::from_iter(periodic(length, period, 0).iter().map(|word| word + 10_000));
        // A gap stands between the blocks.
        let most = length.min((MAX_WORDS - length).saturating_sub(1));
        let short = random.pick(&[0, 1, minimum as usize, length / 2, length - 1]);
        let short = short.min(most);
        let small = distinct(0, short);
        let gap = &[NO_CALL][..usize::from(short > 0)];
        let pattern = [&small[..], gap, &block].concat();
        let text = [&block[..], gap, &small].concat();
        let start = short + gap.len();
        let tiles = [[start, 0, length], [0, length + gap.len(), short]];
        let laid = tiles.iter().filter(|tile| tile[2] >= minimum as usize);
        let laid: Vec<Tile> = laid.map(|&tile| tile.into()).collect();
        let table = searching(random, length, minimum);
        let engines = [(); 2].map(|()| random.pick(&table));
        let problem = Problem::known([&pattern, &text], minimum, laid);
        for engine in engines {
            let case = format_args!(
                "{length} words of period {period} after {short} words, minimum {minimum}"
            );
            problem.compare_by(g, case, engine, 0);
        }
    }
}

/// Blocks that grow, so that a search that has begun again meets a longer one still: each more than
/// twice as long as the one before, just twice, or by chance.
pub fn in_a_row(g: &mut Group) {
    let mut rows: Vec<Vec<usize>> = vec![
        vec![3, 7, 15, 31, 63, 127, 255, 511],
        vec![1, 3, 7, 15, 31, 63, 127, 255, 511, 1_023],
        vec![2, 5, 11, 23, 47, 95, 191, 383, 767],
        vec![2, 4, 8, 16, 32, 64, 128, 256, 512, 1_012],
        vec![511, 255, 127, 63, 31, 15, 7, 3],
        vec![20, 41, 83, 167, 335, 671],
        vec![10, 20, 40, 80, 160, 320, 640],
        vec![1_023, 1_023],
        vec![682, 1_364],
        vec![681, 1_364],
    ];
    for _ in 0..200 {
        let random = &mut g.random;
        let mut lengths = Vec::new();
        let mut length = 1 + random.below(6);
        let mut rest = 20 + random.below(MAX_WORDS - 20);
        while length < rest && lengths.len() < 30 {
            lengths.push(length);
            rest -= length + 1;
            length = match random.below(5) {
                0 => 1 + random.below(length + 3),
                1 => 2 * length,
                2 => 2 * length + 1,
                3 => 2 * length + 2,
                _ => length + random.below(2 * length),
            };
        }
        rows.push(lengths);
    }
    for lengths in rows {
        let ([first, second], tiles) = blocks(&mut g.random, &lengths);
        let pair: Sides = [&first, &second];
        let longest = lengths.iter().copied().max().unwrap_or(1);
        for _ in 0..2 {
            let random = &mut g.random;
            let minimum = random.pick(&[1, 1, 2, 3, 7, 20, 100, 256]);
            let mut laid = tiles.clone();
            laid.retain(|tile| tile.length >= minimum as usize);
            let problem = Problem::known(pair, minimum, laid);
            let engines = searching(random, longest, minimum);
            for engine in engines.into_iter().chain(problem.engines(random)) {
                let case = format_args!("blocks of {lengths:?} words, minimum {minimum}");
                problem.compare_by(g, case, engine, 0);
            }
        }
    }
}
