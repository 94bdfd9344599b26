//! Pairs of equal length, handed in either way. 02, U2: "Exchanging the strands now only exchanges tile
//! sides for all accepted pairs, equal lengths included."

use super::plan::Plan;
use super::{compare, engines, expect, listed, turned_back};
use crate::engine::Engine;
use crate::equal_length::{decided, equal_pair, fronts, rising, stretches, with_themselves};
use crate::group::Group;
use crate::known::Letters;
use crate::pairs::{both_orders, families, Pair, Sides};
use crate::reference::{covered, exchanged, pattern_tiling, tiling, MAX_MINIMUM, MAX_WORDS};
use crate::samples::{call, with, NO_CALL};
use std::fmt::Arguments;

/// Minimums of every class, low ones most often.
const MINIMUMS: [u32; 9] = [1, 1, 2, 2, 3, 5, 8, 20, MAX_MINIMUM];

/// What each engine answers to a pair is what the next one, with settings of its own, answers to the
/// exchanged pair, with the sides of each tile exchanged.
fn exchanges(g: &mut Group, case: Arguments, pair: Sides, minimum: u32) {
    let engines = engines(&mut g.random, pair, minimum);
    for (at, &engine) in engines.iter().enumerate() {
        let other = engines[(at + 1) % engines.len()];
        g.equal(
            format_args!("{engine} and {other}: {case}, minimum {minimum}"),
            turned_back(other, pair, minimum),
            listed(engine, pair, minimum),
        );
    }
}

/// The same, and each way as the reference has it.
fn exchanges_as_defined(g: &mut Group, case: Arguments, pair: &Pair, minimum: u32) {
    let [straight, crossed] = both_orders(pair);
    exchanges(g, case, straight, minimum);
    for sides in [straight, crossed] {
        compare(g, format_args!("{case}, minimum {minimum}"), sides, minimum);
    }
}

/// Random pairs over few codes, of up to 2,048 words.
pub fn random(g: &mut Group) {
    for number in 0..8_000 {
        let random = &mut g.random;
        let (longest, codes) = (random.pick(&[4, 12, 40]), random.pick(&[2, 3, 4]));
        let length = random.below(longest + 1);
        let pair = equal_pair(random, length, codes);
        let minimum = random.pick(&MINIMUMS);
        let [first, second] = pair.each_ref().map(|words| Letters(words));
        let case = format_args!("pair {number}: {first} and {second}");
        exchanges_as_defined(g, case, &pair, minimum);
    }
    let mut lengths: Vec<usize> = (0..600).map(|_| 40 + g.random.below(361)).collect();
    lengths.extend([MAX_WORDS; 12]);
    for length in lengths {
        let random = &mut g.random;
        let codes = random.pick(&[2, 3, 4]);
        let [first, second] = &equal_pair(random, length, codes);
        let minimum = random.pick(&MINIMUMS);
        let case = format_args!("{length} words of {codes} codes");
        exchanges(g, case, [first, second], minimum);
    }
}

/// Pairs in which one word decides which sequence is the pattern, and the tiles show it: the first word, a
/// later one, one behind no-calls, a call against a no-call. What comes after it would decide otherwise in half
/// of them.
pub fn choice(g: &mut Group) {
    for front in fronts() {
        for words in rising() {
            for plan in decided(&front, words).map(Plan::of) {
                let minimums = if front.len() > 20 { 2..=2 } else { 1..=3 };
                for minimum in minimums {
                    plan.expect(g, minimum);
                }
            }
        }
    }
}

/// Pairs that differ in one word: a call against another or against a no-call. Where it is the last word, every
/// tile has equal starts whichever sequence is the pattern: the run at (p, t) reaches no further than that at
/// (p, p) or that at (t, t), whichever starts earlier.
pub fn one_difference(g: &mut Group) {
    for number in 0..8_000 {
        let random = &mut g.random;
        let longest = random.pick(&[4, 8, 8, 30]);
        let length = 1 + random.below(longest);
        let table = [call(1), call(2), NO_CALL];
        let words = Vec::from_iter((0..length).map(|_| random.pick(&table)));
        let last = length - 1;
        let at = random.pick(&[0, length / 2, last, last.saturating_sub(1)]);
        let [one, other] = random.pick(&[
            [call(1), call(2)],
            [call(1), NO_CALL],
            [NO_CALL, call(2)],
            [call(0), NO_CALL],
        ]);
        let pair = [with(&words, at, one), with(&words, at, other)];
        let minimum = random.pick(&[1, 1, 2, 3]);
        let [first, second] = pair.each_ref().map(|words| Letters(words));
        let case = format_args!("pair {number}: {first} and {second}");
        exchanges_as_defined(g, case, &pair, minimum);
        if at == last {
            let (_, tiles) = listed(Engine::Plain, both_orders(&pair)[0], minimum);
            let equal = tiles.iter().all(|tile| tile.first == tile.second);
            g.equal(format_args!("{case}: equal starts"), equal, true);
        }
    }
}

/// A sequence with itself, as one slice and as two: each tile has equal starts, and which of the two is the
/// pattern shows nowhere.
pub fn itself(g: &mut Group) {
    for words in with_themselves(&mut g.random) {
        let minimum = g.random.pick(&MINIMUMS);
        let mut tiles = stretches(&words);
        tiles.retain(|tile| tile.length >= minimum as usize);
        let case = format_args!("{} with itself", Letters(&words));
        for pair in [[&words[..], &words], [&words, &words.clone()]] {
            expect(g, case, pair, minimum, &tiles);
            exchanges(g, case, pair, minimum);
        }
    }
}

/// The 1,770 pairs of sixty sequences of one length, forwards and backwards. If the first sequence were always
/// the pattern, more than half of the scores would depend on the order.
pub fn sixty(g: &mut Group) {
    const MINIMUM: u32 = 2;
    let all = families(&mut g.random, [6, 10], 48, 3);
    let (mut pairs, mut otherwise) = (0, 0);
    for (number, first) in all.iter().enumerate() {
        for second in &all[..number] {
            let case = format_args!("{} and {}", Letters(first), Letters(second));
            let laid = tiling(first, second, MINIMUM as usize);
            expect(g, case, [first, second], MINIMUM, &laid);
            expect(g, case, [second, first], MINIMUM, &exchanged(laid));
            exchanges(g, case, [first, second], MINIMUM);
            let [forwards, backwards] = [[first, second], [second, first]]
                .map(|[first, second]| covered(&pattern_tiling(first, second, MINIMUM as usize)));
            pairs += 1;
            otherwise += usize::from(forwards != backwards);
        }
    }
    g.equal(format_args!("pairs"), pairs, 1_770);
    let case = format_args!("{otherwise} scores that would depend on the order");
    g.equal(case, 2 * otherwise > pairs, true);
}
