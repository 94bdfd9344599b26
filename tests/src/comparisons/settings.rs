//! Settings of the fast engine: each with each, those that are refused included, on pairs that make
//! the search hard. The tiles never depend on them.

use super::{every_fast, listed, Problem};
use crate::engine::{Engine, BUCKETS, MULTIPLIERS, WRONG_BUCKETS};
use crate::group::Group;
use crate::known::letters;
use crate::pairs::{
    any_pair, both_orders, broken, calls, distinct, pattern_words, periodic, related, unrelated,
    Pair,
};
use crate::reference::{self, Tile, MAX_BUCKETS, MAX_MINIMUM, MAX_WORDS, MINIMUM, WINDOW};
use crate::samples::{call, due, NO_CALL};

/// Pairs of every kind, most of them small.
fn kinds(g: &mut Group) -> Vec<(&'static str, Pair)> {
    let random = &mut g.random;
    let block = distinct(0, 257);
    let moved = [&block[256..], &[NO_CALL], &block[..256], &[NO_CALL]].concat();
    vec![
        ("worked", [letters("caabaad"), letters("baadcaaaabaa")]),
        ("empty", [Vec::new(), letters("ab")]),
        ("one code", [vec![call(1); 30], vec![call(1); 41]]),
        ("period 3", [periodic(40, 3, 0), periodic(50, 3, 1)]),
        ("related", related(random, 64, 4)),
        ("unrelated", unrelated(random, 40, 2)),
        ("edited", any_pair(random, 60, 3)),
        ("blocks of 256", [block, moved]),
    ]
}

/// Multipliers, bucket counts, first search lengths and minimums around each limit, each with each.
pub fn each(g: &mut Group) {
    for (name, pair) in kinds(g) {
        for sides in both_orders(&pair) {
            for minimum in [0, 1, 2, 20, MAX_MINIMUM, MAX_MINIMUM + 1] {
                let problem = Problem::new(sides, minimum);
                let case = format_args!("{name}, minimum {minimum}");
                let limit = MAX_WORDS as u32;
                let half = pattern_words(sides) as u32 / 2;
                let mut starts = vec![minimum.saturating_sub(1), minimum, minimum + 1, 20];
                starts.extend([half, limit, limit + 1, u32::MAX]);
                starts.sort_unstable();
                starts.dedup();
                let multipliers = MULTIPLIERS.into_iter().chain([g.random.word()]);
                for multiplier in multipliers {
                    for buckets in BUCKETS.into_iter().chain(WRONG_BUCKETS) {
                        for &start in &starts {
                            let refusal = due([
                                (minimum == 0 || minimum > MAX_MINIMUM, MINIMUM),
                                (buckets == 0 || buckets > MAX_BUCKETS, reference::BUCKETS),
                                (start < minimum || start > limit, WINDOW),
                            ]);
                            let engine = Engine::fast(multiplier, buckets, start);
                            problem.compare_by(g, case, engine, refusal);
                        }
                    }
                }
            }
        }
    }
}

/// Sequences in which every window is the same, or hashes like every other: one code, a period at
/// multiplier 1, windows that end alike at multiplier 0, one bucket for all.
pub fn windows_alike(g: &mut Group) {
    for [n, m] in [[1, 1], [2, 5], [20, 20], [30, 31], [64, 200], [257, 256]] {
        let pair = [vec![call(3); n], vec![call(3); m]];
        let shorter = n.min(m);
        for minimum in [1, 2, 20, MAX_MINIMUM] {
            let tile = Tile::from([0, 0, shorter]);
            let laid = if shorter < minimum as usize {
                Vec::new()
            } else {
                vec![tile]
            };
            for sides in both_orders(&pair) {
                let problem = Problem::known(sides, minimum, laid.clone());
                for engine in every_fast(sides, minimum) {
                    let case = format_args!("one code, {n} and {m} words, minimum {minimum}");
                    problem.compare_by(g, case, engine, 0);
                }
            }
        }
    }
    for number in 0..1_500 {
        let random = &mut g.random;
        let period = 1 + random.below(8);
        let length = period * (1 + random.below(5));
        let [n, m] = [(); 2].map(|()| random.below(80));
        let sides = [n, m].map(|n| {
            let phase = random.below(period);
            let mut words = periodic(n, period, phase);
            for _ in 0..random.below(4).min(n) {
                words[random.below(n)] = random.pick(&[NO_CALL, call(0), call(9)]);
            }
            words
        });
        let minimum = 1 + random.below(length) as u32;
        let problem = Problem::new([&sides[0], &sides[1]], minimum);
        for multiplier in [0, 1, 1 << 31, u32::MAX] {
            let buckets = g.random.pick(&BUCKETS);
            let engine = Engine::fast(multiplier, buckets, length as u32);
            let case = format_args!("pair {number}, period {period}, minimum {minimum}");
            problem.compare_by(g, case, engine, 0);
        }
    }
    for number in 0..300 {
        let random = &mut g.random;
        let length = 2 + random.below(5);
        let sides = [(); 2].map(|()| {
            let blocks = (0..random.below(20)).map(|_| {
                let codes = calls(random, length - 1, 2);
                [&codes[..], &[call(9)]].concat()
            });
            blocks.collect::<Vec<_>>().concat()
        });
        let problem = Problem::new([&sides[0], &sides[1]], 1 + random.below(length) as u32);
        for multiplier in [0, 1, 2, 1 << 31] {
            let engine = Engine::fast(multiplier, 1, length as u32);
            let case = format_args!("blocks {number}, which end alike, of {length} words");
            problem.compare_by(g, case, engine, 0);
        }
    }
}

/// Periodic sequences of one period or two, in every phase, whole or with a word changed.
pub fn periodic_sequences(g: &mut Group) {
    for number in 0..3_000 {
        let random = &mut g.random;
        let longest = random.pick(&[12, 40, 120]);
        let [one, any] = [(); 2].map(|()| 1 + random.below(9));
        let other = random.pick(&[one, one, one + 1, 2 * one, any]);
        let pair = [one, other].map(|period| {
            let phase = random.below(period);
            let length = random.below(longest + 1);
            let mut words = periodic(length, period, phase);
            if length > 0 && random.one_in(2) {
                words[random.below(length)] = random.pick(&[NO_CALL, call(0), call(1), call(99)]);
            }
            words
        });
        let minimum = random.pick(&[1, 1, 2, 3, 5, 10, 20]);
        for sides in both_orders(&pair) {
            let problem = Problem::new(sides, minimum);
            let case = format_args!("pair {number}, periods {one} and {other}, minimum {minimum}");
            problem.compare(g, case);
        }
    }
}

/// Pairs of up to 2,048 words that both engines must tile alike, with many settings.
pub fn both_engines(g: &mut Group) {
    let random = &mut g.random;
    let whole = calls(random, MAX_WORDS, 40);
    let one_code = vec![call(1); MAX_WORDS];
    let pairs: Vec<(&str, Pair, u32)> = vec![
        ("related", related(random, MAX_WORDS, 40), 8),
        ("related", related(random, MAX_WORDS, 40), 1),
        ("related, few codes", related(random, MAX_WORDS, 4), 5),
        ("unrelated", unrelated(random, MAX_WORDS, 40), 3),
        ("unrelated, few codes", unrelated(random, 1_500, 3), 9),
        ("identical", [whole.clone(), whole], 1),
        ("one code", [one_code.clone(), one_code.clone()], 1),
        ("one code, broken", [one_code, broken(1, MAX_WORDS)], 20),
        (
            "period 7",
            [periodic(MAX_WORDS, 7, 0), periodic(1_999, 7, 3)],
            2,
        ),
        (
            "periods 6 and 9",
            [periodic(MAX_WORDS, 6, 0), periodic(MAX_WORDS, 9, 4)],
            1,
        ),
        ("edited", any_pair(random, MAX_WORDS, 10), 4),
        ("edited", any_pair(random, MAX_WORDS, 200), 2),
    ];
    for (name, pair, minimum) in &pairs {
        for sides in both_orders(pair) {
            let (_, laid) = listed(Engine::Plain, sides, *minimum);
            let problem = Problem::known(sides, *minimum, laid);
            for _ in 0..5 {
                let pattern = pattern_words(sides);
                let engine = Engine::any_fast(&mut g.random, *minimum, pattern);
                let [n, m] = sides.map(<[u32]>::len);
                let case = format_args!("{name}, {n} and {m} words, minimum {minimum}");
                problem.compare_by(g, case, engine, 0);
            }
        }
    }
}
