//! Inputs that were found or made to be slow, at settings that make them so: what the engines take at the
//! worst.

use super::runs::parse;
use super::table::{About, Everywhere, Least, Measure, Rows, Table};
use super::{all_agree, Job, Promises, FAST, PLAIN, START, WISE};
use crate::pairs::{broken, calls, periodic, shuffled, unrelated, Pair};
use crate::random::Random;
use crate::reference::MAX_WORDS;
use crate::samples::{call, NO_CALL};
use sigxume::Settings;
use std::time::Duration;

const SEED: u64 = 1;

/// The multipliers: the pair program's; that of which only the last word counts; that of which the sum
/// of the words counts; that of which the last word and the lowest bit of the one before count.
pub const MULTIPLIERS: [u32; 4] = [257, 0, 1, 1 << 31];

/// The worst inputs that were known before: each of them at every setting.
const STRETCHES: [&str; 4] = [
    "stretches against one code",
    "stretches from 20 on",
    "stretches from 60 on",
    "one code, broken",
];

#[rustfmt::skip]
static TABLE: Table = Table {
    name: "slow inputs",
    about: &[About::Minimum, About::Start, About::Multiplier, About::Buckets],
    columns: &[&PLAIN, &FAST, &WISE],
    ratios: &[(&FAST, &WISE)],
    promises: &[],
    everywhere: &[
        Everywhere {
            measure: Measure::Ratio(&FAST, &WISE),
            most: 2.0,
            rows: Rows::Named(&STRETCHES),
            others: &[],
            exceptions: &[],
        },
        Everywhere {
            measure: Measure::Ratio(&FAST, &WISE),
            most: 3.0,
            rows: Rows::OwnHash,
            others: &[("found by search, 11", 4.0), ("found by search, 12", 4.0)],
            exceptions: &[],
        },
        Everywhere {
            measure: Measure::Milliseconds(&FAST),
            most: 100.0,
            rows: Rows::All,
            others: &[],
            exceptions: &[],
        },
        Everywhere {
            measure: Measure::Milliseconds(&PLAIN),
            most: 90.0,
            rows: Rows::All,
            others: &[],
            exceptions: &[],
        },
    ],
    least: Least { runs: 1, time: Duration::from_millis(100) },
};

/// Slow pairs of one kind.
pub struct Family {
    pub name: &'static str,
    pub pair: Pair,
    /// The minimums, each with its first search lengths.
    pub lengths: &'static [(u32, &'static [u32])],
    /// The bucket counts, each with its multipliers.
    pub hashes: &'static [(u32, &'static [u32])],
}

/// The library's own bucket count, which is the same at every minimum.
const OWN: u32 = Settings::for_minimum(1).buckets;

/// Every multiplier with the library's buckets, and with one.
const EVERY_HASH: &[(u32, &[u32])] = &[(OWN, &MULTIPLIERS), (1, &MULTIPLIERS)];

/// Every multiplier with the library's buckets, and the pair program's with one.
const SOME_HASHES: &[(u32, &[u32])] = &[(OWN, &MULTIPLIERS), (1, &[257])];

impl Family {
    /// A family that is compared with some hashes.
    fn new(name: &'static str, pair: Pair, lengths: &'static [(u32, &'static [u32])]) -> Self {
        let hashes = SOME_HASHES;
        Self {
            name,
            pair,
            lengths,
            hashes,
        }
    }

    fn jobs(self) -> Vec<Job> {
        let mut jobs = Vec::new();
        for &(minimum, starts) in self.lengths {
            for &start in starts {
                for &(buckets, multipliers) in self.hashes {
                    for &multiplier in multipliers {
                        let settings = Settings {
                            multiplier,
                            buckets,
                            start,
                        };
                        let pairs = vec![self.pair.clone()];
                        jobs.push(Job::with(self.name, pairs, minimum, settings));
                    }
                }
            }
        }
        jobs
    }
}

/// Stretches of so many calls of one code, one more, two more, .. with a call of another after each.
fn stretches(from: usize) -> Vec<u32> {
    let stretch = |length| [vec![call(1); length], vec![call(2)]].concat();
    (from..).flat_map(stretch).take(MAX_WORDS).collect()
}

/// The same stretches in another order.
fn stretches_in_disorder(random: &mut Random) -> Vec<u32> {
    let words = stretches(40);
    let parts = Vec::from_iter(words.split_inclusive(|&word| word == call(2)));
    let order = shuffled(random, parts.len());
    Vec::from_iter(order.into_iter().map(|at| parts[at])).concat()
}

/// A copy with a word in place of every `step`-th.
fn broken_at(words: &[u32], step: usize, word: u32) -> Vec<u32> {
    let mut copy = words.to_vec();
    let places = copy.iter_mut().skip(step - 1).step_by(step);
    places.for_each(|place| *place = word);
    copy
}

/// A copy with a call of another code in place of 1 word in so many.
fn broken_at_random(random: &mut Random, mut words: Vec<u32>, one_in: usize) -> Vec<u32> {
    for word in &mut words {
        if random.one_in(one_in) {
            *word = call(99);
        }
    }
    words
}

/// The Fibonacci word: 1 becomes 1 2 and 2 becomes 1, over and over.
fn fibonacci() -> Vec<u32> {
    let (mut word, mut next) = (vec![call(1)], vec![call(1), call(2)]);
    while word.len() < MAX_WORDS {
        let longer = [&next[..], &word].concat();
        (word, next) = (next, longer);
    }
    word.truncate(MAX_WORDS);
    word
}

/// The Thue-Morse word: whether the number of ones in the position's bits is odd.
fn thue_morse() -> Vec<u32> {
    let code = |at: usize| 1 + (at.count_ones() % 2) as u16;
    (0..MAX_WORDS).map(|at| call(code(at))).collect()
}

/// A de Bruijn word: two codes, of which every 11 in a row occur once, taking the greater code or the
/// smaller one wherever that is still possible.
fn de_bruijn(greater: bool) -> Vec<u32> {
    let mut seen = [false; MAX_WORDS];
    let (mut last, mut words) = (0, Vec::new());
    while words.len() < MAX_WORDS {
        let next = |bit: usize| (last * 2 + bit) % MAX_WORDS;
        let first = usize::from(greater);
        let bit = if seen[next(first)] { 1 - first } else { first };
        last = next(bit);
        seen[last] = true;
        words.push(call(1 + bit as u16));
    }
    words
}

/// One code at every second position, and any even code between: windows that end in the one code have
/// the same last word and a word before it with the same lowest bit.
fn alternating(random: &mut Random) -> Vec<u32> {
    let words = (0..MAX_WORDS).map(|at| match at % 2 {
        0 => call(1),
        _ => call(2 + 2 * random.below(500) as u16),
    });
    words.collect()
}

/// Pairs of codes with the same sum: so have all windows of even length that begin with a pair.
fn equal_sums(random: &mut Random) -> Vec<u32> {
    let pairs = (0..MAX_WORDS / 2).flat_map(|_| {
        let code = random.below(500) as u16;
        [call(code), call(1_000 - code)]
    });
    pairs.collect()
}

/// The same 16 codes in ever another order.
fn permutations(random: &mut Random) -> Vec<u32> {
    let blocks = (0..MAX_WORDS / 16).flat_map(|_| shuffled(random, 16));
    blocks.map(|code| call(code as u16)).collect()
}

/// Two codes in turn.
fn two_in_turn() -> Vec<u32> {
    (0..MAX_WORDS).map(|at| call(1 + at as u16 % 2)).collect()
}

/// Forty codes, one of which has half of all words.
fn half_one_code(random: &mut Random) -> Pair {
    [(); 2].map(|()| {
        let mut words = calls(random, MAX_WORDS, 40);
        for word in &mut words {
            if random.one_in(2) {
                *word = call(1);
            }
        }
        words
    })
}

/// The families.
pub fn families() -> Vec<Family> {
    const USUAL: &[(u32, &[u32])] = &[(8, &[START])];
    let random = &mut Random::new(SEED);
    let one_code = vec![call(1); MAX_WORDS];
    let (fibonacci, thue_morse) = (fibonacci(), thue_morse());
    let mut periods = [0, 3].map(|phase| periodic(MAX_WORDS, 7, phase));
    periods = periods.map(|words| broken_at_random(random, words, 40));
    vec![
        Family {
            name: "stretches against one code",
            pair: [one_code.clone(), stretches(40)],
            lengths: &[(38, &[38, 1_768, 1_829, 2_048]), (8, &[START, 2_048])],
            hashes: EVERY_HASH,
        },
        Family::new(
            "stretches from 20 on",
            [one_code.clone(), stretches(20)],
            &[(38, &[600]), (1, &[START])],
        ),
        Family::new(
            "stretches from 60 on",
            [one_code.clone(), stretches(60)],
            &[(38, &[1_768])],
        ),
        Family {
            name: "one code, broken",
            pair: [one_code, broken(1, MAX_WORDS)],
            lengths: &[(8, &[START, 2_048])],
            hashes: EVERY_HASH,
        },
        Family::new(
            "stretches in two orders",
            [stretches(40), stretches_in_disorder(random)],
            &[(8, &[START, 2_048])],
        ),
        Family {
            name: "two codes, unrelated",
            pair: unrelated(random, MAX_WORDS, 2),
            lengths: &[(12, &[START]), (1, &[START])],
            hashes: EVERY_HASH,
        },
        Family::new("periods, broken", periods, USUAL),
        Family::new(
            "Fibonacci word, broken",
            [broken_at(&fibonacci, 89, NO_CALL), fibonacci],
            USUAL,
        ),
        Family::new(
            "Thue-Morse word, broken",
            [broken_at(&thue_morse, 64, NO_CALL), thue_morse],
            USUAL,
        ),
        Family::new("de Bruijn words", [false, true].map(de_bruijn), USUAL),
        Family::new(
            "last words alike",
            [(); 2].map(|()| alternating(random)),
            &[(8, &[START]), (1, &[START])],
        ),
        Family::new("sums alike", [(); 2].map(|()| equal_sums(random)), USUAL),
        Family::new(
            "permutations",
            [(); 2].map(|()| permutations(random)),
            &[(16, &[START])],
        ),
        Family {
            name: "one code of 40 in two",
            pair: half_one_code(random),
            lengths: &[(8, &[START]), (1, &[START])],
            hashes: EVERY_HASH,
        },
        Family::new(
            "two codes against a period",
            [calls(random, MAX_WORDS, 2), two_in_turn()],
            &[(2, &[START, 2_048])],
        ),
    ]
}

/// A pair that a search has found: its name, the minimum, multiplier, buckets and first search length, and
/// its sequences.
type Found = (&'static str, u32, [u32; 3], [&'static str; 2]);

#[rustfmt::skip]
const FOUND: [Found; 12] = [
    ("found by search, 1", 70, [1 << 31, 1_021, 70], [
        "2x3 4x38 1x8 4x163 2 4x1835",
        "4x47 5 4x520 1 4x288 1 4x288 1 4x288 1 4x288 1 4x323",
    ]),
    ("found by search, 2", 110, [257, 1_024, 110], [
        "1x2048",
        "1x279 - 1x110 2x2 1x10 - 1x215 - 1x128 - 1x128 - 1x161 - 1x11 5 1x143 - 1x127 - 1x127 - 1x127 - 1x205 - 1x202 - 1x60",
    ]),
    ("found by search, 3", 1, [257, 1_021, 2_048], [
        "1x113 2 1x300 2 1x718 3 1x15 2 1x55 2 1x198 3 1x643",
        "1x40 2 1x41 2 1x42 2 1x7 - 1x36 2 1x54 2 1x48 2 1x47 2 1x183 2 1x213 3 1x15 2 1x55 2 1x29 2 1x105 3 1x54 2 1x19 2 1x23 4 1x117 2 1x160 2 1x166 4 1x574",
    ]),
    ("found by search, 4", 1, [257, 1_021, 1], [
        "1x571 2 1x33 2 1x28 2 1x23 2 1x5 2 1x217 2x2 4 1 2x2 4 1 2 1x48 2 1x509 5 1x56 2 1x71 2 1x469",
        "1x20 2 1x21 2 1x22 2 (1x23 2 1x2)x3 1x24 2 1x27 2 1x28 2 1x29 2 1x30 2 1x31 2 1x32 2 1x33 2 1x20 2 1x7 2 1x23 2 (1x5 2 1x23)x4 1x11 2 1x19 2 1x37 2 1x38 2 1x32 5 1x6 2 1x40 2 1x28 5 1x12 2 1x63 5 1x76 5 1x1046",
    ]),
    ("found by search, 5", 3, [257, 1_021, 8], [
        "1x501 2 1x630 2 1x255 2 1x601",
        "1x40 2 1x41 2 1x97 4 1x191 3 1x69 3 1x334 2 1x55 2 1x54 2 1x53 2 1x52 2 1x33 2 1x17 2 1x50 2 1x49 2 1x48 2 1x47 2 1x46 2 1x45 2 1x44 2 1x43 2 1x583",
    ]),
    ("found by search, 6", 181, [0, 256, 2_048], [
        "2x3 4x38 1x8 4x163 2 4x115 2 4x231 2 4x244 2 4x241 2 4x197 2 4x800",
        "4x47 5 4x7 1 4x143 1 4x11 1 4x170 1 4x435 1 4x25 1 (4x22 1 4x25)x3 4x40 3 4x47 5 4x132 1 4x74 5 4x80 1 4x19 1x2 4x111 5 4x59 1 4x172 1x4 4x108 1 4x127",
    ]),
    ("found by search, 7", 123, [257, 1_021, 123], [
        "1x109 3 1x3 2 1x346 2 1x718 3 1x270 3 1x597",
        "(1x40 2 1x2)x3 1x5 - 1x36 2 1x54 2 1x48 2 1x47 2 1x183 2 1x213 3 1x15 2 1x55 2 1x29 2 1x105 3 1x54 2 1x19 2 1x23 4 1x117 2 1x160 2 1x173 4 1x566",
    ]),
    ("found by search, 8", 1, [257, 1_021, 1], [
        "1x509 3 1x313 5 1x549 3 1x623",
        "1x25 2 1 2 1x14 2 1x55 2 1x13 2 1x21 2 1x49 2 1x10 - 1x66 2 1x47 2 1x38 - 1x9 2 1x51 2 1x104 2 1x56 2 1x80 2 1x48 2 1x47 2 1x70 2 1x70 2 1x205 - 1x143 -x2 1x140 5 1x138 3 1x516",
    ]),
    ("found by search, 9", 2, [257, 1_021, 2], [
        "1x590 3 1x607 3 1x351 5 1x497",
        "1x25 2 1 2 1x14 2 1x55 2 1x13 2 1x21 2 1x49 2 1x10 - 1x66 2 1x47 2 1x205 2 1x137 2 1x167 2 1x178 2 1x250 - 1x172 2 1x13 2 1x93 3 1x514",
    ]),
    ("found by search, 10", 1, [257, 1_021, 1], [
        "1x1226 2 1x15 - 1x758 4 1x25",
        "1x20 2 1x21 2 1x22 2 1x23 2 1x24 2 1x220 - 1x188 3 1x496 - 1x1026",
    ]),
    ("found by search, 11", 10, [257, 1_021, 10], [
        "1x559 3 1x313 5 1x396 3 1x152 3 1x619",
        "1x25 2 1 2 1x14 2 1x55 2 1x13 (2 1x10)x3 1x39 2 1x10 - 1x21 2 1x92 2 1x38 - 1x9 2 1x42 4 1x9 2 1x104 2 1x56 2 1x80 2 1x48 2 1x47 2 1x70 2 1x70 2 1x205 - 1x143 -x2 1x140 5 1x138 3 1x522",
    ]),
    ("found by search, 12", 21, [257, 1_021, 21], [
        "1x113 2 1x300 2 1x770 3 1x15 2 1x55 2 1x210 3 1x579",
        "1x40 2 1x41 2 1x42 2 1x7 - 1x36 2 1x54 2 1x48 2 1x66 2 1x24 4 1x163 2 1x155 3 1x57 3 1x15 2 1x55 2 1x29 2 1x111 3 1x54 2 1x19 2 1x23 4 1x50 2 1x67 2 1x160 2 1x166 4 1x543",
    ]),
];

/// The rows of the table.
pub fn jobs() -> Vec<Job> {
    let mut jobs = Vec::from_iter(families().into_iter().flat_map(Family::jobs));
    for (name, minimum, [multiplier, buckets, start], texts) in FOUND {
        let pair = texts.map(|text| parse(text).expect("the text of a sequence"));
        let settings = Settings {
            multiplier,
            buckets,
            start,
        };
        jobs.push(Job::with(name, vec![pair], minimum, settings));
    }
    jobs
}

/// Whether all columns answer alike. The plain engine has no settings and is asked once.
pub fn agree() -> bool {
    let mut jobs = jobs();
    let mut good = all_agree(&mut jobs, &[&FAST, &WISE]);
    for at in 0..jobs.len() {
        let (before, rest) = jobs.split_at_mut(at);
        let is_same = |other: &Job| rest[0].is_same(other, &PLAIN);
        if !before.last().is_some_and(is_same) {
            good &= rest[0].agree(&[&PLAIN, &WISE]);
        }
    }
    good
}

/// Prints every engine's time on slow inputs.
pub fn compare_slow(promises: &mut Promises) {
    println!(
        "\nSlow inputs. Time in microseconds; {MAX_WORDS} words a side. A time that does not \
         depend on a setting is measured once for all rows that differ in it alone.\n"
    );
    TABLE.print(&mut jobs(), promises);
}
