//! The time of a comparison: the fast engine beside Wise's port on ordinary pairs, the plain engine beside
//! the tilings that have no index, and both engines at rising lengths.

use super::table::{shown, time, About, Everywhere, Limit, Measure, Rows, Table, USUAL};
use super::{
    all_agree, exponent, head, row, Job, Promises, FAST, LITERAL, PAIR, PLAIN, START, TUNED, WISE,
};
use crate::pairs::{
    broken, calls, edited, periodic, related, relative, unrelated, with_no_calls, Pair,
};
use crate::random::Random;
use crate::reference::MAX_WORDS;
use crate::samples::call;
use crate::series;

const SEED: u64 = 1;
pub(super) const CODES: u16 = 40;
const MINIMUM: u32 = 8;
/// Of random pairs there are so many of each kind, which are compared in turn.
pub(super) const PAIRS: usize = 16;
const LENGTHS: [usize; 4] = [256, 512, 1_024, 2_048];

/// The pairs of four codes are compared at this minimum.
const FOUR_MINIMUM: u32 = 12;

/// The words of the short side of the unequal pair, and where its relative stands in the long side.
const PART: [usize; 2] = [1_000, 64];

/// The pairs on which the fast engine may be slower than the plain one, because its index cannot pay,
/// each with the reason.
const INDEX_CANNOT_PAY: [(&str, &str); 10] = [
    ("identical", ONE_SEARCH),
    ("one code", ONE_SEARCH),
    ("one code, broken", ONE_SEARCH),
    ("periodic", ONE_SEARCH),
    ("wc1.5 wc2.5", PASSED_OVER),
    ("wc3.5 wc4.5", ONE_SEARCH),
    ("short, 32 words", NOT_YET),
    ("short, 64 words", NOT_YET),
    ("short, 128 words", NOT_YET),
    ("short, 256 words", NOT_YET),
];
const ONE_SEARCH: &str = "one search or a few find the tiles, and an index costs more than they do";
const PASSED_OVER: &str =
    "a search passes over one code as fast as it reads it, and an index costs more";
const NOT_YET: &str = "an index costs more than looking at all pairs";

#[rustfmt::skip]
static ORDINARY: Table = Table {
    name: "ordinary pairs",
    about: &[About::Tiles, About::Covered],
    columns: &[&FAST, &PAIR, &WISE],
    ratios: &[(&FAST, &WISE)],
    promises: &[],
    everywhere: &[Everywhere {
        measure: Measure::Ratio(&FAST, &WISE),
        most: 1.0,
        rows: Rows::All,
        others: &[
            ("related", 0.6),
            ("unrelated", 0.6),
            ("identical", 1.2),
            ("one code", 1.2),
            ("periodic", 1.2),
            ("four codes, related", 0.6),
            ("wc1.5 wc2.5", 0.03),
        ],
        exceptions: &[],
    }],
    least: USUAL,
};

#[rustfmt::skip]
static TILINGS: Table = Table {
    name: "tilings without an index",
    about: &[About::Tiles, About::Covered],
    columns: &[&PLAIN, &FAST, &TUNED, &LITERAL],
    ratios: &[(&PLAIN, &TUNED), (&FAST, &PLAIN), (&LITERAL, &PLAIN)],
    promises: &[
        ("related", Measure::Ratio(&PLAIN, &TUNED), Limit::AtMost(1.0)),
        ("unrelated", Measure::Ratio(&PLAIN, &TUNED), Limit::AtMost(6.0)),
        ("identical", Measure::Ratio(&PLAIN, &TUNED), Limit::AtMost(6.0)),
        ("related", Measure::Ratio(&LITERAL, &PLAIN), Limit::AtLeast(300.0)),
        ("one code", Measure::Ratio(&LITERAL, &PLAIN), Limit::AtLeast(2_000.0)),
    ],
    everywhere: &[Everywhere {
        measure: Measure::Ratio(&FAST, &PLAIN),
        most: 1.0,
        rows: Rows::All,
        others: &[],
        exceptions: &INDEX_CANNOT_PAY,
    }],
    least: USUAL,
};

/// Pairs that are compared in turn, with their name.
pub(super) type Kind = (String, Vec<Pair>);

/// A comparison at a minimum.
fn at_minimum(name: &str, pairs: Vec<Pair>, minimum: u32) -> Job {
    Job::new(name, pairs, minimum, START.max(minimum))
}

/// A comparison at the minimum of most.
fn job((name, pairs): Kind) -> Job {
    at_minimum(&name, pairs, MINIMUM)
}

/// Random pairs of some kinds, made by so many generators: one of each kind by each.
pub(super) fn kinds(
    seed: u64,
    make: impl Fn(&mut Random) -> Vec<(&'static str, Pair)>,
) -> Vec<Kind> {
    let mut kinds: Vec<Kind> = Vec::new();
    for seed in (seed..).step_by(100).take(PAIRS) {
        for (at, (name, pair)) in make(&mut Random::new(seed)).into_iter().enumerate() {
            if kinds.len() == at {
                kinds.push((name.to_string(), Vec::new()));
            }
            kinds[at].1.push(pair);
        }
    }
    kinds
}

/// The random pairs that several tables have.
fn usual(random: &mut Random) -> Vec<(&'static str, Pair)> {
    let whole = calls(random, MAX_WORDS, CODES);
    vec![
        ("related", related(random, MAX_WORDS, CODES)),
        ("unrelated", unrelated(random, MAX_WORDS, CODES)),
        ("identical", [whole.clone(), whole]),
        ("short, 32 words", related(random, 32, CODES)),
        ("short, 64 words", related(random, 64, CODES)),
        ("short, 128 words", related(random, 128, CODES)),
        ("short, 256 words", related(random, 256, CODES)),
    ]
}

/// The random pairs that only the first table has.
fn further(random: &mut Random) -> Vec<(&'static str, Pair)> {
    let long = calls(random, MAX_WORDS, CODES);
    let [start, length] = PART;
    let part = relative(random, &long[start..start + length], CODES);
    let four = calls(random, MAX_WORDS, 4);
    let copy = edited(random, &four, 4, 50);
    let mut with_gaps = |one_in| {
        let pair = related(random, MAX_WORDS, CODES);
        pair.map(|words| with_no_calls(random, words, one_in))
    };
    let (few, many) = (with_gaps(20), with_gaps(4));
    vec![
        ("2,048 against 64 words", [long, part]),
        ("four codes, related", [four, copy]),
        ("four codes, unrelated", unrelated(random, MAX_WORDS, 4)),
        ("related, 1 no-call in 20", few),
        ("related, 1 no-call in 4, minimum 3", many),
    ]
}

/// The pairs that are not the paper's and that several tables have, at the minimum of most.
pub fn jobs() -> Vec<Job> {
    let one_code = vec![call(1); MAX_WORDS];
    let broken = broken(1, MAX_WORDS);
    let phases = [0, 3].map(|phase| periodic(MAX_WORDS, 7, phase));
    let single = [
        ("one code", [one_code.clone(), one_code.clone()]),
        ("one code, broken", [one_code, broken]),
        ("periodic", phases),
    ];
    let mut all = kinds(SEED, usual);
    let shorts = all.split_off(3);
    all.extend(single.map(|(name, pair)| (name.to_string(), vec![pair])));
    all.extend(shorts);
    all.into_iter().map(job).collect()
}

/// The paper's strings of some rows. Of the random ones there are several, in different orders.
fn paper(wanted: impl Fn(&series::Row) -> bool) -> Vec<Job> {
    let mut jobs = Vec::new();
    for (copies, row) in (1..).zip(series::rows().into_iter().filter(wanted)) {
        let pairs = match row.series {
            "random" => {
                let seeds = (copies as u64..).step_by(100).take(PAIRS);
                seeds.map(|seed| series::shuffled(copies, seed)).collect()
            }
            _ => vec![row.pair],
        };
        jobs.push(Job::new(&row.name, pairs, row.minimum, START));
    }
    jobs
}

/// The pairs of the first table.
pub fn ordinary() -> Vec<Job> {
    let mut all = Vec::new();
    for job in jobs() {
        let pairs = job.pairs.clone();
        match &*job.name {
            "one code, broken" => (),
            "related" => {
                all.push(job);
                all.push(at_minimum("related, minimum 3", pairs.clone(), 3));
                all.push(at_minimum("related, minimum 1", pairs, 1));
            }
            _ => all.push(job),
        }
    }
    for (name, pairs) in kinds(SEED + 1, further) {
        let minimum = match &*name {
            "four codes, related" | "four codes, unrelated" => FOUR_MINIMUM,
            "related, 1 no-call in 4, minimum 3" => 3,
            _ => MINIMUM,
        };
        all.push(at_minimum(&name, pairs, minimum));
    }
    all.extend(paper(|row| row.series == "random"));
    all.extend(paper(|row| ["wc1", "wc3"].contains(&row.series)));
    all
}

/// The pairs of the plain engine's table.
pub(super) fn tilings() -> Vec<Job> {
    let mut all = jobs();
    let longest = ["wc1.5 wc2.5", "wc3.5 wc4.5"];
    all.extend(paper(|row| longest.contains(&&*row.name)));
    all
}

/// Whether all columns answer alike on the pairs of the first table, the plain engine and the tuned tiling
/// too.
pub fn agree_ordinary() -> bool {
    let columns = [&[&PLAIN, &TUNED], ORDINARY.columns].concat();
    all_agree(&mut ordinary(), &columns)
}

/// Whether all columns answer alike on the pairs of the plain engine's table.
pub fn agree_tilings() -> bool {
    all_agree(&mut tilings(), TILINGS.columns)
}

/// Prints the fast engine's times and those of Wise's port.
pub fn compare_ordinary(promises: &mut Promises) {
    println!(
        "\nOrdinary pairs. Time of a comparison in microseconds; {MAX_WORDS} words a side unless \
         the name says otherwise, {CODES} codes and {PAIRS} pairs in turn where they are random (seed {SEED}), minimum {MINIMUM}, \
         that of four codes {FOUR_MINIMUM}, that of the paper's strings 3; first search length {START}.\n"
    );
    ORDINARY.print(&mut ordinary(), promises);
}

/// Prints the plain engine's times and those of the tilings without an index.
pub fn compare_tilings(promises: &mut Promises) {
    println!("\nThe plain engine beside tilings without an index. Time in microseconds.\n");
    TILINGS.print(&mut tilings(), promises);
}

/// Prints each engine's time at rising lengths, and the exponent that fits it.
pub fn grow() {
    type Make = fn(&mut Random, usize, u16) -> Pair;
    let makers: [(&str, Make); 2] = [("related", related), ("unrelated", unrelated)];
    let engines = [&PLAIN, &FAST];
    println!("\nThe same with growing lengths, and the exponent fitted to the times.\n");
    let mut titles = vec!["Pair, engine".to_string()];
    titles.extend(LENGTHS.map(|length| length.to_string()));
    titles.push("Exponent".to_string());
    head(&titles);
    for (name, make) in makers {
        let times = LENGTHS.map(|length| {
            let kind = kinds(SEED, |random| vec![(name, make(random, length, CODES))]);
            let mut jobs = kind.into_iter().map(job);
            time(&mut jobs.next().expect("a kind"), &engines, USUAL)
        });
        for (at, engine) in engines.iter().enumerate() {
            let times = LENGTHS
                .iter()
                .zip(&times)
                .map(|(&length, times)| (length as f64, times[at]));
            let points = Vec::from_iter(times);
            let mut cells = vec![format!("{name}, {}", engine.name)];
            cells.extend(points.iter().map(|&(_, time)| shown(time)));
            cells.push(format!("{:.2}", exponent(&points)));
            row(&cells);
        }
    }
}
