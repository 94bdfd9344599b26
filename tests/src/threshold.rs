//! Whether a pair scores at least a threshold: the answer, the number of tiles laid and each word of the
//! workspace, which is dirty before.

pub mod exchange;
pub mod laws;
pub mod limits;

use crate::comparisons::Problem;
use crate::engine::{any_settings, every_settings, Engine};
use crate::group::Group;
use crate::known::{self, letters, Letters};
use crate::pairs::{
    any_pair, blocks, both_orders, broken, calls, distinct, every_small_pair, pattern_words,
    periodic, related, unrelated, Pair, Sides,
};
use crate::random::Random;
use crate::reference::{
    self, exchanged, within, workspace_words, MAX_MINIMUM, MAX_THRESHOLD, MAX_WORDS, THRESHOLD,
};
use crate::retired::{any_retired, mixed_pair, related_retired};
use crate::samples::{call, due, fills, NO_CALL};
use sigxume::raw::{self, Told};
use sigxume::Settings;
use std::fmt::Arguments;

/// The first threshold that is refused, and others.
const WRONG_THRESHOLDS: [u32; 5] = [
    MAX_THRESHOLD + 1,
    MAX_THRESHOLD + 2,
    1 << 16,
    1 << 31,
    u32::MAX,
];

/// The words of workspace that a pair asks for.
fn workspace([first, second]: Sides) -> usize {
    workspace_words(first.len(), second.len())
}

/// Questions about a pair at a minimum.
impl Problem<'_> {
    /// Asks with a workspace that holds these words. The refusal is the one that the case is made for, 0 for
    /// none.
    fn ask_holding(
        &self,
        g: &mut Group,
        case: Arguments,
        settings: Settings,
        threshold: u32,
        held: Vec<u32>,
        refusal: u32,
    ) {
        let Self { pair, minimum, .. } = *self;
        let [first, second] = pair;
        let laid = || self.laid();
        g.lend_holding(
            format_args!(
                "{}: {case}, minimum {minimum}, threshold {threshold}",
                Engine::Fast(settings)
            ),
            [held],
            Some(refusal),
            |[lent]| raw::at_least_fast(first, second, minimum, threshold, settings, lent),
            |[lent]| reference::at_least(settings, pair, minimum, threshold, laid, lent),
        );
    }

    /// Asks with a workspace of so many random words.
    fn ask_in(
        &self,
        g: &mut Group,
        case: Arguments,
        settings: Settings,
        threshold: u32,
        room: usize,
        refusal: u32,
    ) {
        let held = g.random.words(room);
        self.ask_holding(g, case, settings, threshold, held, refusal);
    }

    /// Settings that are accepted.
    fn settings(&self, random: &mut Random) -> Settings {
        any_settings(random, self.minimum, pattern_words(self.pair))
    }

    /// Asks about thresholds, which alone may be refused: each with any settings, and with a workspace that is exact
    /// or longer.
    fn ask_each(&self, g: &mut Group, case: Arguments, thresholds: &[u32]) {
        for &threshold in thresholds {
            let settings = self.settings(&mut g.random);
            let room = workspace(self.pair) + g.random.pick(&[0, 0, 1, 40]);
            let refusal = due([(threshold > MAX_THRESHOLD, THRESHOLD)]);
            self.ask_in(g, case, settings, threshold, room, refusal);
        }
    }

    /// Thresholds just at, above and below each score that is one to decide by: of the first tiles, for each
    /// number of them, and of these with the free stretches added. And those at the ends.
    fn telling(&self) -> Vec<u32> {
        let laid = self.laid();
        let scores = (0..=laid.len())
            .flat_map(|count| within(self.pair, self.minimum as usize, &laid[..count]));
        let around = scores
            .flat_map(|score| [score.saturating_sub(1), score, score + 1].map(|at| at as u32));
        let ends = [0, 1, MAX_THRESHOLD - 1, MAX_THRESHOLD, MAX_THRESHOLD + 1];
        let mut all = Vec::from_iter(around.chain(ends));
        all.sort_unstable();
        all.dedup();
        all
    }

    /// Asks about each of those thresholds.
    fn ask_telling(&self, g: &mut Group, case: Arguments) {
        self.ask_each(g, case, &self.telling());
    }
}

/// The core's answer to a pair that is accepted, where every bit of the workspace was set before.
fn told(settings: Settings, pair: Sides, minimum: u32, threshold: u32) -> Told {
    let [first, second] = pair;
    let mut lent = vec![u32::MAX; workspace(pair)];
    raw::at_least_fast(first, second, minimum, threshold, settings, &mut lent)
}

/// The answers to every threshold in steps: the last threshold of each, whether it is reached, and the number of
/// tiles laid. Each step begins where the one before it ends, the first at 0.
type Steps = &'static [(u32, bool, u32)];

/// The answers to the known pairs at their minimums, by hand. At minimum 1 every word of the pattern is covered or
/// free in a stretch that is long enough, so that a no comes before the first tile or after the last.
#[rustfmt::skip]
const KNOWN: [(&str, Steps); known::ROWS] = [
    ("K1", &[(0, true, 0), (1000, false, 0)]),
    ("K2", &[(0, true, 0), (1000, true, 1)]),
    ("K3", &[(0, true, 0), (1000, false, 0)]),
    ("K4", &[(0, true, 0), (1000, false, 0)]),
    ("K5", &[(0, true, 0), (526, true, 1), (736, false, 1), (1000, false, 0)]),
    ("K6", &[(0, true, 0), (526, true, 1), (631, true, 2), (736, true, 3), (1000, false, 0)]),
    ("K7", &[(0, true, 0), (500, true, 1), (1000, true, 2)]),
    ("K8", &[(0, true, 0), (666, true, 1), (1000, false, 0)]),
    ("K9", &[(0, true, 0), (1000, true, 1)]),
    ("K10", &[(0, true, 0), (571, true, 1), (857, false, 1), (1000, false, 0)]),
    ("K11", &[(0, true, 0), (600, true, 1), (1000, true, 2)]),
    ("K7 exchanged", &[(0, true, 0), (500, true, 1), (1000, true, 2)]),
    ("the second is the pattern", &[(0, true, 0), (500, true, 1), (1000, true, 2)]),
    // What is counted is that the no-call is free, and not that it matches nothing.
    ("no-calls first", &[(0, true, 0), (333, true, 1), (666, true, 2), (1000, false, 2)]),
    // The no-call alone is shorter than the minimum.
    ("a no-call and a call", &[(0, true, 0), (400, true, 1), (800, true, 2), (1000, false, 2)]),
    ("a no-call for a call", &[(0, true, 0), (250, true, 1), (500, true, 2), (1000, false, 2)]),
    ("with itself", &[(0, true, 0), (400, true, 1), (800, true, 2), (1000, false, 2)]),
];

/// Further pairs, which come out otherwise if stretches are counted in another way: pattern, text, minimum and
/// the answers, by hand.
#[rustfmt::skip]
const STRETCHES: [(&str, &str, u32, Steps); 5] = [
    // If a no-call ended a stretch, no tile would be needed to see that 801 is not reached.
    ("abcd?ef", "abcdxefy", 2,
        &[(0, true, 0), (533, true, 1), (800, true, 2), (933, false, 2), (1000, false, 0)]),
    // Two no-calls between the tiles are a stretch of their own, so the tiles do not decide about 667.
    ("abc??de", "abcxdeyz", 2,
        &[(0, true, 0), (400, true, 1), (666, true, 2), (933, false, 2), (1000, false, 0)]),
    // After two tiles the x is too short a stretch, and the last three words are one that is just long enough.
    ("abcdxefgijk", "ijkqefgrabcds", 3,
        &[(0, true, 0), (333, true, 1), (583, true, 2), (833, true, 3), (916, false, 2), (1000, false, 0)]),
    // A pattern below the minimum has no stretch at all.
    ("abc", "abcd", 4, &[(0, true, 0), (1000, false, 0)]),
    // Not one word matches, and all are free.
    ("abc", "defg", 3, &[(0, true, 0), (1000, false, 0)]),
];

/// Expects these answers of the reference and of the core, whichever side is handed in first: to every threshold, and
/// with every setting of the tables to the first and the last threshold of each step.
fn expect(g: &mut Group, pair: &Pair, minimum: u32, steps: Steps) {
    for sides in both_orders(pair) {
        let [first, second] = sides.map(Letters);
        let problem = Problem::new(sides, minimum);
        let settings = Settings::for_minimum(minimum);
        let laid = || problem.laid();
        let mut lent = vec![0; workspace(sides)];
        let mut from = 0;
        for &(last, reached, tiles) in steps {
            let expected = Told {
                refusal: 0,
                reached: reached.into(),
                tiles,
            };
            for threshold in from..=last {
                let literal =
                    reference::at_least(settings, sides, minimum, threshold, laid, &mut lent);
                let found = told(settings, sides, minimum, threshold);
                g.equal(
                    format_args!("{first} and {second}, minimum {minimum}, threshold {threshold}"),
                    [literal, found],
                    [expected; 2],
                );
            }
            for settings in every_settings(minimum, pattern_words(sides)) {
                g.equal(
                    format_args!(
                        "{}: {first} and {second}, minimum {minimum}, thresholds {from} and {last}",
                        Engine::Fast(settings)
                    ),
                    [from, last].map(|threshold| told(settings, sides, minimum, threshold)),
                    [expected; 2],
                );
            }
            from = last + 1;
        }
        let all = format_args!("{first} and {second}, minimum {minimum}: the last threshold");
        g.equal(all, from, MAX_THRESHOLD + 1);
    }
}

/// The known pairs and further ones, as was found by hand.
pub fn known(g: &mut Group) {
    for (row, (name, steps)) in known::rows().zip(KNOWN) {
        g.equal(format_args!("the row of {name}"), &row.name[..], name);
        expect(g, &[row.first, row.second], row.minimum as u32, steps);
    }
    for (pattern, text, minimum, steps) in STRETCHES {
        expect(g, &[pattern, text].map(letters), minimum, steps);
    }
}

/// Retired codes. The words as handed in choose the pattern, whose stretches are counted: in the first pair 27 is below
/// 65,000, which stands for 11, so that it is the second sequence, with its last two words a stretch. And random pairs
/// of equal length.
pub fn retired(g: &mut Group) {
    let pair = [
        [65_000, 27, 30, 52, 13, 101, 118],
        [27, 65_004, 65_006, 65_008, 65_009, 12, 15],
    ];
    let steps = &[
        (0, true, 0),
        (428, true, 1),
        (714, true, 2),
        (1000, false, 2),
    ];
    expect(g, &pair.map(|codes| codes.map(call).to_vec()), 2, steps);
    for number in 0..4_000 {
        let longest = g.random.pick(&[4, 12, 40]);
        let mut pair = any_retired(&mut g.random, longest);
        let shorter = pattern_words(both_orders(&pair)[0]);
        for words in &mut pair {
            words.truncate(shorter);
        }
        let minimum = g.random.pick(&[1, 2, 2, 3, 5]);
        for sides in both_orders(&pair) {
            let [first, second] = sides.map(Letters);
            let case = format_args!("pair {number}: {first} and {second}");
            Problem::new(sides, minimum).ask_telling(g, case);
        }
    }
}

/// Every threshold from 0 to 1,001: small pairs at several minimums, empty sequences and sequences of one word
/// among them, with no-calls and with retired codes.
pub fn every(g: &mut Group) {
    let thresholds = Vec::from_iter(0..=MAX_THRESHOLD + 1);
    let mut pairs: Vec<Pair> = ["", "a", "?", "abc"]
        .into_iter()
        .flat_map(|first| ["", "a", "?b"].map(|second| [first, second].map(letters)))
        .collect();
    pairs.extend((0..200).map(|number| {
        let longest = g.random.pick(&[6, 12, 30]);
        let codes = g.random.pick(&[1, 2, 3, 6]);
        match number % 4 {
            0 => any_retired(&mut g.random, longest),
            _ => any_pair(&mut g.random, longest, codes),
        }
    }));
    for (number, [first, second]) in pairs.iter().enumerate() {
        for minimum in [1, 2, 3, 5] {
            let case = format_args!("pair {number}: {} and {}", Letters(first), Letters(second));
            Problem::new([first, second], minimum).ask_each(g, case, &thresholds);
        }
    }
}

/// Every pair of short sequences.
pub fn small(g: &mut Group) {
    every_small_pair([12, 5, 3, 4], |[first, second]| {
        for minimum in 1..=3 {
            let case = format_args!("{} and {}", Letters(first), Letters(second));
            Problem::new([first, second], minimum).ask_telling(g, case);
        }
    });
}

/// Random pairs of up to 60 words over few codes and more, every fourth with retired ones, in both orders.
pub fn random(g: &mut Group) {
    for number in 0..8_000 {
        let codes = g.random.pick(&[1, 2, 2, 3, 3, 4, 5, 6, 10, 40, 65_535]);
        let longest = g.random.pick(&[8, 20, 60]);
        let pair = mixed_pair(&mut g.random, longest, codes);
        let minimum = g.random.pick(&[1, 2, 2, 3, 3, 4, 5, 8, 20]);
        for sides in both_orders(&pair) {
            let [first, second] = sides.map(Letters);
            let case = format_args!("pair {number}: {first} and {second}");
            Problem::new(sides, minimum).ask_telling(g, case);
        }
    }
}

/// Pairs of up to 2,048 words: related, unrelated, identical, of one code, periodic, edited, much shorter than one
/// another.
pub fn larger(g: &mut Group) {
    let random = &mut g.random;
    let whole = calls(random, MAX_WORDS, 40);
    let mut pairs: Vec<(&str, Pair, u32)> = vec![
        ("related", related(random, MAX_WORDS, 40), 8),
        ("related", related(random, 1_000, 40), 3),
        ("related, few codes", related(random, 700, 4), 5),
        ("related, retired", related_retired(random, 1_000, 40), 5),
        ("unrelated", unrelated(random, MAX_WORDS, 40), 8),
        ("unrelated", unrelated(random, 1_000, 40), 2),
        ("unrelated, few codes", unrelated(random, 700, 4), 4),
        ("identical", [whole.clone(), whole.clone()], 1),
        ("identical", [whole.clone(), whole.clone()], MAX_MINIMUM),
        ("a part", [whole[300..400].to_vec(), whole.clone()], 20),
        ("a few words", [whole[..64].to_vec(), whole], 8),
        ("one code", [vec![call(7); 700], vec![call(7); 700]], 1),
        ("one code", [vec![call(7); 300], vec![call(7); 1_999]], 256),
        ("one code, broken", [vec![call(7); 600], broken(7, 600)], 20),
        ("no-calls", [(); 2].map(|()| vec![NO_CALL; MAX_WORDS]), 1),
        ("no-calls", [(); 2].map(|()| vec![NO_CALL; 400]), 256),
        ("empty and full", [Vec::new(), distinct(0, MAX_WORDS)], 1),
        ("period 7", [periodic(900, 7, 0), periodic(900, 7, 3)], 2),
        (
            "periods 2 and 3",
            [periodic(600, 2, 0), periodic(500, 3, 0)],
            2,
        ),
    ];
    for _ in 0..60 {
        let (longest, codes) = (
            random.pick(&[100, 300, 500]),
            random.pick(&[1, 2, 4, 20, 300]),
        );
        let minimum = random.pick(&[2, 3, 5, 8, 20, 64]);
        pairs.push(("edited", mixed_pair(random, longest, codes), minimum));
    }
    for (name, pair, minimum) in &pairs {
        for sides in both_orders(pair) {
            let problem = Problem::new(sides, *minimum);
            let [n, m] = sides.map(<[u32]>::len);
            let case = format_args!("{name}, {n} and {m} words");
            let mut thresholds = problem.telling();
            // With many tiles there are too many of these; those around the score are among the ones kept.
            let [score, _] = within(sides, *minimum as usize, problem.laid());
            let score = score as u32;
            let one_in = 1 + thresholds.len() / 100;
            thresholds.retain(|&at| at.abs_diff(score) <= 1 || g.random.one_in(one_in));
            problem.ask_each(g, case, &thresholds);
        }
    }
}

/// Pairs whose tiles are known beforehand, each with a no-call after it: one tile, many of one length, tiles of every
/// length from 1 to 40. At a greater minimum the short ones are part of free stretches.
pub fn known_tiles(g: &mut Group) {
    let mut rows: Vec<Vec<usize>> = [1, 2, 3, 20, 256, 257].map(|length| vec![length]).into();
    rows.extend([1, 2, 3, 8, 20, 100].map(|length| {
        let count = 300 / (length + 1);
        vec![length; count]
    }));
    rows.push((1..=40).collect());
    rows.push((1..=40).rev().collect());
    rows.push(vec![254, 255, 256, 257, 258, 1, 2, 254, 256]);
    for _ in 0..100 {
        let random = &mut g.random;
        let longest = random.pick(&[3, 10, 60]);
        let count = 2 + random.below(20);
        rows.push((0..count).map(|_| 1 + random.below(longest)).collect());
    }
    for lengths in rows {
        let ([first, second], tiles) = blocks(&mut g.random, &lengths);
        let longest = lengths.iter().max().copied().unwrap_or_default() as u32;
        for minimum in [1, 2, 3, 8, longest.min(MAX_MINIMUM)] {
            let mut laid = tiles.clone();
            laid.retain(|tile| tile.length >= minimum as usize);
            let case = format_args!("{} blocks, the longest of {longest} words", lengths.len());
            Problem::known([&first, &second], minimum, laid.clone()).ask_telling(g, case);
            Problem::known([&second, &first], minimum, exchanged(laid)).ask_telling(g, case);
        }
    }
}

/// What the workspace held before, other than random words, with words to spare and without; of questions that are
/// accepted, and of one that is refused.
pub fn held(g: &mut Group) {
    for number in 0..150 {
        let pair = any_pair(&mut g.random, 60, 4);
        let [first, second] = &pair;
        let minimum = g.random.pick(&[1, 2, 3]);
        let problem = Problem::new([first, second], minimum);
        let telling = problem.telling();
        for (name, words) in fills(&pair) {
            for more in [0, 1, 100] {
                let held = || {
                    let room = workspace(problem.pair) + more;
                    words.iter().copied().cycle().take(room).collect()
                };
                let case = format_args!("pair {number}, {name} before, {more} to spare");
                let settings = problem.settings(&mut g.random);
                let threshold = g.random.pick(&telling).min(MAX_THRESHOLD);
                problem.ask_holding(g, case, settings, threshold, held(), 0);
                let threshold = g.random.pick(&WRONG_THRESHOLDS);
                problem.ask_holding(g, case, settings, threshold, held(), THRESHOLD);
            }
        }
    }
}
