//! A search for slow inputs: pairs and settings are changed at random, and a change is kept where the engine
//! takes longer for it. Where nothing has helped for a while the search begins again: near the slowest so
//! far, from a known slow input, or from a few codes. What took longest is printed as text from which it can be made again.

use super::runs::{parse, shown};
use super::{slow, Column, Job, FAST, PLAIN, WISE};
use crate::pairs::Pair;
use crate::random::Random;
use crate::reference::{Tile, MAX_MINIMUM, MAX_WORDS};
use crate::samples::{call, NO_CALL};
use crate::wise;
use sigxume::Settings;
use std::ops::Range;
use std::time::{Duration, Instant};

/// The argument with which the program searches.
pub const CLIMB: &str = "climb";

/// After so many changes in a row that did not help the search begins again.
const PATIENCE: usize = 80;

/// The tiles of one input in so many are compared with those of Wise's port.
const CHECKED: usize = 50;

/// Of so many known inputs the slowest is begun with.
const DRAWN: usize = 12;

/// So many are printed for each engine, each from a beginning of its own.
const PRINTED: usize = 3;

/// An engine, and whether multiplier and buckets stay the library's own.
type Searched = (&'static Column, bool);

/// What is searched, one after another.
const SEARCHED: [Searched; 3] = [(&FAST, true), (&FAST, false), (&PLAIN, true)];

/// A pair and the settings with which it is compared.
#[derive(Clone)]
struct Input {
    pair: Pair,
    minimum: u32,
    settings: Settings,
}

/// A call of one of few codes, or a no-call.
fn word(random: &mut Random) -> u32 {
    match random.below(12) {
        0 => NO_CALL,
        1..6 => call(1),
        6..9 => call(2),
        code => call(code as u16 - 6),
    }
}

/// A length that is short as often as long.
fn length(random: &mut Random, most: usize) -> usize {
    let bits = usize::BITS - most.leading_zeros();
    let limit = 1_usize << random.below(bits as usize + 1);
    1 + random.below(limit.min(most))
}

/// A block of a sequence that is not empty.
fn block(random: &mut Random, words: &[u32]) -> Range<usize> {
    let size = length(random, words.len());
    let start = random.below(words.len() - size + 1);
    start..start + size
}

/// A few words over and over.
fn repeated(random: &mut Random) -> Vec<u32> {
    let period = length(random, 8);
    let words = Vec::from_iter((0..period).map(|_| word(random)));
    let size = length(random, MAX_WORDS);
    words.into_iter().cycle().take(size).collect()
}

/// Changes one side: a word, a block put in, taken out, copied from either side, repeated, turned round or
/// broken at regular distances.
fn change_side(random: &mut Random, pair: &mut Pair) {
    let [side, other] = [(); 2].map(|()| random.below(2));
    let copy = pair[other][block(random, &pair[other])].to_vec();
    let words = &mut pair[side];
    let at = block(random, words);
    match random.below(9) {
        0 => words[at.start] = word(random),
        1 => words.insert(at.start, word(random)),
        2 => drop(words.splice(at, repeated(random))),
        3 => drop(words.drain(at)),
        4 => drop(words.splice(at.start..at.start, copy)),
        5 => drop(words.splice(at, copy)),
        6 => {
            let again = words[at.clone()].repeat(1 + random.below(8));
            words.splice(at.start..at.start, again);
        }
        7 => words[at].reverse(),
        _ => {
            let (step, word) = (1 + length(random, 256), word(random));
            let places = words[at].iter_mut().step_by(step);
            places.for_each(|place| *place = word);
        }
    }
    words.truncate(MAX_WORDS);
    if words.is_empty() {
        words.push(call(1));
    }
}

/// Changes one setting; the first two where the hash stays as it is.
fn change_setting(random: &mut Random, input: &mut Input, own_hash: bool) {
    let settings = &mut input.settings;
    match random.below(if own_hash { 2 } else { 4 }) {
        0 => input.minimum = length(random, MAX_MINIMUM as usize) as u32,
        1 => {
            let any = length(random, MAX_WORDS) as u32;
            settings.start = random.pick(&[1, 20, any, 2_048]);
        }
        2 => {
            let any = random.word();
            settings.multiplier = random.pick(&[257, 0, 1, 1 << 31, any]);
        }
        _ => settings.buckets = random.pick(&[1_024, 1_021, 256, 1]),
    }
    settings.start = settings.start.max(input.minimum);
}

impl Input {
    /// The slowest input so far with some changes, the slowest of some known ones, or one of few codes.
    fn start(random: &mut Random, searched: Searched, slowest: Option<&Self>) -> Self {
        let (column, own_hash) = searched;
        if let Some(slowest) = slowest.filter(|_| random.one_in(3)) {
            return slowest.changed(random, own_hash);
        }
        let mut known = slow::jobs();
        let some = (0..DRAWN).map(|_| {
            let mut job = known.swap_remove(random.below(known.len()));
            let Settings { start, .. } = job.settings;
            let own = Settings::for_minimum(job.minimum);
            Self {
                pair: job.pairs.swap_remove(0),
                minimum: job.minimum,
                settings: match own_hash {
                    true => Settings { start, ..own },
                    false => job.settings,
                },
            }
        });
        let slow = some.max_by_key(|input| input.time(column, 1));
        let mut input = slow.expect("some are drawn");
        if random.one_in(6) {
            input.pair = [(); 2].map(|()| repeated(random));
        }
        input
    }

    /// A copy with one change or a few.
    fn changed(&self, random: &mut Random, own_hash: bool) -> Self {
        let mut input = self.clone();
        for _ in 0..length(random, 4) {
            if random.one_in(5) {
                change_setting(random, &mut input, own_hash);
            } else {
                change_side(random, &mut input.pair);
            }
        }
        input
    }

    fn job(&self) -> Job {
        let pairs = vec![self.pair.clone()];
        Job::with("climbed", pairs, self.minimum, self.settings)
    }

    /// What a column takes, the shortest of so many runs.
    fn time(&self, column: &Column, runs: usize) -> Duration {
        let mut job = self.job();
        let time = |_| {
            let start = Instant::now();
            job.run(column);
            start.elapsed()
        };
        (0..runs).map(time).min().expect("a run")
    }

    /// Whether a column lays the tiles of Wise's port.
    fn is_right(&self, column: &Column) -> bool {
        let mut job = self.job();
        let answer = job.run(column);
        let [first, second] = &self.pair;
        let (minimum, start) = (self.minimum as usize, self.settings.start as usize);
        let (laid, _) = wise::tiling(first, second, minimum, start);
        answer.refusal == 0 && Tile::list(&job.tiles, answer.tiles) == laid
    }

    /// Prints what it takes and how it is made.
    fn print(&self, column: &Column) {
        let ms = |column: &Column| self.time(column, 3).as_secs_f64() * 1e3;
        let Settings {
            multiplier,
            buckets,
            start,
        } = self.settings;
        println!(
            "\n{} {:.1} ms, {} {:.1} ms: minimum {}, multiplier {multiplier}, buckets {buckets}, first \
             search length {start}; {} and {} words",
            column.name,
            ms(column),
            WISE.name,
            ms(&WISE),
            self.minimum,
            self.pair[0].len(),
            self.pair[1].len(),
        );
        for words in &self.pair {
            let text = shown(words);
            assert_eq!(
                parse(&text).as_ref(),
                Ok(words),
                "the text has the same words"
            );
            println!("{text}");
        }
    }
}

/// Climbs from one beginning until nothing has helped for a while, or until the time is over. Answers
/// what took longest, and how long; nothing where an answer was wrong.
fn climb_once(
    random: &mut Random,
    mut input: Input,
    (column, own_hash): Searched,
    end: Instant,
) -> Option<(Duration, Input)> {
    let mut time = input.time(column, 2);
    let mut failed = 0;
    while failed < PATIENCE && Instant::now() < end {
        let next = input.changed(random, own_hash);
        failed += 1;
        // A single run may be slow by chance; two more must be slow too.
        if next.time(column, 1) > time {
            let again = next.time(column, 2);
            if again > time {
                (time, input, failed) = (again, next.clone(), 0);
            }
        }
        if random.one_in(CHECKED) && !next.is_right(column) {
            println!("FAILED {}: other tiles than {}", column.name, WISE.name);
            next.print(column);
            return None;
        }
    }
    Some((time, input))
}

/// Searches for so many seconds, a third of them for each that is searched; whether every tiling that was
/// compared was right.
pub fn climb(seconds: u64, seed: u64) -> bool {
    println!("Slow inputs found in {seconds} seconds, seed {seed}.");
    let random = &mut Random::new(seed);
    for searched in SEARCHED {
        let (column, own_hash) = searched;
        let end = Instant::now() + Duration::from_secs(seconds) / SEARCHED.len() as u32;
        let mut found: Vec<(Duration, Input)> = Vec::new();
        while Instant::now() < end {
            let slowest = found.first().map(|(_, input)| input);
            let start = Input::start(random, searched, slowest);
            match climb_once(random, start, searched, end) {
                Some(reached) => found.push(reached),
                None => return false,
            }
            found.sort_by_key(|(time, _)| std::cmp::Reverse(*time));
        }
        let hash = if own_hash {
            "the library's hash"
        } else {
            "any hash"
        };
        println!("\n{}, {hash}: begun {} times.", column.name, found.len());
        for (_, input) in found.iter().take(PRINTED) {
            if !input.is_right(column) {
                println!("FAILED {}: other tiles than {}", column.name, WISE.name);
                return false;
            }
            input.print(column);
        }
    }
    true
}
