//! What the tables of the benchmark share: the columns, the comparisons, the promises, Markdown.

pub mod beside;
pub mod climb;
pub mod counting;
pub mod cover;
pub mod matrix;
pub mod merging;
pub mod peers;
pub mod runs;
pub mod slow;
pub mod table;
pub mod threshold;
pub mod timing;

use crate::pairs::Pair;
use crate::reference::{self, tile_words, workspace_words, COVER_WORDS};
use crate::tuned;
use crate::wise;
use sigxume::raw::{self, Compared};
use sigxume::Settings;
use std::hint::black_box;

/// The first search length of the pair program, unless the minimum is larger.
const START: u32 = 20;

/// A column of the tables, which is a way to do a job.
pub struct Column {
    pub name: &'static str,
    run: fn(&mut Job) -> Compared,
    heeds: Heeds,
}

/// Which of a job's settings a column heeds.
#[derive(Clone, Copy, PartialEq, Eq)]
enum Heeds {
    Nothing,
    Start,
    All,
}

/// The core's engines.
pub static PLAIN: Column = Column {
    name: "plain engine",
    run: |job| {
        let [first, second] = &job.pairs[job.at];
        let (workspace, tiles) = (&mut job.workspace, &mut job.tiles);
        raw::compare_plain(first, second, job.minimum, workspace, tiles)
    },
    heeds: Heeds::Nothing,
};
pub static FAST: Column = Column {
    name: "fast engine",
    run: |job| job.compare_fast(job.minimum, job.settings),
    heeds: Heeds::All,
};

/// The fast engine as the pair program sets it. With multiplier 257 and 256 buckets the bucket is the sum
/// of a window's words, so that many windows share one.
pub static PAIR: Column = Column {
    name: "fast engine, 256 buckets",
    run: |job| {
        let settings = Settings {
            buckets: 256,
            ..job.settings
        };
        job.compare_fast(job.minimum, settings)
    },
    heeds: Heeds::All,
};

/// What they are measured against.
pub static WISE: Column = Column {
    name: "Wise's port",
    run: |job| {
        let [first, second] = &job.pairs[job.at];
        let (workspace, tiles) = (&mut job.workspace, &mut job.tiles);
        let start = job.settings.start;
        wise::compare(first, second, job.minimum, start, workspace, tiles)
    },
    heeds: Heeds::Start,
};
pub static TUNED: Column = Column {
    name: "tuned tiling",
    run: |job| {
        let [first, second] = &job.pairs[job.at];
        let (workspace, tiles) = (&mut job.workspace, &mut job.tiles);
        tuned::compare(first, second, job.minimum, workspace, tiles)
    },
    heeds: Heeds::Nothing,
};
pub static LITERAL: Column = Column {
    name: "literal tiling",
    run: |job| {
        let [first, second] = &job.pairs[job.at];
        let (workspace, tiles) = (&mut job.workspace, &mut job.tiles);
        reference::compare_plain(first, second, job.minimum, workspace, tiles)
    },
    heeds: Heeds::Nothing,
};

/// A comparison, and the buffers lent to it, of exactly the size asked for; that for a cover is filled by
/// those columns that give one. Between comparisons nothing clears them; each comparison leaves the
/// workspace zero.
///
/// There may be several pairs of one kind and of the same lengths, which are compared in turn: a processor
/// soon knows the branches of a single pair by heart, and the columns would gain from that unequally.
pub struct Job {
    name: String,
    pairs: Vec<Pair>,
    /// The pair that is compared.
    at: usize,
    minimum: u32,
    settings: Settings,
    /// What is asked about, in the table where something is.
    threshold: u32,
    workspace: Vec<u32>,
    tiles: Vec<u32>,
    cover: Vec<u32>,
}

impl Job {
    /// With the library's own multiplier and buckets.
    pub fn new(name: &str, pairs: Vec<Pair>, minimum: u32, start: u32) -> Self {
        let own = Settings::for_minimum(minimum);
        Self::with(name, pairs, minimum, Settings { start, ..own })
    }

    pub fn with(name: &str, pairs: Vec<Pair>, minimum: u32, settings: Settings) -> Self {
        let [n, m] = pairs[0].each_ref().map(Vec::len);
        Self {
            name: name.to_string(),
            pairs,
            at: 0,
            minimum,
            settings,
            threshold: 0,
            workspace: vec![0; workspace_words(n, m)],
            tiles: vec![0; tile_words(n, m, minimum)],
            cover: vec![0; COVER_WORDS],
        }
    }

    fn run(&mut self, column: &Column) -> Compared {
        black_box((column.run)(black_box(self)))
    }

    /// Runs and goes on to the next pair.
    fn run_in_turn(&mut self, column: &Column) {
        self.run(column);
        self.at += 1;
        if self.at == self.pairs.len() {
            self.at = 0;
        }
    }

    /// A comparison of the pair by the fast engine.
    fn compare_fast(&mut self, minimum: u32, settings: Settings) -> Compared {
        let [first, second] = &self.pairs[self.at];
        let (workspace, tiles) = (&mut self.workspace, &mut self.tiles);
        raw::compare_fast(first, second, minimum, settings, workspace, tiles)
    }

    /// Whether multiplier and buckets are the library's own.
    fn has_own_hash(&self) -> bool {
        let Settings { start, .. } = self.settings;
        let own = Settings::for_minimum(self.minimum);
        self.settings == Settings { start, ..own }
    }

    /// Whether a column does the same on another job, which is known by its name. At another threshold the comparison
    /// is timed anew, in turn with the answer beside it.
    fn is_same(&self, other: &Self, column: &Column) -> bool {
        self.name == other.name
            && self.minimum == other.minimum
            && self.threshold == other.threshold
            && match column.heeds {
                Heeds::Nothing => true,
                Heeds::Start => self.settings.start == other.settings.start,
                Heeds::All => self.settings == other.settings,
            }
    }

    /// The answer and what is left in the buffers, where every bit was set before.
    fn outcome(&mut self, column: &Column) -> (Compared, [Vec<u32>; 3]) {
        self.workspace.fill(u32::MAX);
        self.tiles.fill(u32::MAX);
        self.cover.fill(u32::MAX);
        let answer = self.run(column);
        let left = [&self.workspace, &self.tiles, &self.cover];
        (answer, left.map(Vec::clone))
    }

    /// Whether the columns accept the pairs, give the same answers and tiles and leave the same words.
    fn agree(&mut self, columns: &[&Column]) -> bool {
        let pairs = 0..self.pairs.len();
        let good = pairs.fold(true, |all, at| {
            self.at = at;
            all & self.agree_here(columns)
        });
        self.at = 0;
        good
    }

    /// The same of one pair.
    fn agree_here(&mut self, columns: &[&Column]) -> bool {
        let outcomes = Vec::from_iter(columns.iter().map(|column| self.outcome(column)));
        let mut good = true;
        for (column, outcome) in columns.iter().zip(&outcomes) {
            if *outcome != outcomes[0] || outcome.0.refusal != 0 {
                let (name, start, one) = (&self.name, self.settings.start, columns[0].name);
                println!(
                    "FAILED {name}, first search length {start}: {one} and {} differ, or refuse",
                    column.name
                );
                good = false;
            }
        }
        good
    }
}

/// Whether the columns agree on every job; where they do not, each is named.
fn all_agree(jobs: &mut [Job], columns: &[&Column]) -> bool {
    let answers = jobs.iter_mut().map(|job| job.agree(columns));
    answers.fold(true, |all, good| all & good)
}

/// What was promised, and what came of it.
#[derive(Default)]
pub struct Promises {
    verdicts: Vec<String>,
    broken: usize,
}

impl Promises {
    /// Notes whether a promise is kept.
    fn note(&mut self, promise: String, kept: bool) {
        let verdict = if kept { "kept" } else { "NOT KEPT" };
        self.verdicts.push(format!("- {promise}: {verdict}"));
        self.broken += usize::from(!kept);
    }

    /// Notes what is not promised, and why.
    fn except(&mut self, exception: String) {
        self.verdicts.push(format!("- {exception}: not promised"));
    }

    /// Prints every promise; whether all are kept.
    pub fn report(&self) -> bool {
        for verdict in &self.verdicts {
            println!("{verdict}");
        }
        self.broken == 0
    }
}

/// A row of a Markdown table.
fn row(cells: &[String]) {
    println!("| {} |", cells.join(" | "));
}

/// Its head, with the line beneath: names on the left, numbers on the right.
fn head(cells: &[String]) {
    row(cells);
    println!("|---|{}", "---:|".repeat(cells.len() - 1));
}

/// A number as it is shown, so that nothing is judged by digits that nobody sees.
fn rounded(number: f64) -> f64 {
    (100.0 * number).round() / 100.0
}

fn median(mut numbers: Vec<f64>) -> f64 {
    numbers.sort_unstable_by(f64::total_cmp);
    numbers[numbers.len() / 2]
}

/// A number with a comma before each three digits.
fn grouped(number: u64) -> String {
    let digits = number.to_string();
    let mut text = String::new();
    for (at, digit) in digits.chars().enumerate() {
        if at > 0 && (digits.len() - at).is_multiple_of(3) {
            text.push(',');
        }
        text.push(digit);
    }
    text
}

/// The exponent B of c = A s^B, fitted to sizes and costs: the slope of a straight line through their
/// logarithms, by least squares.
fn exponent(points: &[(f64, f64)]) -> f64 {
    let count = points.len() as f64;
    let logarithms = || points.iter().map(|(size, cost)| (size.ln(), cost.ln()));
    let x = logarithms().map(|(x, _)| x).sum::<f64>() / count;
    let y = logarithms().map(|(_, y)| y).sum::<f64>() / count;
    let above: f64 = logarithms().map(|(a, b)| (a - x) * (b - y)).sum();
    let below: f64 = logarithms().map(|(a, _)| (a - x) * (a - x)).sum();
    above / below
}
