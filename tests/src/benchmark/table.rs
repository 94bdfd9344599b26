//! A table of times: every column on every pair, in turn, with ratios and what is promised of them.

use super::{grouped, head, row, Column, Job, Promises};
use std::time::{Duration, Instant};

/// A job is not timed again once it has taken so long.
const MOST_TIME: Duration = Duration::from_secs(4);

/// How long a column is timed before it is the next one's turn.
const TURN: Duration = Duration::from_millis(50);

/// Between two readings of the clock a comparison is made so often that it takes at least so long.
const LEAST_BATCH: Duration = Duration::from_micros(20);

/// The times of a column on a pair.
struct Times {
    /// How often the comparison is made between two readings of the clock.
    batch: u32,
    /// What one comparison took, in microseconds.
    runs: Vec<f64>,
    spent: Duration,
}

impl Times {
    fn new() -> Self {
        Self {
            batch: 1,
            runs: Vec::new(),
            spent: Duration::ZERO,
        }
    }

    fn enough(&self, least: Least) -> bool {
        let long = self.runs.len() >= least.runs && self.spent >= least.time;
        long || self.spent >= MOST_TIME
    }

    /// Runs the job for this long, and until there is a time.
    fn add_turn(&mut self, job: &mut Job, column: &Column, length: Duration) {
        let turn = Instant::now();
        while turn.elapsed() < length || self.runs.is_empty() {
            let start = Instant::now();
            for _ in 0..self.batch {
                job.run_in_turn(column);
            }
            let time = start.elapsed();
            if time < LEAST_BATCH {
                self.batch *= 2;
                self.runs.clear();
            } else {
                self.runs.push(microseconds(time) / f64::from(self.batch));
                self.spent += time;
            }
        }
    }

    /// The time that a quarter of the runs did not exceed. Whatever else the machine does only adds to a time, and where its speed
    /// changes from second to second the median of one column may be a fast run and that of another a slow one.
    fn lower_quartile(mut self) -> f64 {
        self.runs.sort_unstable_by(f64::total_cmp);
        self.runs[self.runs.len() / 4]
    }
}

fn microseconds(time: Duration) -> f64 {
    time.as_secs_f64() * 1e6
}

/// How often and for how long a column is timed on a pair, at the least.
#[derive(Clone, Copy)]
pub struct Least {
    pub runs: usize,
    pub time: Duration,
}

/// What most tables ask for.
pub const USUAL: Least = Least {
    runs: 3,
    time: Duration::from_millis(500),
};

/// The time of a job in each column, in microseconds. The columns take turns, so that another load
/// of the machine falls on all of them.
pub fn time(job: &mut Job, columns: &[&Column], least: Least) -> Vec<f64> {
    let mut times = Vec::from_iter(columns.iter().map(|_| Times::new()));
    while !times.iter().all(|times| times.enough(least)) {
        for (times, column) in times.iter_mut().zip(columns) {
            if !times.enough(least) {
                times.add_turn(job, column, TURN);
            }
        }
    }
    times.into_iter().map(Times::lower_quartile).collect()
}

/// The time of a comparison in one turn of this length, in microseconds.
pub fn turn(job: &mut Job, column: &Column, length: Duration) -> f64 {
    let mut times = Times::new();
    times.add_turn(job, column, length);
    times.lower_quartile()
}

/// A time in microseconds with four digits, or all before the point.
pub fn shown(time: f64) -> String {
    match time {
        ..9.9995 => format!("{time:.3}"),
        ..99.995 => format!("{time:.2}"),
        ..999.95 => format!("{time:.1}"),
        _ => grouped(time.round() as u64),
    }
}

/// How many digits after the point a ratio has.
fn digits(ratio: f64) -> usize {
    if ratio < 0.0995 {
        3
    } else {
        2
    }
}

/// A ratio as it is shown, so that nothing is judged by digits that nobody sees.
fn rounded(ratio: f64) -> f64 {
    let scale = 10_f64.powi(digits(ratio) as i32);
    (scale * ratio).round() / scale
}

fn shown_ratio(ratio: f64) -> String {
    format!("{ratio:.*}", digits(ratio))
}

/// What is shown of a job before its times.
#[derive(Clone, Copy)]
pub enum About {
    Minimum,
    Start,
    Multiplier,
    Buckets,
    Threshold,
    Tiles,
    Covered,
    Laid,
    Reached,
}

impl About {
    fn title(self) -> &'static str {
        match self {
            Self::Minimum => "Minimum",
            Self::Start => "First search length",
            Self::Multiplier => "Multiplier",
            Self::Buckets => "Buckets",
            Self::Threshold => "Threshold",
            Self::Tiles => "Tiles",
            Self::Covered => "Covered",
            Self::Laid => "Tiles laid",
            Self::Reached => "Reached",
        }
    }

    /// The setting of a job, or nothing where it is not a setting.
    fn setting(self, job: &Job) -> Option<u32> {
        match self {
            Self::Minimum => Some(job.minimum),
            Self::Start => Some(job.settings.start),
            Self::Multiplier => Some(job.settings.multiplier),
            Self::Buckets => Some(job.settings.buckets),
            Self::Threshold => Some(job.threshold),
            Self::Tiles | Self::Covered | Self::Laid | Self::Reached => None,
        }
    }
}

/// What a promise is about.
pub enum Measure {
    /// The time of one column to that of another.
    Ratio(&'static Column, &'static Column),
    /// The time of a column in milliseconds.
    Milliseconds(&'static Column),
}

/// A limit.
pub enum Limit {
    AtLeast(f64),
    AtMost(f64),
}

impl Limit {
    fn is_kept(&self, measured: f64) -> bool {
        match *self {
            Self::AtLeast(least) => measured >= least,
            Self::AtMost(most) => measured <= most,
        }
    }

    fn words(&self) -> String {
        match self {
            Self::AtLeast(least) => format!("at least {least}"),
            Self::AtMost(most) => format!("at most {most}"),
        }
    }
}

/// The rows of which something is promised.
pub enum Rows {
    All,
    /// Those where multiplier and buckets are the library's own.
    OwnHash,
    /// Those of these pairs.
    Named(&'static [&'static str]),
}

impl Rows {
    fn has(&self, row: &Timed) -> bool {
        match self {
            Self::All => true,
            Self::OwnHash => row.own_hash,
            Self::Named(names) => names.contains(&&*row.name),
        }
    }
}

/// What is promised of every pair.
pub struct Everywhere {
    pub measure: Measure,
    pub most: f64,
    pub rows: Rows,
    /// The pairs with another limit.
    pub others: &'static [(&'static str, f64)],
    /// The pairs that are excepted from it, each with the reason.
    pub exceptions: &'static [(&'static str, &'static str)],
}

/// The columns of a table, and what is shown and promised of them.
pub struct Table {
    /// What the promises call the table.
    pub name: &'static str,
    pub about: &'static [About],
    pub columns: &'static [&'static Column],
    /// The ratios that are shown: the time of one column to that of another.
    pub ratios: &'static [(&'static Column, &'static Column)],
    /// A pair, and what is promised of it.
    pub promises: &'static [(&'static str, Measure, Limit)],
    pub everywhere: &'static [Everywhere],
    pub least: Least,
}

/// A row of a table with its times.
struct Timed {
    name: String,
    /// The name with the settings that the table shows.
    label: String,
    /// Whether multiplier and buckets are the library's own.
    own_hash: bool,
    times: Vec<f64>,
}

impl Table {
    /// The time of a column in a row.
    fn time(&self, row: &Timed, column: &Column) -> f64 {
        let mut names = self.columns.iter().map(|other| other.name);
        let named = names.position(|name| name == column.name);
        row.times[named.expect("a column of the table")]
    }

    /// What was measured in a row, as it is shown, and what it is called.
    fn measured(&self, row: &Timed, measure: &Measure) -> (f64, String) {
        match measure {
            Measure::Ratio(a, b) => {
                let ratio = rounded(self.time(row, a) / self.time(row, b));
                (ratio, format!("{} / {}", a.name, b.name))
            }
            Measure::Milliseconds(column) => {
                let time = rounded(self.time(row, column) / 1_000.0);
                (time, format!("{} in ms", column.name))
            }
        }
    }

    /// Notes what was promised of single pairs.
    fn note_single(&self, rows: &[Timed], promises: &mut Promises) {
        for row in rows {
            let of_row = self.promises.iter().filter(|promise| promise.0 == row.name);
            for (_, measure, limit) in of_row {
                let (measured, what) = self.measured(row, measure);
                let (label, words) = (&row.label, limit.words());
                let shown = shown_ratio(measured);
                promises.note(
                    format!("{}, {label}: {what} {words}, measured {shown}", self.name),
                    limit.is_kept(measured),
                );
            }
        }
    }

    /// Notes what was promised of every pair: each with a limit of its own, each exception and each that
    /// breaks the promise by itself, all others in one line.
    fn note_everywhere(&self, all: &Everywhere, rows: &[Timed], promises: &mut Promises) {
        let (mut kept, mut worst) = (0, None);
        for row in rows.iter().filter(|row| all.rows.has(row)) {
            let (measured, what) = self.measured(row, &all.measure);
            let own = all.others.iter().find(|(name, _)| *name == row.name);
            let limit = Limit::AtMost(own.map_or(all.most, |(_, most)| *most));
            let line = format!(
                "{}, {}: {what} {}, measured {}",
                self.name,
                row.label,
                limit.words(),
                shown_ratio(measured)
            );
            let except = all.exceptions.iter().find(|(name, _)| *name == row.name);
            if let Some((_, reason)) = except {
                promises.except(format!("{line}, {reason}"));
            } else if own.is_some() || !limit.is_kept(measured) {
                promises.note(line, limit.is_kept(measured));
            } else {
                kept += 1;
                if worst.as_ref().is_none_or(|(most, _, _)| *most < measured) {
                    worst = Some((measured, what, &row.label));
                }
            }
        }
        if let Some((measured, what, label)) = worst {
            let (most, shown) = (all.most, shown_ratio(measured));
            promises.note(
                format!(
                    "{}, {kept} rows: {what} at most {most}, measured up to {shown} ({label})",
                    self.name
                ),
                true,
            );
        }
    }

    /// The name of a job with the settings that the table shows.
    fn label(&self, job: &Job) -> String {
        let mut label = job.name.clone();
        for about in self.about {
            if let Some(setting) = about.setting(job) {
                let title = about.title().to_lowercase();
                label += &format!(", {title} {}", grouped(setting.into()));
            }
        }
        label
    }

    /// The cells of a job before its times; tiles, covered and what is asked are those of its first pair.
    fn about(&self, job: &mut Job) -> Vec<String> {
        job.at = 0;
        let answer = job.run(self.columns[0]);
        let mut cells = vec![job.name.clone()];
        for about in self.about {
            let number = about.setting(job).unwrap_or_else(|| match about {
                About::Tiles => answer.tiles,
                About::Laid => job.ask().tiles,
                About::Reached => job.ask().reached,
                _ => answer.covered,
            });
            cells.push(match about {
                About::Reached => ["no", "yes"][number as usize].to_string(),
                _ => grouped(number.into()),
            });
        }
        cells
    }

    /// The times of a job. Where a column does the same as on the job before, it is not timed again.
    fn times(&self, job: &mut Job, before: Option<(&Job, &[f64])>) -> Vec<f64> {
        let known = |at: usize| {
            let (other, times) = before?;
            job.is_same(other, self.columns[at]).then(|| times[at])
        };
        let mut times = Vec::from_iter((0..self.columns.len()).map(known));
        let wanted = self.columns.iter().zip(&times);
        let columns = Vec::from_iter(wanted.filter(|it| it.1.is_none()).map(|it| *it.0));
        let mut measured = time(job, &columns, self.least).into_iter();
        for time in times.iter_mut().filter(|time| time.is_none()) {
            *time = measured.next();
        }
        times.into_iter().flatten().collect()
    }

    /// Prints every column's time of every pair, and the ratios; notes what was promised of them.
    pub fn print(&self, jobs: &mut [Job], promises: &mut Promises) {
        let mut titles = vec!["Pair".to_string()];
        titles.extend(self.about.iter().map(|about| about.title().to_string()));
        titles.extend(self.columns.iter().map(|column| column.name.to_string()));
        let ratios = self.ratios.iter();
        titles.extend(ratios.map(|(a, b)| format!("{} / {}", a.name, b.name)));
        head(&titles);
        let mut rows: Vec<Timed> = Vec::new();
        for at in 0..jobs.len() {
            let (done, rest) = jobs.split_at_mut(at);
            let job = &mut rest[0];
            let before = done.last().zip(rows.last().map(|row| &row.times[..]));
            let timed = Timed {
                times: self.times(job, before),
                name: job.name.clone(),
                label: self.label(job),
                own_hash: job.has_own_hash(),
            };
            let mut cells = self.about(job);
            cells.extend(timed.times.iter().map(|&time| shown(time)));
            for (a, b) in self.ratios {
                cells.push(shown_ratio(self.measured(&timed, &Measure::Ratio(a, b)).0));
            }
            row(&cells);
            rows.push(timed);
        }
        self.note_single(&rows, promises);
        for all in self.everywhere {
            self.note_everywhere(all, &rows, promises);
        }
    }
}
