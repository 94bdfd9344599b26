//! The engines of this build beside those of an earlier one, in one run. The earlier archive is linked into a second benchmark
//! program. Each of the two programs waits for requests, and they are asked in turn, so that whatever else the machine does falls on
//! both. Each is started several times, since where its stack and its buffers lie changes its times by some hundredths.

use super::table::{shown, turn};
use super::{head, median, rounded, row, slow, timing, Column, Job, FAST, PLAIN};
use std::collections::hash_map::DefaultHasher;
use std::error::Error;
use std::hash::{Hash, Hasher};
use std::io::{self, BufRead, BufReader, Write};
use std::path::Path;
use std::process::{Child, ChildStdin, ChildStdout, Command, Stdio};
use std::time::Duration;

/// The argument by which the program is made to time itself beside another.
pub const BESIDE: &str = "beside";

/// The argument by which it is made to wait for requests.
pub const SERVE: &str = "serve";

/// How often each program is started, how many turns the two have in a row, and how long one is. Short turns, and many, so that a
/// machine whose speed changes from second to second has the same speed in most of the turns that are divided by one another.
const STARTS: usize = 5;
const TURNS: usize = 7 * STARTS;
const TURN: Duration = Duration::from_millis(15);

/// A ratio above which a row is named once more at the end.
const NOTEWORTHY: f64 = 1.1;

/// An engine on a job.
struct Timed {
    table: &'static str,
    column: &'static Column,
    job: Job,
}

impl Timed {
    /// What the row is called. Slow inputs are known by their settings too, which the plain engine has not.
    fn label(&self) -> String {
        let (engine, name) = (self.column.name, &self.job.name);
        let settings = self.job.settings;
        match (self.table, engine == FAST.name) {
            ("slow", true) => format!(
                "{engine}: {name}, minimum {}, first search length {}, multiplier {}, {} buckets",
                self.job.minimum, settings.start, settings.multiplier, settings.buckets
            ),
            ("slow", false) => format!("{engine}: {name}, minimum {}", self.job.minimum),
            _ => format!("{engine}: {name}"),
        }
    }

    /// A number that differs where an answer or a word of a buffer does.
    fn answers(&mut self) -> u64 {
        let mut hasher = DefaultHasher::new();
        for at in 0..self.job.pairs.len() {
            self.job.at = at;
            let (answer, left) = self.job.outcome(self.column);
            let numbers = [answer.refusal, answer.tiles, answer.covered, answer.score];
            (numbers, left).hash(&mut hasher);
        }
        self.job.at = 0;
        hasher.finish()
    }
}

/// Both engines on the pairs of the first tables. The plain engine has no settings, so that slow inputs which differ in those
/// alone are one row.
fn rows() -> Vec<Timed> {
    let timed = |table, column| move |job| Timed { table, column, job };
    let mut all = Vec::from_iter(timing::ordinary().into_iter().map(timed("ordinary", &FAST)));
    all.extend(timing::tilings().into_iter().map(timed("tilings", &PLAIN)));
    all.extend(slow::jobs().into_iter().map(timed("slow", &FAST)));
    for job in slow::jobs() {
        let last = &all.last().expect("a row").job;
        if !job.is_same(last, &PLAIN) {
            all.push(timed("slow", &PLAIN)(job));
        }
    }
    all
}

/// Answers each line of the input: the number of a row alone is asked for a turn's time, with `answers` before it for its answers.
pub fn serve() -> Result<bool, String> {
    let mut rows = rows();
    for line in io::stdin().lines() {
        let line = line.map_err(|error| error.to_string())?;
        let (wanted, number) = line.rsplit_once(' ').unwrap_or(("time", &line));
        let at = number.parse::<usize>().ok();
        let Some(row) = at.and_then(|at| rows.get_mut(at)) else {
            return Err(format!("no row {number}"));
        };
        match wanted {
            "answers" => println!("{}", row.answers()),
            _ => println!("{}", turn(&mut row.job, row.column, TURN)),
        }
    }
    Ok(true)
}

/// A program that serves.
struct Server {
    child: Child,
    requests: ChildStdin,
    replies: BufReader<ChildStdout>,
}

impl Server {
    fn start(program: &Path) -> io::Result<Self> {
        let pipe = Stdio::piped;
        let mut command = Command::new(program);
        let mut child = command.arg(SERVE).stdin(pipe()).stdout(pipe()).spawn()?;
        let requests = child.stdin.take().expect("the input is a pipe");
        let replies = BufReader::new(child.stdout.take().expect("the output is a pipe"));
        Ok(Self {
            child,
            requests,
            replies,
        })
    }

    fn ask(&mut self, request: &str) -> io::Result<String> {
        writeln!(self.requests, "{request}")?;
        let mut reply = String::new();
        self.replies.read_line(&mut reply)?;
        Ok(reply.trim_end().to_string())
    }

    /// Ends it; whether it ended well.
    fn end(self) -> io::Result<bool> {
        let Self {
            mut child,
            requests,
            ..
        } = self;
        drop(requests);
        Ok(child.wait()?.success())
    }
}

/// Times both programs on every row, or on those whose names have one of these words, and prints the ratios; whether all answers agree.
/// The ratio of a row is the median of those of its turns, of which two that are divided by one another follow one another.
pub fn compare(earlier: &Path, words: &[String]) -> Result<bool, Box<dyn Error>> {
    let this = std::env::current_exe()?;
    let mut servers = Vec::new();
    for _ in 0..STARTS {
        servers.push([Server::start(&this)?, Server::start(earlier)?]);
    }
    let mut good = true;
    let mut ratios = Vec::new();
    println!("\nThis build beside the earlier one. Time of a comparison in microseconds, and the median of the ratios of turns.\n");
    head(&["Row", "this build", "earlier", "this / earlier"].map(String::from));
    for (at, timed) in rows().iter().enumerate() {
        let label = timed.label();
        if !words.is_empty() && !words.iter().any(|word| label.contains(word)) {
            continue;
        }
        let mut answers = Vec::new();
        for server in &mut servers[0] {
            answers.push(server.ask(&format!("answers {at}"))?);
        }
        if answers[0] != answers[1] {
            println!("FAILED {label}: the two builds answer differently");
            good = false;
            continue;
        }
        let mut times = [Vec::new(), Vec::new()];
        for number in 0..TURNS {
            for side in [number % 2, 1 - number % 2] {
                let server = &mut servers[number % STARTS][side];
                times[side].push(server.ask(&at.to_string())?.parse::<f64>()?);
            }
        }
        let [this, other] = &times;
        let ratio = median(
            this.iter()
                .zip(other)
                .map(|(this, other)| this / other)
                .collect(),
        );
        let [this, other] = times.map(median).map(shown);
        row(&[label.clone(), this, other, format!("{ratio:.2}")]);
        ratios.push((label, ratio));
    }
    for server in servers.into_iter().flatten() {
        good &= server.end()?;
    }
    let middle = median(ratios.iter().map(|(_, ratio)| *ratio).collect());
    println!("\nMedian of the ratios: {middle:.2}. Above {NOTEWORTHY}:\n");
    for (label, ratio) in ratios {
        if rounded(ratio) > NOTEWORTHY {
            println!("- {label}: {ratio:.2}");
        }
    }
    Ok(good)
}
