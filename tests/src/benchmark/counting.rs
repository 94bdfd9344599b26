//! The instructions of a comparison on the paper's own strings, counted by valgrind's callgrind, beside
//! the cycles that the paper counts. The program runs itself under callgrind, which counts only within
//! `sigxume_counted` and writes a file after each call of it.

use super::{
    exponent, grouped, head, rounded, row, Column, Job, Promises, FAST, LITERAL, PAIR, PLAIN, WISE,
};
use crate::series::{self, Row};
use crate::wise;
use sigxume::raw::Compared;
use std::fs;
use std::io;
use std::path::Path;
use std::process::Command;

/// The argument with which the program runs only what is counted.
pub const COUNT: &str = "--count";

/// The columns that are counted in a row, in this order, with the place of their first search length
/// among those of the row. The plain engine has none; it stands beside T_GST, the others beside RKR_GST.
static COUNTED: [(&Column, usize); 7] = [
    (&PLAIN, 0),
    (&FAST, 0),
    (&PAIR, 0),
    (&WISE, 0),
    (&FAST, 1),
    (&PAIR, 1),
    (&WISE, 1),
];

/// The names of the first search lengths.
const STARTS: [&str; 2] = ["20", "half"];

/// A comparison to be counted.
#[no_mangle]
#[inline(never)]
pub fn sigxume_counted(job: &mut Job, column: &Column) -> Compared {
    job.run(column)
}

/// The comparison of a row with one of its first search lengths.
fn job(row: &Row, start: usize) -> Job {
    let start = row.starts()[start];
    Job::new(&row.name, vec![row.pair.clone()], row.minimum, start)
}

/// Whether all columns answer alike on every row, and the port of Wise's program queues as many maximal
/// matches as the paper says that it did, wherever the strings are the paper's.
pub fn agree() -> bool {
    let mut good = true;
    for row in series::rows() {
        good &= job(&row, 0).agree(&[&PLAIN, &LITERAL]);
        for start in 0..STARTS.len() {
            good &= job(&row, start).agree(&[&PLAIN, &FAST, &PAIR, &WISE]);
        }
        let ([first, second], [_, half]) = (&row.pair, row.starts());
        let (_, queued) = wise::tiling(first, second, row.minimum as usize, half as usize);
        if row.series != "random" && queued != row.counts.matches {
            let (name, matches) = (&row.name, row.counts.matches);
            println!(
                "FAILED {name}: {} queues {queued} matches, not {matches}",
                WISE.name
            );
            good = false;
        }
    }
    good
}

/// Runs each comparison that is counted, once.
pub fn run() {
    for row in series::rows() {
        for (column, start) in COUNTED {
            sigxume_counted(&mut job(&row, start), column);
        }
    }
}

/// Says what to do if valgrind cannot be run.
pub fn ready() -> Result<(), String> {
    match Command::new("valgrind").arg("--version").output() {
        Ok(done) if done.status.success() => Ok(()),
        _ => Err("valgrind cannot be run: install it (Debian: the package valgrind)".to_string()),
    }
}

/// The instructions in a file of callgrind.
fn total(file: &Path) -> io::Result<u64> {
    let text = fs::read_to_string(file)?;
    let mut lines = text.lines();
    let total = lines.find_map(|line| line.strip_prefix("totals:"));
    total
        .and_then(|total| total.trim().parse().ok())
        .ok_or_else(|| io::Error::other(format!("no total in {}", file.display())))
}

/// The instructions of each comparison that is counted, row by row.
fn count(rows: usize) -> io::Result<Vec<[u64; COUNTED.len()]>> {
    let program = std::env::current_exe()?;
    let folder = program.with_extension("callgrind");
    if folder.exists() {
        fs::remove_dir_all(&folder)?;
    }
    fs::create_dir(&folder)?;
    let file = folder.join("out");
    let done = Command::new("valgrind")
        .args(["--tool=callgrind", "--collect-atstart=no"])
        .args([
            "--toggle-collect=sigxume_counted",
            "--dump-after=sigxume_counted",
        ])
        .arg(format!("--callgrind-out-file={}", file.display()))
        .arg(&program)
        .arg(COUNT)
        .output()?;
    if !done.status.success() {
        let said = String::from_utf8_lossy(&done.stderr);
        return Err(io::Error::other(format!("callgrind failed:\n{said}")));
    }
    // The files are numbered from 1.
    let mut files = (1..).map(|number| folder.join(format!("out.{number}")));
    let mut counts = Vec::new();
    for _ in 0..rows {
        let mut row = [0; COUNTED.len()];
        for (count, file) in row.iter_mut().zip(&mut files) {
            *count = total(&file)?;
        }
        counts.push(row);
    }
    Ok(counts)
}

/// A row of the paper with what was counted here.
struct Counted {
    row: Row,
    counts: [u64; COUNTED.len()],
}

impl Counted {
    /// What a column took with a first search length.
    fn count(&self, column: &Column, start: usize) -> u64 {
        let same = |other: &(&Column, usize)| other.0.name == column.name && other.1 == start;
        self.counts[COUNTED.iter().position(same).expect("a counted column")]
    }
}

/// A series of the paper, or its strings that are none.
fn series<'a>(counted: &'a [Counted], name: &'a str) -> impl Iterator<Item = &'a Counted> {
    counted.iter().filter(move |it| it.row.series == name)
}

/// Prints the paper's cycles and the instructions here, row by row.
fn list(counted: &[Counted]) {
    println!(
        "\nInstructions of a comparison, beside the cycles of the paper's programs; first search \
         length 20, and half the pattern.\n"
    );
    let mut titles = ["Strings, minimum", "Words", "T_GST", PLAIN.name]
        .map(String::from)
        .to_vec();
    for start in STARTS {
        titles.push(format!("RKR_GST, {start}"));
        titles.extend([&FAST, &PAIR, &WISE].map(|column| format!("{}, {start}", column.name)));
    }
    head(&titles);
    for it in counted {
        let paper = it.row.counts;
        let mut cells = vec![format!("{}, {}", it.row.name, it.row.minimum)];
        cells.push(grouped(it.row.words() as u64));
        cells.extend([paper.tuned, it.count(&PLAIN, 0)].map(grouped));
        for (start, cycles) in paper.cycles.into_iter().enumerate() {
            cells.push(grouped(cycles));
            cells.extend([&FAST, &PAIR, &WISE].map(|column| grouped(it.count(column, start))));
        }
        row(&cells);
    }
}

/// The greatest part of the paper's cycles that the fast engine may take in any row of a series.
const PARTS: [(&str, f64); 5] = [
    ("match_3", 0.3),
    ("nomatch", 0.15),
    ("random", 0.35),
    ("wc1", 0.08),
    ("wc3", 0.3),
];

/// Notes for each series whether the fast engine takes as few instructions as promised.
fn note_counts(counted: &[Counted], promises: &mut Promises) {
    for (name, part) in PARTS {
        for (start, shown) in STARTS.iter().enumerate() {
            let ratios = series(counted, name)
                .map(|it| it.count(&FAST, start) as f64 / it.row.counts.cycles[start] as f64);
            let worst = ratios.fold(0.0, f64::max);
            let fast = FAST.name;
            promises.note(
                format!(
                    "{name}, first search length {shown}: {fast} / RKR_GST at most {part} in every \
                     row, counted up to {worst:.3}"
                ),
                worst <= part,
            );
        }
    }
}

/// The series and first search lengths at which the fast engine's exponent may be greater than the paper's,
/// and how great: on small strings it takes a still smaller part of the paper's cycles than on large ones.
const STEEPER: [(&str, &str, f64); 2] = [("random", "20", 1.25), ("wc3", "20", 1.0)];

/// The greatest exponent that a series may have.
fn steepest(name: &str, start: &str, paper: f64) -> f64 {
    let same = STEEPER.iter().find(|row| (row.0, row.1) == (name, start));
    same.map_or(paper, |row| row.2)
}

/// Prints the exponents of the series, and notes those that were promised.
fn fit(counted: &[Counted], promises: &mut Promises) {
    println!(
        "\nExponents B of c = A s^B, s the words of both strings: as the paper prints them; fitted \
         to the paper's counts in the rows above; fitted to the instructions.\n"
    );
    let titles = [
        "Series, first search length",
        "Paper, printed",
        "Paper, these rows",
        FAST.name,
        PAIR.name,
        WISE.name,
    ];
    head(&titles.map(String::from));
    for (name, printed) in series::EXPONENTS {
        for (start, shown) in STARTS.iter().enumerate() {
            let fitted = |cost: &dyn Fn(&Counted) -> u64| {
                let points =
                    series(counted, name).map(|it| (it.row.words() as f64, cost(it) as f64));
                rounded(exponent(&Vec::from_iter(points)))
            };
            let paper = fitted(&|it| it.row.counts.cycles[start]);
            let [fast, pair, port] =
                [&FAST, &PAIR, &WISE].map(|column| fitted(&|it| it.count(column, start)));
            let mut cells = vec![format!("{name}, {shown}")];
            cells.extend([printed[start], paper, fast, pair, port].map(|b| format!("{b:.2}")));
            row(&cells);
            let most = steepest(name, shown, paper);
            let (limit, kept) = match name {
                "wc1" => ("below", fast < most),
                _ => ("at most", fast <= most),
            };
            let engine = FAST.name;
            promises.note(
                format!(
                    "{name}, first search length {shown}: exponent of the {engine} {limit} \
                     {most:.2}, fitted {fast:.2}, the paper's {paper:.2}"
                ),
                kept,
            );
        }
    }
}

/// Counts, prints both tables and notes what was promised of them.
pub fn compare_counts(promises: &mut Promises) -> io::Result<()> {
    let rows = series::rows();
    let counts = count(rows.len())?;
    let counted = rows.into_iter().zip(counts);
    let counted = Vec::from_iter(counted.map(|(row, counts)| Counted { row, counts }));
    list(&counted);
    note_counts(&counted, promises);
    fit(&counted, promises);
    Ok(())
}
