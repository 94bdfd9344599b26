//! What people would use instead, beside the fast engine, on pairs of the first table: a similarity tester
//! for texts, and the comparison that comes with Python. They answer other questions, so nothing is
//! promised of the times; the table says what they answer.

use super::matrix::Scratch;
use super::table::{self, shown};
use super::{grouped, head, row, timing, Job, FAST};
use std::path::Path;
use std::process::Command;
use std::time::Instant;
use std::{fs, io};

/// The pairs.
const PAIRS: [&str; 2] = ["related", "unrelated"];

/// A peer is run so often; the median counts.
const RUNS: usize = 15;

/// What is asked of each.
const QUESTIONS: [&str; 5] = [
    "moved blocks",
    "each word once",
    "minimum",
    "the same with sides exchanged",
    "proved",
];

/// A way to compare two files of words: the time in microseconds and the covered words of the first, or what
/// is shown in their place.
type Compare = fn(&Path, &Path) -> Result<(f64, usize), &'static str>;

/// A peer, and its answers to the questions.
struct Peer {
    name: &'static str,
    compare: Compare,
    answers: [&'static str; QUESTIONS.len()],
}

const PEERS: [Peer; 2] = [
    Peer {
        name: "sim_text, the whole process",
        compare: sim_text,
        answers: ["found", "no", "yes", "no", "no"],
    },
    Peer {
        name: "difflib, inside Python",
        compare: difflib,
        answers: ["not found", "yes", "no", "no", "no"],
    },
];

/// Compares with Python's difflib without its rule of thumb for frequent words. Python reads the files and
/// starts before the time begins.
const DIFFLIB: &str = "
import difflib, sys, time
first, second = (open(name).read().split() for name in sys.argv[1:])
start = time.perf_counter()
matcher = difflib.SequenceMatcher(None, first, second, autojunk=False)
matcher.ratio()
time = time.perf_counter() - start
print(time * 1e6, sum(block.size for block in matcher.get_matching_blocks()))
";

/// What a command prints, or what is shown in its place.
fn printed(command: &mut Command) -> Result<String, &'static str> {
    match command.output() {
        Ok(output) if output.status.success() => {
            Ok(String::from_utf8_lossy(&output.stdout).into_owned())
        }
        Err(error) if error.kind() == io::ErrorKind::NotFound => Err("not installed"),
        _ => Err("does not run"),
    }
}

/// The runs that the first file has in common with the second, each with its length in brackets.
fn sim_text(first: &Path, second: &Path) -> Result<(f64, usize), &'static str> {
    let start = Instant::now();
    let mut command = Command::new("sim_text");
    let command = command.args(["-r8", "-n", "-s", "-T"]);
    let runs = printed(command.arg(first).arg("/").arg(second))?;
    let time = start.elapsed().as_secs_f64() * 1e6;
    let length = |line: &str| -> Option<usize> {
        let (_, length) = line.rsplit_once('[')?;
        length.strip_suffix(']')?.parse().ok()
    };
    Ok((time, runs.lines().filter_map(length).sum()))
}

/// The blocks that the files have in common in the same order.
fn difflib(first: &Path, second: &Path) -> Result<(f64, usize), &'static str> {
    let mut command = Command::new("python3");
    let said = printed(command.args(["-c", DIFFLIB]).arg(first).arg(second))?;
    let numbers = said.trim().split_once(' ').and_then(|(time, covered)| {
        let (time, covered) = (time.parse().ok()?, covered.parse().ok()?);
        Some((time, covered))
    });
    numbers.ok_or("does not run")
}

/// The words of a sequence as a text.
fn text(words: &[u32]) -> String {
    let words = Vec::from_iter(words.iter().map(|word| format!("w{}", word & 0xFFFF)));
    words.join(" ") + "\n"
}

/// The median time of a peer on a pair and the covered words, as they are shown.
fn cells(job: &Job, compare: Compare) -> io::Result<[String; 2]> {
    let files = [Scratch::new("first")?, Scratch::new("second")?];
    for (file, words) in files.iter().zip(&job.pairs[0]) {
        fs::write(&file.0, text(words))?;
    }
    let mut times = Vec::new();
    let mut covered = 0;
    for _ in 0..RUNS {
        match compare(&files[0].0, &files[1].0) {
            Ok((time, words)) => {
                times.push(time);
                covered = words;
            }
            Err(instead) => return Ok([instead.to_string(), "-".to_string()]),
        }
    }
    times.sort_unstable_by(f64::total_cmp);
    Ok([shown(times[times.len() / 2]), grouped(covered as u64)])
}

/// Prints the times of the fast engine and of its peers, and what they answer.
pub fn compare_peers() -> io::Result<()> {
    println!(
        "\nPeers. Time in microseconds on the related and the unrelated pair, median of {RUNS} runs; the \
         covered words of the first sequence.\n"
    );
    let mut jobs = timing::jobs();
    jobs.retain(|job| PAIRS.contains(&&*job.name));
    jobs.iter_mut().for_each(|job| job.pairs.truncate(1));
    let mut titles = vec!["Peer".to_string()];
    titles.extend(
        PAIRS
            .iter()
            .flat_map(|pair| [pair.to_string(), format!("{pair}, covered")]),
    );
    titles.extend(QUESTIONS.map(String::from));
    head(&titles);
    let mut engine = vec![FAST.name.to_string()];
    for job in &mut jobs {
        let covered = job.run(&FAST).covered;
        let times = table::time(job, &[&FAST], table::USUAL);
        engine.extend([shown(times[0]), grouped(covered.into())]);
    }
    engine.extend(["found", "yes", "yes", "yes", "yes"].map(String::from));
    row(&engine);
    for peer in PEERS {
        let mut line = vec![peer.name.to_string()];
        for job in &jobs {
            line.extend(cells(job, peer.compare)?);
        }
        line.extend(peer.answers.map(String::from));
        row(&line);
    }
    Ok(())
}
