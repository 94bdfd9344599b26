//! The tool's matrix beside the comparisons that it makes: what the files, the threads and the
//! table cost; and beside it the list of the pairs that reach a threshold.

use super::{grouped, head, median, rounded, row, Promises};
use crate::pairs::families;
use crate::program::bytes;
use crate::random::Random;
use crate::reference::{record, MAX_WORDS};
use crate::tool::TOOL;
use sigxume::Comparer;
use std::path::{Path, PathBuf};
use std::process::{Command, Stdio};
use std::sync::atomic::{AtomicUsize, Ordering};
use std::time::Instant;
use std::{env, fs, io, process, thread};

const SEED: u64 = 1;
const FAMILIES: [usize; 2] = [8, 8];
const CODES: u16 = 40;
const MINIMUM: u32 = 8;

/// Each row is timed so often; the rows take turns.
const RUNS: usize = 31;

/// The matrix may take so much longer than its comparisons on the same number of threads, and must
/// keep so much of every core busy.
const MOST_COST: f64 = 1.15;
const LEAST_CORES: f64 = 0.9;

/// The threshold of the list.
const THRESHOLD: u32 = 300;

/// The list may take so much longer than the matrix: each answer about a threshold may take 1.15 times a
/// comparison, and each pair that reaches it, which is one in nine, is then compared as well.
const MOST_LIST: f64 = 1.3;

/// The large matrix, the part of it that is made (each part has as many pairs, give or take one), how often
/// it is timed, and of how many pairs one is compared again.
const LARGE_FAMILIES: [usize; 2] = [100, 30];
const PART: &str = "2/150";
const LARGE_RUNS: usize = 3;
const COMPARED: usize = 50;

/// A time on the clock and on the processors, in seconds.
#[derive(Clone, Copy)]
struct Times {
    clock: f64,
    processors: f64,
}

/// The scores of a table, row by row; on the diagonal there is none.
type Cells = Vec<Vec<Option<u32>>>;

/// The scores of all pairs, by so many threads that take the next pair in turn, and the time.
fn compare_all(sequences: &[Vec<u32>], threads: usize) -> (Cells, f64) {
    let pairs = Vec::from_iter(
        (0..sequences.len()).flat_map(|i| (i + 1..sequences.len()).map(move |j| (i, j))),
    );
    let next = AtomicUsize::new(0);
    let start = Instant::now();
    let scores = thread::scope(|scope| {
        let work = || {
            let mut comparer = Comparer::new();
            let mut scores = Vec::new();
            while let Some(&(i, j)) = pairs.get(next.fetch_add(1, Ordering::Relaxed)) {
                let tiling = comparer.compare(&sequences[i], &sequences[j], MINIMUM);
                scores.push(((i, j), tiling.expect("an accepted pair").score()));
            }
            scores
        };
        let running = Vec::from_iter((0..threads).map(|_| scope.spawn(work)));
        let done = running.into_iter().map(|it| it.join().expect("it ends"));
        Vec::from_iter(done.flatten())
    });
    let time = start.elapsed().as_secs_f64();
    let mut cells = vec![vec![None; sequences.len()]; sequences.len()];
    for ((i, j), score) in scores {
        cells[i][j] = Some(score);
        cells[j][i] = Some(score);
    }
    (cells, time)
}

/// What the tool writes with some options, and its times as the shell measures them.
fn run_tool(file: &Path, threads: usize, options: &[&str]) -> io::Result<(String, Times)> {
    let script = "TIMEFORMAT='%R %U %S'; time \"$0\" matrix \"$@\"";
    let (minimum, threads) = (MINIMUM.to_string(), threads.to_string());
    let output = Command::new("bash")
        .args(["-c", script, TOOL, "-m", &minimum, "--threads", &threads])
        .args(options)
        .arg(file)
        .stdin(Stdio::null())
        .output()?;
    let error = String::from_utf8_lossy(&output.stderr);
    let times = Vec::from_iter(error.split_whitespace().map_while(|it| it.parse().ok()));
    match times[..] {
        [clock, user, system] if output.status.success() => Ok((
            String::from_utf8_lossy(&output.stdout).into_owned(),
            Times {
                clock,
                processors: user + system,
            },
        )),
        _ => Err(io::Error::other(format!("{TOOL}: {error}"))),
    }
}

fn cells_of(table: &str) -> Cells {
    let rows = table.lines().skip(1).map(|line| line.split(',').skip(1));
    rows.map(|row| row.map(|cell| cell.parse().ok()).collect())
        .collect()
}

/// The pairs of a table that reach the threshold, with their scores: the highest first, equal ones by row and column.
fn reaching(cells: &Cells) -> Vec<[usize; 3]> {
    let mut pairs = Vec::new();
    for (i, row) in cells.iter().enumerate() {
        for (j, score) in row.iter().enumerate().skip(i + 1) {
            let reached = score.filter(|&score| score >= THRESHOLD);
            pairs.extend(reached.map(|score| [i + 1, j + 1, score as usize]));
        }
    }
    pairs.sort_by_key(|&[_, _, score]| std::cmp::Reverse(score));
    pairs
}

/// Row, column and score of each pair of a list.
fn pairs_of(list: &str) -> Vec<[usize; 3]> {
    let lines = list.lines().skip(1).map(|line| {
        let numbers = line.split(',').map_while(|number| number.parse().ok());
        match Vec::from_iter(numbers)[..] {
            [i, j, _, _, _, score] => [i, j, score],
            _ => [0; 3],
        }
    });
    lines.collect()
}

/// A file that is removed in the end.
pub struct Scratch(pub PathBuf);

impl Scratch {
    /// A new empty file with a name in the system's folder for such files.
    pub fn new(name: &str) -> io::Result<Self> {
        let path = env::temp_dir().join(format!("sigxume-{name}-{}", process::id()));
        fs::File::create_new(&path)?;
        Ok(Self(path))
    }
}

impl Drop for Scratch {
    fn drop(&mut self) {
        // What cannot be removed is left in the system's folder for such files.
        let _ = fs::remove_file(&self.0);
    }
}

/// Sequences in families, and a file with their records.
fn collection(sizes: [usize; 2]) -> io::Result<(Vec<Vec<u32>>, Scratch)> {
    let sequences = families(&mut Random::new(SEED), sizes, MAX_WORDS, CODES);
    let records = sequences.iter().zip(0..);
    let records = Vec::from_iter(records.flat_map(|(words, id)| bytes(&record(id, words))));
    let file = Scratch::new("matrix")?;
    fs::write(&file.0, records)?;
    Ok((sequences, file))
}

/// How many pairs a list has; an error where one of those that are compared again has another score.
fn check_list(sequences: &[Vec<u32>], list: &str) -> io::Result<usize> {
    let mut comparer = Comparer::new();
    for line in list.lines().step_by(COMPARED) {
        let numbers = line.split(',').map(|number| number.parse().ok());
        let score = match Vec::from_iter(numbers)[..] {
            [Some(i), Some(j), _, _, _, _, Some(score), Some(0), Some(0)] => {
                let [first, second]: [&[u32]; 2] = [i, j].map(|at: usize| &sequences[at - 1][..]);
                let tiling = comparer.compare(first, second, MINIMUM);
                tiling.expect("an accepted pair").score() as usize == score
            }
            _ => false,
        };
        if !score {
            return Err(io::Error::other(format!(
                "the list has another score: {line}"
            )));
        }
    }
    Ok(list.lines().count())
}

/// Times the tool on a part of a large matrix, on one thread and on all.
pub fn compare_large() -> io::Result<()> {
    let (sequences, file) = collection(LARGE_FAMILIES)?;
    let cores = thread::available_parallelism()?.get();
    println!(
        "\nPart {PART} of a matrix over {} records of {MAX_WORDS} words in {} families of {}, {CODES} codes \
         (seed {SEED}), minimum {MINIMUM}, with reading the file and starting the threads. Median of \
         {LARGE_RUNS} runs; {cores} cores.\n",
        sequences.len(),
        LARGE_FAMILIES[0],
        LARGE_FAMILIES[1]
    );
    let titles = [
        "Threads",
        "pairs",
        "seconds",
        "processor time",
        "pairs per second and core",
    ];
    head(&titles.map(String::from));
    for threads in [1, cores] {
        let mut times = Vec::new();
        let mut pairs = 0;
        for _ in 0..LARGE_RUNS {
            let (list, time) = run_tool(&file.0, threads, &["--pairs", "--part", PART])?;
            pairs = check_list(&sequences, &list)?;
            times.push(time);
        }
        let clock = median(times.iter().map(|it| it.clock).collect());
        let processors = median(times.iter().map(|it| it.processors).collect());
        let rate = pairs as f64 / clock / threads as f64;
        row(&[
            threads.to_string(),
            grouped(pairs as u64),
            format!("{clock:.3}"),
            format!("{processors:.3}"),
            grouped(rate.round() as u64),
        ]);
    }
    Ok(())
}

/// Times the comparisons and the tool on one thread and on all, prints the table and notes what was
/// promised.
pub fn compare_matrix(promises: &mut Promises) -> io::Result<()> {
    let (sequences, file) = collection(FAMILIES)?;
    let cores = thread::available_parallelism()?.get();
    let counts = [1, cores];
    let mut alone = counts.map(|_| Vec::new());
    let mut tool = counts.map(|_| Vec::new());
    let mut list = counts.map(|_| Vec::new());
    let threshold = THRESHOLD.to_string();
    for _ in 0..RUNS {
        for (at, &threads) in counts.iter().enumerate() {
            let (cells, time) = compare_all(&sequences, threads);
            alone[at].push(time);
            let (table, times) = run_tool(&file.0, threads, &[])?;
            if cells != cells_of(&table) {
                return Err(io::Error::other("the matrix has other scores"));
            }
            tool[at].push(times);
            let (pairs, times) = run_tool(&file.0, threads, &["--at-least", &threshold])?;
            if reaching(&cells) != pairs_of(&pairs) {
                return Err(io::Error::other("the list has other pairs or scores"));
            }
            list[at].push(times.clock);
        }
    }
    let fish = sequences.len();
    let pairs = fish * (fish - 1) / 2;
    println!(
        "\nThe tool's matrix over {fish} records of {MAX_WORDS} words in {} families of {}, {CODES} \
         codes (seed {SEED}), minimum {MINIMUM}: {pairs} comparisons; beside the same comparisons made \
         in one process that has the sequences, and beside the list of the pairs that score at least \
         {THRESHOLD}. Median of {RUNS} runs, in seconds; {cores} cores.\n",
        FAMILIES[0], FAMILIES[1]
    );
    let titles = [
        "Threads",
        "comparisons alone",
        "`sigxume matrix`",
        "matrix / alone",
        "processor time",
        "cores busy",
        &format!("`--at-least {THRESHOLD}`"),
        "list / matrix",
    ];
    head(&titles.map(String::from));
    for (at, &threads) in counts.iter().enumerate() {
        let clock = median(tool[at].iter().map(|it| it.clock).collect());
        let processors = median(tool[at].iter().map(|it| it.processors).collect());
        let comparisons = median(alone[at].clone());
        let (cost, busy) = (rounded(clock / comparisons), rounded(processors / clock));
        let listed = median(list[at].clone());
        let more = rounded(listed / clock);
        row(&[
            threads.to_string(),
            format!("{comparisons:.3}"),
            format!("{clock:.3}"),
            format!("{cost:.2}"),
            format!("{processors:.3}"),
            format!("{busy:.2}"),
            format!("{listed:.3}"),
            format!("{more:.2}"),
        ]);
        promises.note(
            format!(
                "matrix, threads {threads}: matrix / comparisons alone at most {MOST_COST}, \
                 measured {cost:.2}"
            ),
            cost <= MOST_COST,
        );
        let least = LEAST_CORES * threads as f64;
        promises.note(
            format!(
                "matrix, threads {threads}: cores busy at least {least:.1}, measured {busy:.2}"
            ),
            busy >= least,
        );
        promises.note(
            format!(
                "matrix, threads {threads}: list of the pairs that reach {THRESHOLD} / matrix at most \
                 {MOST_LIST}, measured {more:.2}"
            ),
            more <= MOST_LIST,
        );
    }
    Ok(())
}
