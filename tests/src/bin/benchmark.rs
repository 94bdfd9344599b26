//! Measures the core's engines beside baselines, in one run: their time on ordinary pairs and on slow ones,
//! that of a cover, of an answer about a threshold, of merging and of the tool's matrix, and their
//! instructions on the strings of Wise's paper. First all of them must answer alike, word for word; then the tables are printed,
//! and what was promised of them. The exit status is 1 where an answer differs or a promise is not kept.
//! Arguments are names of tables: only those are then made. `climb SECONDS [SEED]` searches for slow inputs
//! instead; `beside PROGRAM [WORD..]` times this build beside an earlier one, with which that program is linked.

use sigxume_tests::benchmark::{
    beside, climb, counting, cover, matrix, merging, peers, slow, threshold, timing, Promises,
};
use std::path::Path;
use std::process::ExitCode;

/// A table's name; what must hold before it is made; and what prints it.
type Row = (
    &'static str,
    fn() -> bool,
    fn(&mut Promises) -> Result<(), String>,
);

/// The tables in their order.
#[rustfmt::skip]
const TABLES: [Row; 11] = [
    ("ordinary", timing::agree_ordinary, |promises| { timing::compare_ordinary(promises); Ok(()) }),
    ("tilings", timing::agree_tilings, |promises| { timing::compare_tilings(promises); Ok(()) }),
    ("growth", || true, |_| { timing::grow(); Ok(()) }),
    ("slow", slow::agree, |promises| { slow::compare_slow(promises); Ok(()) }),
    ("cover", cover::agree, |promises| { cover::compare_cover(promises); Ok(()) }),
    ("threshold", threshold::agree, |promises| { threshold::compare_threshold(promises); Ok(()) }),
    ("merging", merging::agree, |promises| { merging::compare_merging(promises); Ok(()) }),
    ("peers", || true, |_| peers::compare_peers().map_err(|error| error.to_string())),
    ("matrix", || true, |promises| matrix::compare_matrix(promises).map_err(|error| error.to_string())),
    ("large", || true, |_| matrix::compare_large().map_err(|error| error.to_string())),
    ("counts", counting::agree, |promises| counting::compare_counts(promises).map_err(|error| error.to_string())),
];

/// The tables with these names, or all; whether all answers agree and all promises are kept.
fn measure(names: &[String]) -> Result<bool, String> {
    let wanted = |row: &&Row| names.is_empty() || names.iter().any(|name| name == row.0);
    let tables = Vec::from_iter(TABLES.iter().filter(wanted));
    if tables.len() < names.len() {
        return Err(format!(
            "the tables are {}",
            TABLES.map(|row| row.0).join(", ")
        ));
    }
    if tables.iter().any(|row| row.0 == "counts") {
        counting::ready()?;
    }
    if !tables.iter().fold(true, |all, (_, agree, _)| all & agree()) {
        return Ok(false);
    }
    println!("All columns give the same answers and tiles and leave a dirty workspace zero.");
    let promises = &mut Promises::default();
    for (_, _, print) in tables {
        print(promises)?;
    }
    println!("\nPromises:\n");
    Ok(promises.report())
}

/// Searches for slow inputs; whether every answer was right.
fn search(numbers: &[String]) -> Result<bool, String> {
    let numbers = numbers.iter().map(|number| number.parse().ok());
    match Vec::from_iter(numbers)[..] {
        [Some(seconds)] => Ok(climb::climb(seconds, 1)),
        [Some(seconds), Some(seed)] => Ok(climb::climb(seconds, seed)),
        _ => Err(format!("{} SECONDS [SEED]", climb::CLIMB)),
    }
}

fn main() -> ExitCode {
    let arguments = Vec::from_iter(std::env::args().skip(1));
    let done = match &arguments[..] {
        [count] if count == counting::COUNT => {
            counting::run();
            Ok(true)
        }
        [climb, numbers @ ..] if climb == climb::CLIMB => search(numbers),
        [serve] if serve == beside::SERVE => beside::serve(),
        [beside, earlier, words @ ..] if beside == beside::BESIDE => {
            beside::compare(Path::new(earlier), words).map_err(|error| error.to_string())
        }
        names => measure(names),
    };
    match done {
        Ok(true) => ExitCode::SUCCESS,
        Ok(false) => ExitCode::FAILURE,
        Err(error) => {
            eprintln!("{error}");
            ExitCode::FAILURE
        }
    }
}
