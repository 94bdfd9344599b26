//! The cover at every minimum from one run, beside a comparison at each minimum and beside one at the
//! least.

use super::table::{About, Everywhere, Limit, Measure, Rows, Table, USUAL};
use super::{all_agree, timing, Column, Heeds, Job, Promises, FAST, START};
use crate::reference::COVER_WORDS;
use sigxume::{raw, Settings};

/// The pairs of the first tables that are covered.
const PAIRS: [&str; 5] = [
    "related",
    "unrelated",
    "identical",
    "one code, broken",
    "short, 32 words",
];

/// The minimum of the run that a cover is made from.
const MINIMUM: u32 = 1;

static COVER: Column = Column {
    name: "cover",
    run: |job| {
        let [first, second] = &job.pairs[job.at];
        let settings = Settings::for_minimum(MINIMUM);
        let (workspace, tiles) = (&mut job.workspace, &mut job.tiles);
        raw::cover_fast(first, second, settings, workspace, tiles, &mut job.cover)
    },
    heeds: Heeds::All,
};

/// A comparison at each minimum. That at the least one comes last and is the fast engine's column, whose
/// answer and tiles are the cover's.
static EACH: Column = Column {
    name: "256 comparisons",
    run: |job| {
        for k in (1..COVER_WORDS).rev() {
            let minimum = MINIMUM + k as u32;
            let answer = job.compare_fast(minimum, Settings::for_minimum(minimum));
            job.cover[k] = answer.covered;
        }
        let answer = (FAST.run)(job);
        job.cover[0] = answer.covered;
        answer
    },
    heeds: Heeds::All,
};

#[rustfmt::skip]
static TABLE: Table = Table {
    name: "cover",
    about: &[About::Tiles, About::Covered],
    columns: &[&COVER, &EACH, &FAST],
    ratios: &[(&COVER, &FAST), (&EACH, &COVER)],
    promises: &[("related", Measure::Ratio(&EACH, &COVER), Limit::AtLeast(50.0))],
    everywhere: &[Everywhere {
        measure: Measure::Ratio(&COVER, &FAST),
        most: 1.15,
        rows: Rows::All,
        others: &[],
        exceptions: &[],
    }],
    least: USUAL,
};

/// The pairs that are covered.
fn jobs() -> Vec<Job> {
    let pairs = timing::jobs().into_iter();
    let covered = pairs.filter(|job| PAIRS.contains(&&*job.name));
    covered
        .map(|job| Job::new(&job.name, job.pairs, MINIMUM, START))
        .collect()
}

/// Whether the cover is that of the comparisons at each minimum, in its answer, its words and its tiles.
pub fn agree() -> bool {
    all_agree(&mut jobs(), &[&COVER, &EACH])
}

/// Prints the time of a cover, of the comparisons at each minimum and of the one at the least.
pub fn compare_cover(promises: &mut Promises) {
    println!(
        "\nCover at every minimum. Time in microseconds of one run of it, of a comparison at each minimum \
         from {MINIMUM} to {COVER_WORDS}, and of one at minimum {MINIMUM}, all by the fast engine with the \
         library's settings; pairs of the first tables.\n"
    );
    TABLE.print(&mut jobs(), promises);
}
