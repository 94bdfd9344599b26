//! Whether a pair scores at least a threshold, beside the comparison that gives the score.

use super::table::{About, Everywhere, Measure, Rows, Table, USUAL};
use super::{timing, Column, Heeds, Job, Promises, FAST};
use crate::reference::{self, Tile};
use sigxume::raw::{self, Compared, Told};

/// The pairs of the first table that are asked about, and the thresholds. Of the unequal pair not one can be
/// reached, whatever its words are.
const ROWS: [(&str, &[u32]); 4] = [
    ("unrelated", &[300]),
    ("related", &[100, 500, 900]),
    (UNEQUAL, &[300]),
    ("identical", &[900]),
];
const UNEQUAL: &str = "2,048 against 64 words";

/// The answer in the fields of a comparison's; covered and score are not told.
static VERDICT: Column = Column {
    name: "yes or no",
    run: |job| {
        let Told { refusal, tiles, .. } = job.ask();
        Compared {
            refusal,
            tiles,
            covered: 0,
            score: 0,
        }
    },
    heeds: Heeds::All,
};

// The limits follow from the design alone: the tests between tiles are few, and what is decided before the first
// tile is decided without a search.
static TABLE: Table = Table {
    name: "threshold",
    about: &[About::Threshold, About::Reached, About::Laid, About::Tiles],
    columns: &[&FAST, &VERDICT],
    ratios: &[(&VERDICT, &FAST)],
    promises: &[],
    everywhere: &[Everywhere {
        measure: Measure::Ratio(&VERDICT, &FAST),
        most: 1.15,
        rows: Rows::All,
        others: &[(UNEQUAL, 0.2)],
        exceptions: &[],
    }],
    least: USUAL,
};

impl Job {
    /// What the core answers about the threshold.
    pub(super) fn ask(&mut self) -> Told {
        let [first, second] = &self.pairs[self.at];
        let (settings, workspace) = (self.settings, &mut self.workspace);
        raw::at_least_fast(
            first,
            second,
            self.minimum,
            self.threshold,
            settings,
            workspace,
        )
    }

    /// Whether the answers of all pairs are those that the tiles of the comparison give, and leave a dirty workspace
    /// zero.
    fn asked_rightly(&mut self) -> bool {
        let pairs = 0..self.pairs.len();
        let good = pairs.fold(true, |all, at| {
            self.at = at;
            all & self.asked_rightly_here()
        });
        self.at = 0;
        good
    }

    /// The same of one pair.
    fn asked_rightly_here(&mut self) -> bool {
        let compared = self.run(&FAST);
        let laid = Tile::list(&self.tiles, compared.tiles);
        let mut left = vec![u32::MAX; self.workspace.len()];
        self.workspace.fill(u32::MAX);
        let told = self.ask();
        let pair = self.pairs[self.at].each_ref().map(|words| &words[..]);
        let (settings, minimum, threshold) = (self.settings, self.minimum, self.threshold);
        let due = reference::at_least(settings, pair, minimum, threshold, || laid, &mut left);
        let yes = u32::from(compared.score >= threshold);
        let good =
            told == due && told.refusal == 0 && told.reached == yes && self.workspace == left;
        if !good {
            let name = &self.name;
            println!("FAILED {name}, threshold {threshold}: {told:?}, expected {due:?}");
        }
        good
    }
}

/// The pairs with their thresholds.
fn jobs() -> Vec<Job> {
    let mut all = Vec::new();
    for (name, thresholds) in ROWS {
        let named = |job: &Job| job.name == name;
        let job = timing::ordinary().into_iter().find(named);
        let job = job.expect("a pair of the first table");
        for &threshold in thresholds {
            let mut job = Job::with(name, job.pairs.clone(), job.minimum, job.settings);
            job.threshold = threshold;
            all.push(job);
        }
    }
    all
}

/// Whether each answer is what the comparison says, with as many tiles laid as that takes.
pub fn agree() -> bool {
    let answers = jobs().into_iter().map(|mut job| job.asked_rightly());
    answers.fold(true, |all, good| all & good)
}

/// Prints the time of an answer about a threshold and that of the comparison.
pub fn compare_threshold(promises: &mut Promises) {
    println!(
        "\nWhether a pair scores at least a threshold. Time in microseconds of the comparison, which gives \
         the score, and of the answer yes or no; with the tiles laid until that is decided, and all that the \
         comparison lays. Pairs of the first table, at its minimum and with its settings.\n"
    );
    TABLE.print(&mut jobs(), promises);
}
