//! Pairs of fish at every minimum, each from one comparison: as CSV, and as JSON.

use crate::fish::Fish;
use sigxume::{score, Comparer, Refusal, COVER_WORDS};
use std::fmt::Display;
use std::ops::Range;

/// Two fish, and what is covered of them at each minimum from 1 on.
pub struct Covered<'a> {
    fish: [&'a Fish; 2],
    covered: [u32; COVER_WORDS],
}

/// Minimums in a row at which the same is covered.
pub struct Step {
    pub minimums: Range<usize>,
    pub covered: usize,
    pub score: u32,
}

impl<'a> Covered<'a> {
    pub fn new(comparer: &mut Comparer, fish: [&'a Fish; 2]) -> Result<Self, Refusal> {
        let [first, second] = fish.map(|fish| &fish.sequence);
        let covered = comparer.cover(first, second)?.covered;
        Ok(Self { fish, covered })
    }

    pub fn ids(&self) -> [u16; 2] {
        self.fish.map(|fish| fish.id)
    }

    pub fn lengths(&self) -> [usize; 2] {
        self.fish.map(|fish| fish.sequence.len())
    }

    /// All minimums, as the fewest steps.
    pub fn steps(&self) -> Vec<Step> {
        let words = self.lengths().iter().sum();
        let mut next = 1;
        let same = self.covered.chunk_by(|one, other| one == other);
        let steps = same.map(|same| {
            let minimums = next..next + same.len();
            next = minimums.end;
            let covered = same[0] as usize;
            Step {
                minimums,
                covered,
                score: score(covered, words),
            }
        });
        steps.collect()
    }
}

/// A row where a step begins, or a row for every minimum.
pub fn table(pairs: &[Covered], all: bool) -> String {
    let mut text = String::from("first_fish,second_fish,minimum,covered,score\n");
    for pair in pairs {
        let [first, second] = pair.ids();
        for step in pair.steps() {
            let Step { covered, score, .. } = step;
            let shown = if all { step.minimums.len() } else { 1 };
            for minimum in step.minimums.take(shown) {
                text += &format!("{first},{second},{minimum},{covered},{score}\n");
            }
        }
    }
    text
}

/// A line of JSON for each pair.
pub fn json(pairs: &[Covered]) -> String {
    let line = |pair: &Covered| {
        let steps = pair.steps();
        let scores = steps
            .iter()
            .flat_map(|step| step.minimums.clone().map(|_| step.score));
        format!(
            r#"{{"fish":[{}],"lengths":[{}],"covered":[{}],"score":[{}]}}"#,
            list(pair.ids()),
            list(pair.lengths()),
            list(pair.covered),
            list(scores)
        ) + "\n"
    };
    pairs.iter().map(line).collect()
}

fn list<T: Display>(numbers: impl IntoIterator<Item = T>) -> String {
    let numbers = numbers.into_iter().map(|number| number.to_string());
    Vec::from_iter(numbers).join(",")
}
