//! The list of the pairs that reach a threshold, as CSV: the highest score stands first.

use crate::failure::Failure;
use crate::layout::{named, Layout, NAMED};
use crate::output::Output;
use crate::pairs::{Pair, Sides};
use sigxume::Comparison;
use std::cmp::Reverse;
use std::collections::BinaryHeap;
use std::mem;

/// The most lines that are written at a time.
const LINES: usize = 4_096;

/// The list, which is whole when the last pair has been handed in.
pub struct Ranking<'a> {
    sides: Sides<'a>,
    /// No more pairs than these are kept: those that the list begins with.
    most: usize,
    /// The one that stands last in the list is on top.
    kept: BinaryHeap<Entry>,
}

/// A pair. An entry is less than another if it stands before it in the list: first by score, then by row and column. It
/// is small, as there may be very many.
#[derive(PartialEq, Eq, PartialOrd, Ord)]
struct Entry {
    score: Reverse<u16>,
    row: u32,
    column: u32,
    covered: u16,
}

impl Entry {
    fn new((row, column): Pair, answer: Comparison) -> Self {
        let [row, column] =
            [row, column].map(|at| u32::try_from(at).expect("no memory has room for more fish"));
        Self {
            score: Reverse(u16::try_from(answer.score).expect("a score is at most 1000")),
            row,
            column,
            covered: u16::try_from(answer.covered).expect("no more words than a sequence has"),
        }
    }

    fn line(&self, sides: Sides) -> String {
        let pair = named(sides, (self.row as usize, self.column as usize));
        let Self {
            score: Reverse(score),
            covered,
            ..
        } = self;
        format!("{pair},{covered},{score}\n")
    }
}

impl<'a> Ranking<'a> {
    pub fn new(sides: Sides<'a>, most: usize) -> Self {
        let kept = BinaryHeap::new();
        Self { sides, most, kept }
    }
}

impl Layout for Ranking<'_> {
    fn head(&self) -> String {
        format!("{NAMED},covered,score\n")
    }

    fn pair(&mut self, _: &mut String, pair: Pair, answer: Comparison) {
        let entry = Entry::new(pair, answer);
        if self.kept.len() < self.most {
            self.kept.push(entry);
        } else if let Some(mut last) = self.kept.peek_mut() {
            if entry < *last {
                *last = entry;
            }
        }
    }

    fn tail(&mut self, output: &mut Output) -> Result<(), Failure> {
        let list = mem::take(&mut self.kept).into_sorted_vec();
        for entries in list.chunks(LINES) {
            let lines = entries.iter().map(|entry| entry.line(self.sides));
            output.write(lines.collect::<String>().as_bytes())?;
        }
        Ok(())
    }
}
