//! Two layouts of the matrix, as CSV: the table of scores, and a line for each pair.

use crate::failure::Failure;
use crate::output::Output;
use crate::pairs::{Pair, Sides};
use sigxume::Comparison;
use std::fmt::Write;
use std::mem;
use std::ops::Range;

/// A fish gets room for so many scores at a time. To double it each time would take up to twice as much in all.
const ROOM: usize = 256;

/// A layout, which is handed the pairs in order.
pub trait Layout {
    /// What stands above the first pair.
    fn head(&self) -> String;

    /// Adds a pair's part.
    fn pair(&mut self, text: &mut String, pair: Pair, answer: Comparison);

    /// Writes what stands below the last pair.
    fn tail(&mut self, output: &mut Output) -> Result<(), Failure>;
}

/// How the heading of lines about pairs begins.
pub const NAMED: &str = "row,column,first_fish,second_fish";

/// How a line about a pair begins: with its row and its column, counted from 1, and the numbers of its fish.
pub fn named(sides: Sides, pair: Pair) -> String {
    let [first, second] = sides.fish(pair).map(|fish| fish.id);
    let (row, column) = pair;
    format!("{},{},{first},{second}", row + 1, column + 1)
}

/// The table. Of one side each score stands on both sides of the diagonal, which is empty.
pub struct Table<'a> {
    sides: Sides<'a>,
    /// For each fish of the only side its scores with those before it, until they are written.
    earlier: Vec<Vec<u16>>,
    /// How many rows are begun.
    begun: usize,
}

/// A line for each pair.
pub struct Lines<'a> {
    pub sides: Sides<'a>,
}

// Writing to a string cannot fail, so the answers of `write!` are dropped.
impl<'a> Table<'a> {
    pub fn new(sides: Sides<'a>) -> Self {
        Self {
            sides,
            earlier: vec![Vec::new(); sides.rows.len()],
            begun: 0,
        }
    }

    /// The next row up to the scores that are still to come; of one side these are past its empty cell on the diagonal.
    fn begin(&mut self, text: &mut String) {
        let row = self.begun;
        self.begun += 1;
        let _ = write!(text, "{}", self.sides.rows[row].id);
        if self.sides.against.is_some() {
            return;
        }
        for score in mem::take(&mut self.earlier[row]) {
            let _ = write!(text, ",{score}");
        }
        text.push(',');
    }
}

impl Layout for Table<'_> {
    fn head(&self) -> String {
        let mut text = String::from("fish");
        for fish in self.sides.columns() {
            let _ = write!(text, ",{}", fish.id);
        }
        text + "\n"
    }

    fn pair(&mut self, text: &mut String, (row, column): Pair, answer: Comparison) {
        let Range { start, end } = self.sides.partners(row);
        if column == start {
            self.begin(text);
        }
        let score = u16::try_from(answer.score).expect("a score is at most 1000");
        let _ = write!(text, ",{score}");
        if self.sides.against.is_none() {
            let earlier = &mut self.earlier[column];
            if earlier.len() == earlier.capacity() {
                earlier.reserve_exact(ROOM);
            }
            earlier.push(score);
        }
        if column + 1 == end {
            text.push('\n');
        }
    }

    /// The rows without a pair: of one side the last one, which has no later fish; of two sides none, or all.
    fn tail(&mut self, output: &mut Output) -> Result<(), Failure> {
        let mut text = String::new();
        while self.begun < self.sides.rows.len() {
            self.begin(&mut text);
            text.push('\n');
        }
        output.write(text.as_bytes())
    }
}

impl Layout for Lines<'_> {
    fn head(&self) -> String {
        format!("{NAMED},tiles,covered,score,first_no_calls,second_no_calls\n")
    }

    fn pair(&mut self, text: &mut String, pair: Pair, answer: Comparison) {
        let [first, second] = self.sides.fish(pair).map(|fish| fish.no_calls);
        let pair = named(self.sides, pair);
        let Comparison {
            tiles,
            covered,
            score,
            ..
        } = answer;
        let _ = writeln!(text, "{pair},{tiles},{covered},{score},{first},{second}");
    }

    fn tail(&mut self, _: &mut Output) -> Result<(), Failure> {
        Ok(())
    }
}
