//! The fish that are compared, and their pairs in order. Rows and columns are here counted from 0.

use crate::fish::Fish;
use crate::usage::Part;
use std::ops::Range;

/// The row and the column of a pair.
pub type Pair = (usize, usize);

/// The fish that are compared: every two of one side, or each of one side with each of the other.
#[derive(Clone, Copy)]
pub struct Sides<'a> {
    pub rows: &'a [Fish],
    /// The other side, where there is one.
    pub against: Option<&'a [Fish]>,
}

impl<'a> Sides<'a> {
    /// The fish of the columns: those of the rows, where there is one side.
    pub fn columns(self) -> &'a [Fish] {
        self.against.unwrap_or(self.rows)
    }

    /// The columns that a row is compared with: all of the other side, or those after it.
    pub fn partners(self, row: usize) -> Range<usize> {
        let start = if self.against.is_some() { 0 } else { row + 1 };
        start..self.columns().len()
    }

    pub fn fish(self, (row, column): Pair) -> [&'a Fish; 2] {
        [&self.rows[row], &self.columns()[column]]
    }

    /// Goes through the pairs, row by row, from a number on. Whole rows before it are passed over at once, so that a late part of
    /// many pairs begins without delay.
    pub fn pairs_from(self, mut number: usize) -> impl Iterator<Item = Pair> + 'a {
        let mut first = 0;
        while first < self.rows.len() && number >= self.partners(first).len() {
            number -= self.partners(first).len();
            first += 1;
        }
        let rows = first..self.rows.len();
        let pairs = rows.flat_map(move |row| self.partners(row).map(move |column| (row, column)));
        pairs.skip(number)
    }

    /// The fish of the pairs with these numbers: those of rows, then those of columns, which may be the same.
    pub fn compared(self, pairs: Range<usize>) -> impl Iterator<Item = &'a Fish> {
        let sides = [self.rows, self.columns()];
        let mut taken = sides.map(|side| vec![false; side.len()]);
        for (row, column) in self.pairs_from(pairs.start).take(pairs.len()) {
            taken[0][row] = true;
            taken[1][column] = true;
        }
        let sides = sides.into_iter().zip(taken);
        let sides = sides.flat_map(|(side, taken)| side.iter().zip(taken));
        sides.filter_map(|(fish, taken)| taken.then_some(fish))
    }

    /// How many there are.
    pub fn count(self) -> usize {
        let rows = 0..self.rows.len();
        rows.map(|row| self.partners(row).len()).sum()
    }
}

impl Part {
    /// The numbers of its pairs: all parts one after another are all of them.
    pub fn of(self, pairs: usize) -> Range<usize> {
        let before = |parts: u64| {
            let number = u128::from(parts) * pairs as u128 / u128::from(self.count);
            usize::try_from(number).expect("no more than all pairs")
        };
        before(self.number - 1)..before(self.number)
    }
}
