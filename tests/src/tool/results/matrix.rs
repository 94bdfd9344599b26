//! What the tool must print of many pairs: tables and lists.

use super::{said, warning, Compared, Expected, Fish};
use std::ops::Range;

/// One pair of a matrix: tiles, covered, score, and the no-calls of both fish.
#[derive(Clone, Copy, Debug, PartialEq, Eq)]
pub struct Cell {
    pub tiles: usize,
    pub covered: usize,
    pub score: usize,
    pub no_calls: [usize; 2],
}

impl Cell {
    pub fn of(compared: &Compared) -> Self {
        Self {
            tiles: compared.tiles.len(),
            covered: compared.covered(),
            score: compared.score(),
            no_calls: compared.no_calls(),
        }
    }
}

/// The list of pairs begins with this line.
pub const PAIRS: &str =
    "row,column,first_fish,second_fish,tiles,covered,score,first_no_calls,second_no_calls\n";

/// The numbers of fish and the cells of their pairs, by rows: of every two fish of one side, a fish having none with
/// itself; or of each fish of one side with each of the other.
pub struct Matrix {
    pub ids: Vec<u16>,
    /// The numbers of the other side, where there is one.
    pub against: Option<Vec<u16>>,
    pub rows: Vec<Vec<Option<Cell>>>,
    /// What is said of each fish of the rows and of the columns, if it is badly typed.
    warnings: [Vec<Option<String>>; 2],
}

impl Matrix {
    /// Each cell is a comparison of its own, the row's fish being the first.
    pub fn new(fish: &[Fish], minimum: u32) -> Self {
        Self::of(fish, |first, second| {
            Cell::of(&Compared::new(first, second, minimum))
        })
    }

    /// From the cell of any two.
    pub fn of(fish: &[Fish], cell: impl Fn(&Fish, &Fish) -> Cell) -> Self {
        let row = |(at, first): (usize, &Fish)| {
            let others = fish.iter().enumerate();
            let cells = others.map(|(other, second)| (other != at).then(|| cell(first, second)));
            cells.collect()
        };
        Self {
            ids: fish.iter().map(|fish| fish.id).collect(),
            against: None,
            rows: fish.iter().enumerate().map(row).collect(),
            warnings: [fish; 2].map(|side| side.iter().map(warning).collect()),
        }
    }

    /// Of two sides: the rows are the fish of the first, the columns those of the second.
    pub fn sides([fish, others]: [&[Fish]; 2], minimum: u32) -> Self {
        let row = |first| {
            let cell = |second| Some(Cell::of(&Compared::new(first, second, minimum)));
            others.iter().map(cell).collect()
        };
        Self {
            ids: fish.iter().map(|fish| fish.id).collect(),
            against: Some(others.iter().map(|fish| fish.id).collect()),
            rows: fish.iter().map(row).collect(),
            warnings: [fish, others].map(|side| side.iter().map(warning).collect()),
        }
    }

    /// It prints this, after what it says of each badly typed fish that is in a pair.
    pub fn prints(&self, text: impl Into<Vec<u8>>) -> Expected {
        self.prints_of(0..self.pairs().count(), text)
    }

    /// The same where only these pairs are compared: first the rows are named, then the columns.
    fn prints_of(&self, pairs: Range<usize>, text: impl Into<Vec<u8>>) -> Expected {
        let all: Vec<[usize; 2]> = self.pairs().map(|(pair, _)| pair).collect();
        let compared = &all[pairs];
        let mut lines = Vec::new();
        for (side, warnings) in self.warnings.iter().enumerate() {
            for (number, warning) in (1..).zip(warnings) {
                if compared.iter().any(|pair| pair[side] == number) {
                    lines.extend(warning.clone());
                }
            }
        }
        Expected::prints(text).after(said(lines))
    }

    /// The numbers of the fish of the columns.
    fn columns(&self) -> &[u16] {
        self.against.as_ref().unwrap_or(&self.ids)
    }

    /// Each pair once, by rows: (1, 2), (1, 3), .., (2, 3), .. of one side, and (1, 1), (1, 2), .., (2, 1), .. of two;
    /// rows and columns are counted from 1.
    pub fn pairs(&self) -> impl Iterator<Item = ([usize; 2], Cell)> + '_ {
        let rows = (1..).zip(&self.rows);
        rows.flat_map(|(row, cells)| {
            let passed = if self.against.is_some() { 0 } else { row };
            let later = (1..).zip(cells).skip(passed);
            later.map(move |(column, cell)| ([row, column], cell.expect("two fish")))
        })
    }

    /// How a line about a pair begins.
    fn named(&self, [row, column]: [usize; 2]) -> String {
        let (first, second) = (self.ids[row - 1], self.columns()[column - 1]);
        format!("{row},{column},{first},{second}")
    }

    /// The table of scores.
    pub fn table(&self) -> String {
        let mut table = String::from("fish");
        for id in self.columns() {
            table += &format!(",{id}");
        }
        table += "\n";
        for (id, cells) in self.ids.iter().zip(&self.rows) {
            table += &id.to_string();
            for cell in cells {
                table += &cell.map_or(",".into(), |cell| format!(",{}", cell.score));
            }
            table += "\n";
        }
        table
    }

    /// The list of pairs: its heading, and its other lines.
    pub fn list(&self) -> (String, Vec<String>) {
        let lines = self.pairs().map(|(pair, cell)| {
            let pair = self.named(pair);
            let [a, b] = cell.no_calls;
            let (tiles, covered, score) = (cell.tiles, cell.covered, cell.score);
            format!("{pair},{tiles},{covered},{score},{a},{b}\n")
        });
        (PAIRS.into(), lines.collect())
    }

    /// The list of pairs as a whole.
    pub fn whole_list(&self) -> String {
        let (heading, lines) = self.list();
        heading + &lines.concat()
    }

    /// Part `k` of `n` of the list.
    pub fn part(&self, k: usize, n: usize) -> Expected {
        let (heading, lines) = self.list();
        let bound = |k: usize| (k as u128 * lines.len() as u128 / n as u128) as usize;
        let pairs = bound(k - 1)..bound(k);
        let part = lines[pairs.clone()].concat();
        let text = match k {
            1 => heading + &part,
            _ => part,
        };
        self.prints_of(pairs, text)
    }

    /// The list of the pairs that score at least so much, the highest score first and equal scores in the order of the
    /// pairs: its heading, and its other lines.
    pub fn ranking(&self, threshold: usize) -> (String, Vec<String>) {
        let mut lines = Vec::new();
        for score in (threshold..=1_000).rev() {
            let equal = self.pairs().filter(|(_, cell)| cell.score == score);
            lines.extend(equal.map(|(pair, cell)| {
                let pair = self.named(pair);
                format!("{pair},{},{score}\n", cell.covered)
            }));
        }
        (
            "row,column,first_fish,second_fish,covered,score\n".into(),
            lines,
        )
    }

    /// That list as a whole.
    pub fn whole_ranking(&self, threshold: usize) -> String {
        let (heading, lines) = self.ranking(threshold);
        heading + &lines.concat()
    }

    /// The three layouts, each with the options that ask for it.
    pub fn layouts(&self) -> [(&'static [&'static str], Expected); 3] {
        [
            (&[], self.prints(self.table())),
            (&["--pairs"], self.prints(self.whole_list())),
            (&["--at-least", "300"], self.prints(self.whole_ranking(300))),
        ]
    }
}
