//! The reference itself against 01 and 02: the pairs K1 to K11 and others of equal length, the windows
//! K12 and the worked example.

use crate::equal_length::rising;
use crate::group::Group;
use crate::program::{bytes, worked};
use crate::reference::{
    covered, exchanged, first_is_pattern, pair_program, score, tiling, window_hashes, Tile,
};
use crate::samples::{call, NO_CALL};
use crate::series;
use std::fmt::{self, Display, Formatter};

/// A row of a table: name, first, second, minimum, tiles, covered, score.
type Row = (
    &'static str,
    &'static str,
    &'static str,
    usize,
    &'static [[usize; 3]],
    usize,
    usize,
);

/// 01's table.
#[rustfmt::skip]
const PAIRS: [Row; 11] = [
    ("K1", "", "", 1, &[], 0, 0),
    ("K2", "a", "a", 1, &[[0, 0, 1]], 1, 1000),
    ("K3", "a", "a", 2, &[], 0, 0),
    ("K4", "?", "?", 1, &[], 0, 0),
    ("K5", "caabaad", "baadcaaaabaa", 2, &[[1, 7, 5]], 5, 526),
    ("K6", "caabaad", "baadcaaaabaa", 1, &[[1, 7, 5], [0, 4, 1], [6, 3, 1]], 7, 736),
    ("K7", "ab", "ba", 1, &[[0, 1, 1], [1, 0, 1]], 2, 1000),
    ("K8", "aaaa", "aa", 1, &[[0, 0, 2]], 2, 666),
    ("K9", "aaa", "aaa", 3, &[[0, 0, 3]], 3, 1000),
    ("K10", "aba", "abba", 2, &[[0, 0, 2]], 2, 571),
    ("K11", "abcde", "cdeab", 2, &[[2, 0, 3], [0, 3, 2]], 5, 1000),
];

/// Pairs of equal length that would come out otherwise if the pattern were chosen in another way than 02
/// says, and a sequence with itself. The tiles are found by hand.
#[rustfmt::skip]
const EQUAL_LENGTHS: [Row; 6] = [
    ("K7 exchanged", "ba", "ab", 1, &[[1, 0, 1], [0, 1, 1]], 2, 1000),
    // With the first as the pattern one tile, and 500.
    ("the second is the pattern", "bbab", "abbb", 2, &[[2, 0, 2], [0, 2, 2]], 4, 1000),
    // The words at 0 are equal, though they don't match.
    ("no-calls first", "?ab", "?ba", 1, &[[1, 2, 1], [2, 1, 1]], 2, 666),
    // By the low bits the no-call is the smaller; with the first as the pattern one tile, and 400.
    ("a no-call and a call", "?bbab", "abbb?", 2, &[[3, 0, 2], [1, 2, 2]], 4, 800),
    // The no-call is all that differs.
    ("a no-call for a call", "ab?a", "?b?a", 1, &[[0, 3, 1], [1, 1, 1]], 2, 500),
    ("with itself", "aa?aa", "aa?aa", 1, &[[0, 0, 2], [3, 3, 2]], 4, 800),
];

/// How many rows there are in both tables.
pub const ROWS: usize = PAIRS.len() + EQUAL_LENGTHS.len();

/// 01's listing of fish 12 and fish 13 at minimum 1.
pub const LISTING: &str = "\
FISH 12 13
MINIMUM 1
TILES 3
1 7 5 6
0 4 1 4
6 3 1 -3
COVERED 7 OF 7 12
SCORE 736
";

/// "Writing a to d for calls of codes 1 to 4", e is code 5, ? a no-call.
pub fn letters(letters: &str) -> Vec<u32> {
    letters
        .bytes()
        .map(|letter| match letter {
            b'?' => NO_CALL,
            letter => call(u16::from(letter - b'a') + 1),
        })
        .collect()
}

/// A sequence in these letters, for the name of a case: codes past z in numbers, 60 words at most.
pub struct Letters<'a>(pub &'a [u32]);

impl Display for Letters<'_> {
    fn fmt(&self, f: &mut Formatter) -> fmt::Result {
        f.write_str("'")?;
        for &word in self.0.iter().take(60) {
            match word & 0xFFFF {
                _ if word == NO_CALL => f.write_str("?")?,
                code @ 1..=26 => write!(f, "{}", (b'a' - 1 + code as u8) as char)?,
                code => write!(f, "<{code}>")?,
            }
        }
        f.write_str(if self.0.len() > 60 { "..'" } else { "'" })
    }
}

/// A row of a table as sequences and tiles.
pub struct Known {
    pub name: String,
    pub first: Vec<u32>,
    pub second: Vec<u32>,
    pub minimum: usize,
    pub tiles: Vec<Tile>,
    pub covered: usize,
    pub score: usize,
}

impl Known {
    /// The row and the one with the sides exchanged, which differs in the sides of the tiles alone.
    pub fn both_ways(self) -> [Self; 2] {
        let other = Self {
            name: format!("{}, exchanged", self.name),
            first: self.second.clone(),
            second: self.first.clone(),
            tiles: exchanged(self.tiles.clone()),
            ..self
        };
        [self, other]
    }
}

/// The rows K1 to K11, then ours.
pub fn rows() -> impl Iterator<Item = Known> {
    PAIRS.into_iter().chain(EQUAL_LENGTHS).map(
        |(name, first, second, minimum, tiles, covered, score)| Known {
            name: name.to_string(),
            first: letters(first),
            second: letters(second),
            minimum,
            tiles: tiles.iter().map(|&tile| tile.into()).collect(),
            covered,
            score,
        },
    )
}

/// K1 to K11 and ours, handed in either way.
pub fn pairs(g: &mut Group) {
    for row in rows().flat_map(Known::both_ways) {
        let laid = tiling(&row.first, &row.second, row.minimum);
        let sum = covered(&laid);
        g.equal(
            format_args!("{}: tiles, covered, score", row.name),
            (laid, sum, score(sum, row.first.len(), row.second.len())),
            (row.tiles, row.covered, row.score),
        );
    }
}

/// Which of two sequences is the pattern, whichever is handed in first; of equal ones it is the first. In the
/// rows of 000 it is the first too.
pub fn choices(g: &mut Group) {
    // The pattern, which is shorter, or smaller at the first difference, whatever comes after it; and the text.
    let rows = [
        ("", "a"),
        ("b", "aa"),
        ("?", "aa"),
        ("a", "b"),
        ("a", "?"),
        ("az", "ba"),
        ("aza", "bab"),
        ("za", "zb"),
        ("z?", "??"),
        ("?a", "?b"),
        ("?a?", "?ba"),
        ("??a", "???"),
        ("ab?a", "?b?a"),
    ];
    for (pattern, text) in rows {
        let [pattern, text] = [pattern, text].map(letters);
        let either = [[&pattern, &text], [&text, &pattern]];
        let case = format_args!("{} and {}", Letters(&pattern), Letters(&text));
        let first = either.map(|[first, second]| first_is_pattern(first, second));
        g.equal(case, first, [true, false]);
    }
    for words in ["", "a", "?", "ab?a"].map(letters) {
        let case = format_args!("{} with itself", Letters(&words));
        g.equal(case, first_is_pattern(&words, &words.clone()), true);
    }
    for series::Row { name, pair, .. } in series::rows() {
        let [pattern, text] = &pair;
        g.equal(
            format_args!("{name}"),
            first_is_pattern(pattern, text),
            true,
        );
    }
    for [smaller, greater] in rising() {
        let first = first_is_pattern(&[smaller], &[greater]);
        let second = first_is_pattern(&[greater], &[smaller]);
        g.equal(
            format_args!("{smaller:#x} and {greater:#x}"),
            [first, second],
            [true, false],
        );
    }
}

/// K12: "words 1, 2, 3: hash 123 at B = 10, then 234 after 4 comes in; 3 at B = 2^31; 3 at B = 0".
pub fn windows(g: &mut Group) {
    let rows: [(u32, &[u32], &[u32]); 3] = [
        (10, &[1, 2, 3, 4], &[123, 234]),
        (1 << 31, &[1, 2, 3], &[3]),
        (0, &[1, 2, 3], &[3]),
    ];
    for (multiplier, words, hashes) in rows {
        g.equal(
            format_args!("K12 at B = {multiplier}"),
            window_hashes(words, multiplier, 3),
            hashes.to_vec(),
        );
    }
}

/// What the pair program prints of 01's two records.
pub fn example(g: &mut Group) {
    let printed = pair_program(&bytes(&worked()));
    g.equal(format_args!("worked example"), &printed[..], LISTING);
}
