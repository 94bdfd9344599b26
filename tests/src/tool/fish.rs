//! Fish, as text and as records.

use crate::program::bytes;
use crate::random::Random;
use crate::reference::{record, MAX_WORDS};
use crate::samples::{any_length, call, ids, sequence, NO_CALL};

/// A fish's number and its sequence.
#[derive(Clone, Debug, PartialEq, Eq)]
pub struct Fish {
    pub id: u16,
    pub words: Vec<u32>,
}

impl Fish {
    pub fn new(id: u16, words: &[u32]) -> Self {
        let words = words.to_vec();
        Self { id, words }
    }

    /// Its line of text.
    pub fn line(&self) -> String {
        let mut line = self.id.to_string();
        for &word in &self.words {
            match word {
                NO_CALL => line += " ?",
                word => line += &format!(" {}", word & 0xFFFF),
            }
        }
        line + "\n"
    }

    /// Its record's bytes.
    pub fn record(&self) -> Vec<u8> {
        bytes(&record(self.id, &self.words))
    }

    /// Its record's words.
    pub fn size(&self) -> usize {
        self.words.len() + 2
    }
}

/// A file of text.
pub fn text(fish: &[Fish]) -> Vec<u8> {
    fish.iter().map(Fish::line).collect::<String>().into_bytes()
}

/// A file of records.
pub fn records(fish: &[Fish]) -> Vec<u8> {
    fish.iter().flat_map(Fish::record).collect()
}

/// Codes with one digit to five, at the ends of each number of digits.
const CODES: [u16; 12] = [
    0, 1, 9, 10, 99, 100, 999, 1_000, 9_999, 10_000, 65_534, 65_535,
];

/// A fish of so many words: any, of few codes, or the same throughout.
pub fn fish(random: &mut Random, length: usize) -> Fish {
    let table = ids(random);
    let words = match random.below(5) {
        0 => vec![NO_CALL; length],
        1 => vec![call(random.pick(&CODES)); length],
        2 => (0..length).map(|_| call(random.pick(&CODES))).collect(),
        _ => sequence(random, length),
    };
    Fish::new(random.pick(&table), &words)
}

/// A fish of any length, seldom long.
pub fn any_fish(random: &mut Random) -> Fish {
    let length = any_length(random);
    fish(random, length)
}

/// Up to so many fish, some without words.
pub fn any_fishes(random: &mut Random, most: usize) -> Vec<Fish> {
    (0..random.below(most + 1))
        .map(|_| match random.one_in(6) {
            true => fish(random, 0),
            false => any_fish(random),
        })
        .collect()
}

/// Fish at the limits of length and number.
pub fn limits(random: &mut Random) -> Vec<Fish> {
    let mut all = Vec::new();
    for length in [0, 1, 2, MAX_WORDS - 1, MAX_WORDS] {
        for id in ids(random) {
            let words = fish(random, length).words;
            all.push(Fish { id, words });
        }
    }
    all
}
