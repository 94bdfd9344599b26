//! A sequence along a side of the plot: its scale and its ticks.

use crate::fish::Fish;
use crate::svg::{counted, Side};

/// The longer side of the plot, and the least that the shorter one has.
const LONG: f64 = 640.0;
const SHORT: f64 = 160.0;

/// The least distance between ticks.
const APART: f64 = 50.0;

pub struct Axis {
    pub id: u16,
    pub words: usize,
    /// How long the side is.
    pub length: f64,
}

impl Axis {
    /// Both axes have one scale, so that tiles lie at 45 degrees, unless the lengths differ so much that the
    /// plot would be a thin strip.
    pub fn pair(fish: [&Fish; 2]) -> [Self; 2] {
        let lengths = fish.map(|fish| fish.sequence.len());
        let longer = lengths[0].max(lengths[1]).max(1) as f64;
        fish.map(|fish| {
            let words = fish.sequence.len();
            Self {
                id: fish.id,
                words,
                length: (LONG * words as f64 / longer).max(SHORT),
            }
        })
    }

    /// The side of the plot.
    pub fn side(&self) -> Side {
        Side {
            length: self.length,
            ticks: self.ticks(),
            title: format!("fish {}, {}", self.id, counted(self.words, "word")),
        }
    }

    /// How long a word is.
    pub fn scale(&self) -> f64 {
        self.length / self.words.max(1) as f64
    }

    /// Round positions, each with how far along it is.
    fn ticks(&self) -> Vec<(usize, f64)> {
        let far = |words: usize| words as f64 * self.scale();
        let powers = [1, 10, 100, 1_000];
        let mut steps = powers
            .iter()
            .flat_map(|power| [1, 2, 5].map(|digit| digit * power));
        let step = steps.find(|step| far(*step) >= APART);
        let positions = (0..=self.words).step_by(step.unwrap_or(10_000));
        positions
            .map(|position| (position, far(position)))
            .collect()
    }
}
