//! The two engines, and the settings that the fast one is tried with.

use crate::random::Random;
use crate::reference::{MAX_BUCKETS, MAX_MINIMUM, MAX_WORDS};
use sigxume::raw::{self, Compared};
use sigxume::Settings;
use std::fmt::{self, Display, Formatter};

/// The longest first search length.
const MAX_START: u32 = MAX_WORDS as u32;

/// Multipliers at the ends, those with few bits, and 01's 257.
pub const MULTIPLIERS: [u32; 7] = [0, 1, 2, 10, 257, 1 << 31, u32::MAX];

/// Bucket counts that are accepted: at the ends, and around those of the pair program.
pub const BUCKETS: [u32; 7] = [1, 2, 3, 255, 256, 1_023, MAX_BUCKETS];

/// Bucket counts that are refused.
pub const WRONG_BUCKETS: [u32; 5] = [0, MAX_BUCKETS + 1, MAX_BUCKETS + 2, 1 << 16, u32::MAX];

/// An engine; the fast one has settings.
#[derive(Clone, Copy, Debug, PartialEq, Eq)]
pub enum Engine {
    Plain,
    Fast(Settings),
}

impl Engine {
    /// The fast engine with a multiplier, a bucket count and a first search length.
    pub fn fast(multiplier: u32, buckets: u32, start: u32) -> Self {
        Self::Fast(Settings {
            multiplier,
            buckets,
            start,
        })
    }

    /// The fast engine with a first search length, and any multiplier and bucket count.
    pub fn searching(random: &mut Random, start: u32) -> Self {
        Self::Fast(searching(random, start))
    }

    /// The fast engine with any settings that are accepted at a minimum.
    pub fn any_fast(random: &mut Random, minimum: u32, pattern: usize) -> Self {
        Self::Fast(any_settings(random, minimum, pattern))
    }

    /// Compares two sequences by the core.
    pub fn compare(
        self,
        [first, second]: [&[u32]; 2],
        minimum: u32,
        workspace: &mut [u32],
        tiles: &mut [u32],
    ) -> Compared {
        match self {
            Self::Plain => raw::compare_plain(first, second, minimum, workspace, tiles),
            Self::Fast(settings) => {
                raw::compare_fast(first, second, minimum, settings, workspace, tiles)
            }
        }
    }
}

impl Display for Engine {
    fn fmt(&self, f: &mut Formatter) -> fmt::Result {
        match self {
            Self::Plain => f.write_str("plain"),
            Self::Fast(Settings {
                multiplier,
                buckets,
                start,
            }) => write!(f, "fast ({multiplier}, {buckets} buckets, from {start})"),
        }
    }
}

/// First search lengths that are accepted at a minimum of 1 to 256: the minimum, one above, 20, half
/// the pattern, the longest.
fn starts(minimum: u32, pattern: usize) -> [u32; 5] {
    [minimum, minimum + 1, 20, pattern as u32 / 2, MAX_START]
        .map(|start| start.clamp(minimum, MAX_START))
}

/// First search lengths that are refused at a minimum.
pub fn wrong_starts(minimum: u32) -> [u32; 6] {
    let below = minimum.wrapping_sub(1);
    [0, below, MAX_START + 1, MAX_START + 2, 1 << 16, u32::MAX]
}

/// Settings with a first search length, and any multiplier and bucket count.
fn searching(random: &mut Random, start: u32) -> Settings {
    let multiplier = if random.one_in(3) {
        random.word()
    } else {
        random.pick(&MULTIPLIERS)
    };
    let buckets = if random.one_in(3) {
        1 + random.below(MAX_BUCKETS as usize) as u32
    } else {
        random.pick(&BUCKETS)
    };
    Settings {
        multiplier,
        buckets,
        start,
    }
}

/// Any settings that are accepted at a minimum; some go by the length of the pattern.
pub fn any_settings(random: &mut Random, minimum: u32, pattern: usize) -> Settings {
    let minimum = minimum.clamp(1, MAX_MINIMUM);
    let start = if random.one_in(3) {
        minimum + random.below((MAX_START - minimum) as usize + 1) as u32
    } else {
        random.pick(&starts(minimum, pattern))
    };
    searching(random, start)
}

/// Every setting of the tables that is accepted at a minimum.
pub fn every_settings(minimum: u32, pattern: usize) -> Vec<Settings> {
    let mut all = Vec::new();
    for multiplier in MULTIPLIERS {
        for buckets in BUCKETS {
            all.extend(starts(minimum, pattern).map(|start| Settings {
                multiplier,
                buckets,
                start,
            }));
        }
    }
    all
}
