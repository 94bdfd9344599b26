//! The strings on which Wise measured his programs (000, section 5), with the counts that he gives. A
//! token is the call of the next code, token 0 that of code 1.
//!
//! The token strings of C programs (MJW, StudA, StudB) are not in 000 and cannot be had, nor can what
//! was made of them. Of these rows only the random strings are here, with other tokens: the lengths
//! are the same, and so is the way they are made. Of the tokens 000 says that the four most frequent
//! ones can be more than half of all.

use crate::pairs::Pair;
use crate::random::Random;
use crate::samples::call;

/// What 000 counts in a row of its tables (section 5.4).
#[derive(Clone, Copy)]
pub struct Counts {
    /// Cycles of T_GST, the tuned tiling that knows no search length.
    pub tuned: u64,
    /// Cycles of RKR_GST with first search length 20, and with half the pattern.
    pub cycles: [u64; 2],
    /// "MM Produced": the maximal matches queued with half the pattern.
    pub matches: usize,
}

/// A row of the tables.
pub struct Row {
    pub series: &'static str,
    pub name: String,
    /// P and T. P is the pattern: it is shorter than T, or has the smaller word where they first differ.
    pub pair: Pair,
    pub minimum: u32,
    pub counts: Counts,
}

impl Row {
    /// |P| + |T|.
    pub fn words(&self) -> usize {
        self.pair[0].len() + self.pair[1].len()
    }

    /// The first search lengths: 20, and half the pattern.
    pub fn starts(&self) -> [u32; 2] {
        let pattern = self.pair[0].len().min(self.pair[1].len());
        [20, pattern as u32 / 2]
    }
}

/// What a row is made from, then its counts: T_GST, RKR_GST at 20 and at half, maximal matches.
type Source<T> = (T, u64, [u64; 2], usize);

/// The series of one row each, by their names and the minimum.
#[rustfmt::skip]
const SINGLE: [Source<(&str, &str, u32)>; 4] = [
    (("match_3", "match_3.1 match_3.2", 3), 522_752, [647_866, 759_932], 120),
    (("nomatch", "nomatch nomatch.rev", 3), 456_028, [597_750, 707_546], 0),
    (("nomatch", "nomatch nomatch1", 3), 441_252, [601_249, 710_423], 0),
    (("match_3", "match_3.1 match_3.2", 4), 486_154, [591_725, 703_791], 0),
];

/// random.MJW.X and random.StudA.X by the number X of copies. From 6 on the text has more than 2,048
/// words.
#[rustfmt::skip]
const RANDOM: [Source<usize>; 5] = [
    (1, 2_627_677, [605_486, 715_976], 152),
    (2, 12_856_994, [1_324_328, 1_638_899], 778),
    (3, 25_990_474, [2_063_705, 3_145_392], 3_491),
    (4, 60_250_724, [2_835_116, 3_677_644], 2_229),
    (5, 110_476_132, [3_440_936, 5_420_220], 5_588),
];

/// wc1.X and wc2.X by the longest stretch of zeros.
#[rustfmt::skip]
const WC1: [Source<usize>; 6] = [
    (17, 14_912_146, [2_312_546, 2_346_297], 6_822),
    (25, 123_486_880, [6_155_913, 7_096_287], 21_111),
    (36, 965_590_560, [46_417_658, 42_304_561], 110_057),
    (44, 3_044_245_150, [168_348_011, 60_095_044], 169_532),
    (51, 7_127_629_129, [221_928_791, 129_407_183], 315_237),
    (59, 16_574_716_089, [359_134_572, 386_066_263], 769_209),
];

/// wc3.X and wc4.X by the zeros in a stretch, as many as |P| + |T| leaves room for.
#[rustfmt::skip]
const WC3: [Source<usize>; 6] = [
    (42, 9_386_335, [382_201, 7_479_319], 13_527),
    (87, 74_883_455, [754_917, 46_303_839], 54_689),
    (175, 580_824_555, [1_502_278, 315_699_051], 217_797),
    (258, 1_833_531_948, [2_211_090, 959_256_962], 473_067),
    (344, 4_312_259_724, [2_935_302, 2_195_723_973], 837_836),
    (457, 10_052_476_274, [3_853_468, 4_991_707_632], 1_470_864),
];

/// The series with rows of several lengths, and the exponents that 000 fits to RKR_GST at 20 and at half.
/// Those of the random strings are fitted to ten rows.
pub const EXPONENTS: [(&str, [f64; 2]); 3] = [
    ("random", [1.12, 1.23]),
    ("wc1", [2.29, 2.08]),
    ("wc3", [0.98, 2.76]),
];

/// The minimum of these series.
const MINIMUM: u32 = 3;

/// The calls of tokens.
fn calls(tokens: impl IntoIterator<Item = u16>) -> Vec<u32> {
    tokens.into_iter().map(|token| call(token + 1)).collect()
}

/// Puts items in a random order.
fn shuffle<T>(random: &mut Random, items: &mut [T]) {
    for at in (1..items.len()).rev() {
        items.swap(at, random.below(at + 1));
    }
}

/// match_3.1 and match_3.2: 120 triples of tokens that occur once, and the same triples in a random
/// order in which none stays before its neighbour.
fn match_3() -> Pair {
    let random = &mut Random::new(1);
    let pattern: Vec<u16> = (0..120).collect();
    let mut text = pattern.clone();
    while text.windows(2).any(|pair| pair[0] + 1 == pair[1]) {
        shuffle(random, &mut text);
    }
    [pattern, text].map(|triples| calls(triples.iter().flat_map(|at| 3 * at..3 * at + 3)))
}

/// The pair of a series of one row.
fn single(name: &str) -> Pair {
    match name {
        "nomatch nomatch.rev" => [calls(0..350), calls((0..350).rev())],
        "nomatch nomatch1" => [calls(0..350), calls(350..700)],
        _ => match_3(),
    }
}

/// A token below 16, the less often the greater it is: token r has weight 1 / (r + 1), which gives the
/// four most frequent ones 62 of 100 occurrences.
fn skewed(random: &mut Random) -> u16 {
    loop {
        let token = random.below(16);
        if random.one_in(token + 1) {
            return token as u16;
        }
    }
}

/// random.MJW.X and random.StudA.X: X copies of a program's tokens in a random order, by a seed. The rows
/// have the seed X.
pub fn shuffled(copies: usize, seed: u64) -> Pair {
    // The two programs are the same for every X.
    let random = &mut Random::new(1);
    let programs = [327, 355].map(|length| Vec::from_iter((0..length).map(|_| skewed(random))));
    let random = &mut Random::new(seed);
    programs.map(|program| {
        let mut tokens = program.repeat(copies);
        shuffle(random, &mut tokens);
        calls(tokens)
    })
}

/// Stretches of zeros with a one after each, and a text of zeros that is longer by one: |P| + |T| is odd
/// in each of these rows of 000.
fn zeros(stretches: impl IntoIterator<Item = usize>) -> Pair {
    let stretch = |zeros| (0..=zeros).map(move |at| u16::from(at == zeros));
    let pattern = calls(stretches.into_iter().flat_map(stretch));
    let text = calls(vec![0; pattern.len() + 1]);
    [pattern, text]
}

/// wc1.X and wc2.X: 1, 2, .. zeros, up to the longest stretch.
fn wc1(longest: usize) -> Pair {
    zeros(1..=longest)
}

/// wc3.X and wc4.X: the same number of zeros four times.
fn wc3(length: usize) -> Pair {
    zeros([length; 4])
}

/// The rows of a table.
fn rows_of<'a, T: Copy>(
    table: &'a [Source<T>],
    make: impl Fn(usize, T) -> (&'static str, String, u32, Pair) + 'a,
) -> impl Iterator<Item = Row> + 'a {
    table.iter().enumerate().map(move |(x, source)| {
        let &(from, tuned, cycles, matches) = source;
        let (series, name, minimum, pair) = make(x, from);
        Row {
            series,
            name,
            pair,
            minimum,
            counts: Counts {
                tuned,
                cycles,
                matches,
            },
        }
    })
}

/// Every row, in the order of 000.
pub fn rows() -> Vec<Row> {
    let mut rows = Vec::from_iter(rows_of(&SINGLE, |_, (series, name, minimum)| {
        (series, name.to_string(), minimum, single(name))
    }));
    rows.extend(rows_of(&RANDOM, |_, copies| {
        let name = format!("random.MJW.{copies} random.StudA.{copies}");
        ("random", name, MINIMUM, shuffled(copies, copies as u64))
    }));
    rows.extend(rows_of(&WC1, |x, longest| {
        ("wc1", format!("wc1.{x} wc2.{x}"), MINIMUM, wc1(longest))
    }));
    rows.extend(rows_of(&WC3, |x, length| {
        ("wc3", format!("wc3.{x} wc4.{x}"), MINIMUM, wc3(length))
    }));
    rows
}
