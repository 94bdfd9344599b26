//! Comparisons by both engines: each answer, each word of the tile buffer and each word of the
//! workspace, which is dirty before.

pub mod breaks;
pub mod exchange;
pub mod laws;
pub mod limits;
pub mod mistakes;
mod plan;
pub mod restarts;
pub mod retired;
pub mod settings;

use crate::engine::{every_settings, Engine};
use crate::group::Group;
use crate::known::{self, Known, Letters, LISTING};
use crate::pairs::{
    any_pair, both_orders, calls, distinct, every_small_pair, pattern_words, periodic, related,
    unrelated, Pair, Sides,
};
use crate::random::Random;
use crate::records::WORKED;
use crate::reference::{
    self, exchanged, listing, tile_words, tiling, workspace_words, Tile, MAX_MINIMUM, MAX_WORDS,
};
use crate::samples::{call, fills, NO_CALL};
use sigxume::raw::{self, Compared};
use std::cell::OnceCell;
use std::fmt::Arguments;

/// The plain engine, and the fast one with two settings that are accepted at a minimum.
fn engines(random: &mut Random, pair: Sides, minimum: u32) -> [Engine; 3] {
    let pattern = pattern_words(pair);
    let [one, other] = [(); 2].map(|()| Engine::any_fast(random, minimum, pattern));
    [Engine::Plain, one, other]
}

/// The fast engine with every setting of the tables that is accepted at a minimum.
fn every_fast(pair: Sides, minimum: u32) -> Vec<Engine> {
    let settings = every_settings(minimum, pattern_words(pair));
    settings.into_iter().map(Engine::Fast).collect()
}

/// A pair to compare at a minimum. Its tiles are the same for every engine; they are found once, and
/// only where a comparison is accepted.
pub struct Problem<'a> {
    pub pair: Sides<'a>,
    pub minimum: u32,
    laid: OnceCell<Vec<Tile>>,
}

impl<'a> Problem<'a> {
    /// A pair that the reference tiles.
    pub fn new(pair: Sides<'a>, minimum: u32) -> Self {
        let laid = OnceCell::new();
        Self {
            pair,
            minimum,
            laid,
        }
    }

    /// A pair whose tiles are known beforehand.
    pub fn known(pair: Sides<'a>, minimum: u32, laid: Vec<Tile>) -> Self {
        let laid = laid.into();
        Self {
            pair,
            minimum,
            laid,
        }
    }

    /// The tiles in the order laid.
    pub fn laid(&self) -> &[Tile] {
        let [first, second] = self.pair;
        let tiling = || tiling(first, second, self.minimum as usize);
        self.laid.get_or_init(tiling)
    }

    /// The plain engine, and the fast one with two settings that are accepted.
    fn engines(&self, random: &mut Random) -> [Engine; 3] {
        engines(random, self.pair, self.minimum)
    }

    /// How many words of workspace and of tile buffer are asked for. A minimum that is refused leaves
    /// open how many tiles there is to be room for; this takes the nearest one that is accepted.
    fn needed(&self) -> [usize; 2] {
        let [first, second] = self.pair.map(<[u32]>::len);
        let minimum = self.minimum.clamp(1, MAX_MINIMUM);
        [
            workspace_words(first, second),
            tile_words(first, second, minimum),
        ]
    }

    /// What is asked for, exactly or with some words to spare.
    fn enough(&self, random: &mut Random) -> [usize; 2] {
        self.needed().map(|room| room + random.pick(&[0, 0, 1, 40]))
    }

    /// Compares in a workspace and a tile buffer that hold these words. The refusal is the one that
    /// the case is made for, 0 for none.
    fn compare_holding(
        &self,
        g: &mut Group,
        case: Arguments,
        engine: Engine,
        held: [Vec<u32>; 2],
        refusal: u32,
    ) {
        let Self { pair, minimum, .. } = *self;
        let laid = || self.laid();
        g.lend_holding(
            format_args!("{engine}: {case}"),
            held,
            Some(refusal),
            |[workspace, tiles]| engine.compare(pair, minimum, workspace, tiles),
            |[workspace, tiles]| reference::compare(engine, pair, minimum, laid, workspace, tiles),
        );
    }

    /// Compares in a workspace and a tile buffer of so many random words.
    fn compare_in(
        &self,
        g: &mut Group,
        case: Arguments,
        engine: Engine,
        rooms: [usize; 2],
        refusal: u32,
    ) {
        let held = rooms.map(|room| g.random.words(room));
        self.compare_holding(g, case, engine, held, refusal);
    }

    /// Compares by an engine that refuses with a number for another reason than its buffers, or
    /// with 0 accepts.
    fn compare_by(&self, g: &mut Group, case: Arguments, engine: Engine, refusal: u32) {
        let rooms = self.enough(&mut g.random);
        self.compare_in(g, case, engine, rooms, refusal);
    }

    /// Compares by both engines, which accept.
    fn compare(&self, g: &mut Group, case: Arguments) {
        for engine in self.engines(&mut g.random) {
            self.compare_by(g, case, engine, 0);
        }
    }
}

/// Compares a pair that is accepted.
fn compare(g: &mut Group, case: Arguments, pair: Sides, minimum: u32) {
    Problem::new(pair, minimum).compare(g, case);
}

/// A pair that is accepted and whose tiles are known beforehand.
fn expect(g: &mut Group, case: Arguments, pair: Sides, minimum: u32, laid: &[Tile]) {
    Problem::known(pair, minimum, laid.to_vec()).compare(g, case);
}

/// An engine's answer to a pair that is accepted, and the tiles that it lists.
pub fn listed(engine: Engine, pair: Sides, minimum: u32) -> (Compared, Vec<Tile>) {
    let rooms = Problem::new(pair, minimum).needed();
    let [mut workspace, mut tiles] = rooms.map(|room| vec![0; room]);
    let answer = engine.compare(pair, minimum, &mut workspace, &mut tiles);
    (answer, Tile::list(&tiles, answer.tiles))
}

/// An engine's answer to a pair with the sides exchanged, and its tiles with the sides exchanged once
/// more. 02, U2: "exchanging the strands now only exchanges tile sides for all accepted pairs".
fn turned_back(engine: Engine, [first, second]: Sides, minimum: u32) -> (Compared, Vec<Tile>) {
    let (answer, tiles) = listed(engine, [second, first], minimum);
    (answer, exchanged(tiles))
}

/// The known pairs with every setting of the tables, handed in either way, and the worked example from
/// its two records to its listing.
pub fn known(g: &mut Group) {
    for row in known::rows().flat_map(Known::both_ways) {
        let name = &row.name;
        let pair = [&row.first[..], &row.second];
        let minimum = row.minimum as u32;
        let expected = Compared {
            refusal: 0,
            tiles: row.tiles.len() as u32,
            covered: row.covered as u32,
            score: row.score as u32,
        };
        let problem = Problem::known(pair, minimum, row.tiles);
        let every = every_fast(pair, minimum);
        for engine in [Engine::Plain].into_iter().chain(every) {
            problem.compare_by(g, format_args!("{name}"), engine, 0);
            let (answer, _) = listed(engine, pair, minimum);
            let case = format_args!("{engine}: answer of {name}");
            g.equal(case, answer, expected);
        }
        for minimum in 1..=8 {
            let case = format_args!("words of {name} at minimum {minimum}");
            compare(g, case, pair, minimum);
        }
    }
    let [(first, first_id), (second, second_id)] = WORKED.map(|(_, letters, header, trailer)| {
        let words = known::letters(letters);
        let mut sequence = vec![0; words.len()];
        let record = [&[header], &words[..], &[trailer]].concat();
        let read = raw::read(&record, &mut sequence);
        (sequence, read.id)
    });
    let pair = [&first[..], &second];
    for engine in engines(&mut g.random, pair, 1) {
        let (_, tiles) = listed(engine, pair, 1);
        let lengths = pair.map(<[u32]>::len);
        let listing = listing([first_id, second_id], lengths, 1, &tiles);
        let case = format_args!("{engine}: worked example");
        g.equal(case, &listing[..], LISTING);
    }
}

/// Every pair of short sequences.
pub fn small(g: &mut Group) {
    every_small_pair([12, 6, 4, 4], |[first, second]| {
        for minimum in 1..=3 {
            let case = format_args!(
                "{} and {}, minimum {minimum}",
                Letters(first),
                Letters(second)
            );
            compare(g, case, [first, second], minimum);
        }
    });
}

/// Compares so many random pairs in both orders; codes, lengths and minimums come from tables.
fn compare_random(g: &mut Group, count: usize, codes: &[u16], longest: &[usize], minimums: &[u32]) {
    for number in 0..count {
        let (codes, longest) = (g.random.pick(codes), g.random.pick(longest));
        let pair = any_pair(&mut g.random, longest, codes);
        let minimum = g.random.pick(minimums);
        for [first, second] in both_orders(&pair) {
            let case = format_args!(
                "pair {number}: {} and {}, minimum {minimum}",
                Letters(first),
                Letters(second)
            );
            compare(g, case, [first, second], minimum);
        }
    }
}

/// Random pairs of up to 60 words over few codes and more.
pub fn random(g: &mut Group) {
    let codes = [1, 2, 2, 3, 3, 4, 5, 6, 10, 40, 65_535];
    let minimums = [1, 1, 1, 2, 2, 3, 3, 4, 5, 8, 20];
    compare_random(g, 100_000, &codes, &[8, 20, 60], &minimums);
}

/// Pairs of up to 2,048 words: related, unrelated, identical, of one code, periodic, edited.
pub fn larger(g: &mut Group) {
    let random = &mut g.random;
    let whole = calls(random, MAX_WORDS, 40);
    let shorter = MAX_WORDS - 1;
    let pairs: Vec<(&str, Pair, u32)> = vec![
        ("related", related(random, MAX_WORDS, 40), 8),
        ("related", related(random, 1_000, 40), 3),
        ("related, few codes", related(random, 700, 4), 5),
        ("unrelated", unrelated(random, MAX_WORDS, 40), 8),
        ("unrelated", unrelated(random, MAX_WORDS, 40), 3),
        ("unrelated, few codes", unrelated(random, MAX_WORDS, 4), 9),
        ("unrelated, few codes", unrelated(random, 400, 3), 1),
        ("identical", [whole.clone(), whole.clone()], 1),
        ("identical", [whole.clone(), whole.clone()], 256),
        ("prefix", [whole[..shorter].to_vec(), whole.clone()], 256),
        ("suffix", [whole[1..].to_vec(), whole], 256),
        ("one code", [vec![call(7); 700], vec![call(7); 700]], 1),
        ("one code", [vec![call(7); 40], vec![call(7); MAX_WORDS]], 1),
        ("one code", [vec![call(7); 300], vec![call(7); 1_999]], 256),
        (
            "no-calls",
            [vec![NO_CALL; MAX_WORDS], vec![NO_CALL; MAX_WORDS]],
            1,
        ),
        (
            "other codes",
            [distinct(0, MAX_WORDS), distinct(MAX_WORDS, MAX_WORDS)],
            1,
        ),
        (
            "period 7",
            [periodic(1_500, 7, 0), periodic(1_500, 7, 3)],
            2,
        ),
        (
            "periods 7 and 8",
            [periodic(MAX_WORDS, 7, 0), periodic(MAX_WORDS, 8, 0)],
            7,
        ),
        (
            "periods 2 and 3",
            [periodic(600, 2, 0), periodic(500, 3, 0)],
            1,
        ),
    ];
    for (name, pair, minimum) in &pairs {
        for [first, second] in both_orders(pair) {
            let (n, m) = (first.len(), second.len());
            let case = format_args!("{name}, {n} and {m} words, minimum {minimum}");
            compare(g, case, [first, second], *minimum);
        }
    }
    let minimums = [2, 3, 5, 8, 20, 64];
    compare_random(g, 150, &[1, 2, 4, 20, 300], &[100, 300, 500], &minimums);
}

/// What the workspace and the tile buffer held before, other than random words.
pub fn held(g: &mut Group) {
    for number in 0..300 {
        let pair = any_pair(&mut g.random, 60, 4);
        let [first, second] = &pair;
        let minimum = g.random.pick(&[1, 2, 3]);
        let problem = Problem::new([first, second], minimum);
        let rooms = problem.enough(&mut g.random);
        for (name, words) in fills(&pair) {
            let case = format_args!("pair {number}, minimum {minimum}, {name} before");
            for engine in problem.engines(&mut g.random) {
                let held = rooms.map(|room| words.iter().copied().cycle().take(room).collect());
                problem.compare_holding(g, case, engine, held, 0);
            }
        }
    }
}
