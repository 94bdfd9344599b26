//! The cover at every minimum from one run: each answer, each word of the buffer for the cover, of the
//! tile buffer and of the workspace, all of them dirty before.

pub mod exchange;
pub mod laws;
pub mod limits;

use crate::engine::{any_settings, every_settings, Engine};
use crate::group::Group;
use crate::known::{self, Letters};
use crate::pairs::{
    any_pair, blocks, both_orders, broken, calls, distinct, every_small_pair, pattern_words,
    periodic, related, unrelated, Pair, Sides,
};
use crate::random::Random;
use crate::reference::{
    self, exchanged, tile_words, workspace_words, Curve, Tile, COVER_WORDS, MAX_WORDS,
};
use crate::retired::mixed_pair;
use crate::samples::{call, fills, NO_CALL};
use crate::wise;
use sigxume::raw::{self, Compared};
use sigxume::Settings;
use std::cell::LazyCell;
use std::fmt::Arguments;

/// The cover by the core.
fn cover(
    settings: Settings,
    [first, second]: Sides,
    [workspace, tiles, cover]: [&mut [u32]; 3],
) -> Compared {
    raw::cover_fast(first, second, settings, workspace, tiles, cover)
}

/// A pair to cover. What it comes to is the same for all settings; it is found once, and only where a
/// cover is accepted.
struct Problem<'a> {
    pair: Sides<'a>,
    curve: LazyCell<Curve, Box<dyn FnOnce() -> Curve + 'a>>,
}

impl<'a> Problem<'a> {
    fn by(pair: Sides<'a>, curve: impl FnOnce() -> Curve + 'a) -> Self {
        let curve = LazyCell::new(Box::new(curve) as Box<_>);
        Self { pair, curve }
    }

    /// A pair that the reference tiles at each minimum.
    fn new(pair: Sides<'a>) -> Self {
        Self::by(pair, move || Curve::literal(pair))
    }

    /// A pair that the port of Wise's program tiles at each minimum, since the literal tiling would
    /// take too long.
    fn larger(pair: Sides<'a>) -> Self {
        let [first, second] = pair;
        let tiling = move |minimum| wise::tiling(first, second, minimum, minimum.max(20)).0;
        Self::by(pair, move || Curve::of(tiling))
    }

    /// A pair whose tiles are known at each minimum: of these, those that are long enough.
    fn known(pair: Sides<'a>, tiles: Vec<Tile>) -> Self {
        let long = move |minimum| {
            let mut tiles = tiles.clone();
            tiles.retain(|tile| tile.length >= minimum);
            tiles
        };
        Self::by(pair, move || Curve::of(long))
    }

    /// Settings that are accepted.
    fn settings(&self, random: &mut Random) -> Settings {
        any_settings(random, 1, pattern_words(self.pair))
    }

    /// How many words of workspace, tile buffer and buffer for the cover are asked for.
    fn needed(&self) -> [usize; 3] {
        let [first, second] = self.pair.map(<[u32]>::len);
        [
            workspace_words(first, second),
            tile_words(first, second, 1),
            COVER_WORDS,
        ]
    }

    /// What is asked for, exactly or with some words to spare.
    fn enough(&self, random: &mut Random) -> [usize; 3] {
        self.needed().map(|room| room + random.pick(&[0, 0, 1, 40]))
    }

    /// Covers with buffers that hold these words. The refusal is the one that the case is made for, 0
    /// for none.
    fn cover_holding(
        &self,
        g: &mut Group,
        case: Arguments,
        settings: Settings,
        held: [Vec<u32>; 3],
        refusal: u32,
    ) {
        g.lend_holding(
            format_args!("{}: {case}", Engine::Fast(settings)),
            held,
            Some(refusal),
            |lent| cover(settings, self.pair, lent),
            |lent| reference::cover(settings, self.pair, || &*self.curve, lent),
        );
    }

    /// Covers with buffers of so many random words.
    fn cover_in(
        &self,
        g: &mut Group,
        case: Arguments,
        settings: Settings,
        rooms: [usize; 3],
        refusal: u32,
    ) {
        let held = rooms.map(|room| g.random.words(room));
        self.cover_holding(g, case, settings, held, refusal);
    }

    /// Covers with settings that are refused with a number, or with 0 accepted.
    fn cover_by(&self, g: &mut Group, case: Arguments, settings: Settings, refusal: u32) {
        let rooms = self.enough(&mut g.random);
        self.cover_in(g, case, settings, rooms, refusal);
    }

    /// Covers with any settings that are accepted.
    fn cover(&self, g: &mut Group, case: Arguments) {
        let settings = self.settings(&mut g.random);
        self.cover_by(g, case, settings, 0);
    }
}

/// The cover by the core of a pair that is accepted: its answer, the tiles that it lists, and the
/// words of the cover, where every bit was set before.
fn covered(settings: Settings, pair: Sides) -> (Compared, Vec<Tile>, Vec<u32>) {
    let lent = Problem::new(pair).needed().map(|room| vec![u32::MAX; room]);
    let [mut workspace, mut tiles, mut words] = lent;
    let answer = cover(settings, pair, [&mut workspace, &mut tiles, &mut words]);
    (answer, Tile::list(&tiles, answer.tiles), words)
}

/// The cover by the core of a pair with the sides exchanged, its tiles with the sides exchanged once more.
fn turned_back(settings: Settings, [first, second]: Sides) -> (Compared, Vec<Tile>, Vec<u32>) {
    let (answer, tiles, words) = covered(settings, [second, first]);
    (answer, exchanged(tiles), words)
}

/// The covers of the known pairs, by hand from the tiles at minimum 1; the entries after these are 0.
/// Those of K5 and K6 are the worked example's.
const COVERS: [(&str, &[u32]); known::ROWS] = [
    ("K1", &[]),
    ("K2", &[1]),
    ("K3", &[1]),
    ("K4", &[]),
    ("K5", &[7, 5, 5, 5, 5]),
    ("K6", &[7, 5, 5, 5, 5]),
    ("K7", &[2]),
    ("K8", &[2, 2]),
    ("K9", &[3, 3, 3]),
    ("K10", &[3, 2]),
    ("K11", &[5, 5, 3]),
    ("K7 exchanged", &[2]),
    ("the second is the pattern", &[4, 4]),
    ("no-calls first", &[2]),
    ("a no-call and a call", &[4, 4]),
    ("a no-call for a call", &[2]),
    ("with itself", &[4, 4]),
];

/// The known pairs at every minimum, with every setting of the tables, handed in either way.
pub fn known(g: &mut Group) {
    for (row, (name, entries)) in known::rows().zip(COVERS) {
        let mut expected = entries.to_vec();
        expected.resize(COVER_WORDS, 0);
        let pair = [&row.first[..], &row.second];
        g.equal(
            format_args!("the covered of {name}, and the reference's cover"),
            (
                &row.name[..],
                row.covered,
                Curve::literal(pair).covered.to_vec(),
            ),
            (name, expected[row.minimum - 1] as usize, expected.clone()),
        );
        let problem = Problem::new(pair);
        let exchanged = Problem::new([pair[1], pair[0]]);
        for settings in every_settings(1, pattern_words(pair)) {
            problem.cover_by(g, format_args!("{name}"), settings, 0);
            exchanged.cover_by(g, format_args!("{name}, exchanged"), settings, 0);
            let words = [covered(settings, pair).2, turned_back(settings, pair).2];
            let case = format_args!("words of {name}, either way");
            g.equal(case, words.each_ref(), [&expected; 2]);
        }
    }
}

/// Every pair of short sequences.
pub fn small(g: &mut Group) {
    every_small_pair([12, 6, 3, 4], |[first, second]| {
        let case = format_args!("{} and {}", Letters(first), Letters(second));
        Problem::new([first, second]).cover(g, case);
    });
}

/// Random pairs of up to 60 words over few codes and more, every fourth with retired ones, in both orders.
pub fn random(g: &mut Group) {
    for number in 0..1_000 {
        let codes = g.random.pick(&[1, 2, 2, 3, 3, 4, 5, 6, 10, 40, 65_535]);
        let longest = g.random.pick(&[8, 20, 60]);
        let pair = mixed_pair(&mut g.random, longest, codes);
        for [first, second] in both_orders(&pair) {
            let case = format_args!("pair {number}: {} and {}", Letters(first), Letters(second));
            Problem::new([first, second]).cover(g, case);
        }
    }
}

/// Pairs of up to 2,048 words: identical ones around the greatest minimum, related, unrelated, of one
/// code, periodic, edited.
pub fn larger(g: &mut Group) {
    let random = &mut g.random;
    let one_code = vec![call(7); MAX_WORDS];
    let mut pairs: Vec<(&str, Pair)> = vec![
        ("related", related(random, MAX_WORDS, 40)),
        ("related", related(random, 1_000, 4)),
        ("unrelated", unrelated(random, MAX_WORDS, 40)),
        ("unrelated, few codes", unrelated(random, 1_000, 3)),
        ("one code", [one_code.clone(), one_code]),
        ("one code", [vec![call(7); 260], vec![call(7); 300]]),
        ("one code, broken", [vec![call(7); 600], broken(7, 600)]),
        ("no-calls", [(); 2].map(|()| vec![NO_CALL; MAX_WORDS])),
        ("empty and full", [Vec::new(), distinct(0, MAX_WORDS)]),
        ("period 7", [periodic(1_500, 7, 0), periodic(1_500, 7, 3)]),
        (
            "periods 2 and 3",
            [periodic(600, 2, 0), periodic(500, 3, 0)],
        ),
    ];
    for length in [254, 255, 256, 257, 258, MAX_WORDS - 1, MAX_WORDS] {
        let words = calls(random, length, 40);
        pairs.push(("identical", [words.clone(), words]));
    }
    // Long sequences of few codes would take the port of Wise's program long.
    let sizes = [
        (100, 1),
        (100, 2),
        (300, 2),
        (500, 4),
        (1_000, 20),
        (MAX_WORDS, 300),
    ];
    for (longest, codes) in sizes.repeat(15) {
        pairs.push(("edited", any_pair(random, longest, codes)));
    }
    for (name, pair) in &pairs {
        for [first, second] in both_orders(pair) {
            let (n, m) = (first.len(), second.len());
            let problem = Problem::larger([first, second]);
            for _ in 0..3 {
                problem.cover(g, format_args!("{name}, {n} and {m} words"));
            }
        }
    }
}

/// Pairs whose tiles are known beforehand: one tile of every length up to 300 words, many tiles of one
/// length, tiles of every length from 1 to 60, tiles of lengths around the greatest minimum.
pub fn known_tiles(g: &mut Group) {
    let mut rows: Vec<Vec<usize>> = (1..=300).map(|length| vec![length]).collect();
    rows.extend([1, 2, 3, 8, 20, 100, 254, 255, 256, 257].map(|length| {
        let count = MAX_WORDS / (length + 1);
        vec![length; count]
    }));
    rows.push((1..=60).collect());
    rows.push((1..=60).rev().collect());
    rows.push(vec![254, 255, 256, 257, 258, 1, 2, 254, 256]);
    rows.push(vec![1, 255, 1, 256, 1, 257, 1, 512]);
    rows.push(vec![MAX_WORDS - 1]);
    for _ in 0..100 {
        let random = &mut g.random;
        let longest = random.pick(&[3, 10, 60, 300, 600]);
        let mut lengths = Vec::new();
        let mut rest = MAX_WORDS;
        while rest > longest {
            let length = 1 + random.below(longest);
            lengths.push(length);
            rest -= length + 1;
        }
        rows.push(lengths);
    }
    for lengths in rows {
        let ([first, second], tiles) = blocks(&mut g.random, &lengths);
        let (count, longest) = (lengths.len(), lengths.iter().max());
        let case = format_args!("{count} blocks, the longest of {longest:?} words");
        Problem::known([&first, &second], tiles.clone()).cover(g, case);
        let case = format_args!("{count} blocks, the longest of {longest:?} words, exchanged");
        Problem::known([&second, &first], exchanged(tiles.clone())).cover(g, case);
        // With a word less the second side is the pattern. Its last word is a no-call, so the blocks
        // are whole, but those of one length are laid in another order.
        let shorter = &second[..second.len() - 1];
        let mut tiles = tiles;
        tiles.sort_by_key(|tile| (std::cmp::Reverse(tile.length), tile.second));
        let case = format_args!("{count} blocks, the longest of {longest:?} words, second shorter");
        Problem::known([&first, shorter], tiles).cover(g, case);
    }
}

/// What the buffers held before, other than random words.
pub fn held(g: &mut Group) {
    for number in 0..40 {
        let pair = any_pair(&mut g.random, 40, 4);
        let [first, second] = &pair;
        let problem = Problem::new([first, second]);
        for (name, words) in fills(&pair) {
            let settings = problem.settings(&mut g.random);
            let rooms = problem.enough(&mut g.random);
            let held = rooms.map(|room| words.iter().copied().cycle().take(room).collect());
            let case = format_args!("pair {number}, {name} before");
            problem.cover_holding(g, case, settings, held, 0);
        }
    }
}
