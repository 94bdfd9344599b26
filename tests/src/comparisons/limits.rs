//! Limits and refusals of a comparison: lengths, minimums, sizes of buffers, unsound words, and
//! causes in combination.

use super::{compare, expect, Problem};
use crate::engine::{wrong_starts, Engine, WRONG_BUCKETS};
use crate::group::Group;
use crate::pairs::{distinct, Sides};
use crate::reference::{
    exchanged, Tile, BUCKETS, MAX_MINIMUM, MAX_WORDS, MINIMUM, TILES, TOO_LONG, UNSOUND, WINDOW,
    WORKSPACE,
};
use crate::samples::{
    damages, due, fault_sets, faulty_pair, rooms, sequence, some_room, unsound_word, with, NO_CALL,
};
use std::fmt::Arguments;

/// Lengths of a sequence at the ends, past them and between.
pub const LENGTHS: [usize; 9] = [
    0,
    1,
    2,
    20,
    256,
    MAX_WORDS - 1,
    MAX_WORDS,
    MAX_WORDS + 1,
    5_000,
];

/// Lengths, minimums and buffer sizes.
pub fn sizes(g: &mut Group) {
    let minimums = [0, 1, 2, 255, 256, 257, 1 << 16, u32::MAX];
    for n in LENGTHS {
        for m in LENGTHS {
            let pair = [&distinct(0, n)[..], &distinct(0, m)];
            for minimum in minimums {
                let problem = Problem::new(pair, minimum);
                let [workspace, tiles] = problem.needed();
                let mut sizes: Vec<[usize; 2]> = Vec::new();
                sizes.extend(rooms(workspace).into_iter().map(|room| [room, tiles]));
                sizes.extend(rooms(tiles).into_iter().map(|room| [workspace, room]));
                sizes.push([0, 0]);
                for [room, tile_room] in sizes {
                    let refusal = due([
                        (n.max(m) > MAX_WORDS, TOO_LONG),
                        (minimum == 0 || minimum > MAX_MINIMUM, MINIMUM),
                        (room < workspace, WORKSPACE),
                        (tile_room < tiles, TILES),
                    ]);
                    let case = format_args!(
                        "{n} and {m} words, minimum {minimum}, workspace {room}, tiles {tile_room}"
                    );
                    for engine in problem.engines(&mut g.random) {
                        problem.compare_in(g, case, engine, [room, tile_room], refusal);
                    }
                }
            }
        }
    }
}

/// As many tiles as the tile buffer must have room for: blocks of the minimum length in the opposite
/// order, up to 2,048 words.
pub fn full(g: &mut Group) {
    for (count, length) in [
        (1, 1),
        (2, 1),
        (20, 1),
        (MAX_WORDS, 1),
        (MAX_WORDS / 2, 2),
        (MAX_WORDS / 3, 3),
        (MAX_WORDS / 8, 8),
        (8, 255),
        (8, 256),
    ] {
        let blocks: Vec<Vec<u32>> = (0..count).map(|i| distinct(i * length, length)).collect();
        let turned: Vec<&[u32]> = blocks.iter().rev().map(|block| &block[..]).collect();
        let (first, mut second) = (blocks.concat(), turned.concat());
        let tiles = (0..count).map(|i| [i * length, (count - 1 - i) * length, length]);
        let laid: Vec<Tile> = tiles.map(Tile::from).collect();
        let minimum = length as u32;
        let case = format_args!("{count} tiles of {length} words");
        expect(g, case, [&first, &second], minimum, &laid);
        let case = format_args!("{count} tiles of {length} words, exchanged");
        expect(g, case, [&second, &first], minimum, &exchanged(laid));
        // The mirror image: the shorter sequence is handed in second.
        let mut longer = first.clone();
        if longer.len() < MAX_WORDS {
            longer.push(NO_CALL);
        } else {
            second.truncate((count - 1) * length);
        }
        let kept = second.len() / length;
        let tiles = (0..kept).map(|i| [(count - 1 - i) * length, i * length, length]);
        let laid: Vec<Tile> = tiles.map(Tile::from).collect();
        let case = format_args!("{kept} tiles of {length} words, second shorter");
        expect(g, case, [&longer, &second], minimum, &laid);
    }
}

/// Pairs that are to be refused: with one unsound word, at each position of either side, and with
/// equal ones on both.
pub fn each_unsound(g: &mut Group, refused: impl Fn(&mut Group, Arguments, Sides)) {
    for count in [1, 2, 20, MAX_WORDS] {
        let sound = sequence(&mut g.random, count);
        for other in [0, 1, 20, MAX_WORDS] {
            let other_words = sequence(&mut g.random, other);
            let places = damages(&mut g.random, count);
            // Every position of short sequences, both ends and some others of long ones.
            let some = places.iter().filter(|&&(at, _)| {
                let end = at == 0 || at + 1 == count;
                end || count + other < 50 || at % 97 == 0
            });
            for &(at, bad) in some {
                let words = with(&sound, at, bad);
                let case = format_args!("{bad:#x} at {at} of {count} words, {other} words");
                refused(g, case, [&words, &other_words]);
                refused(g, case, [&other_words, &words]);
            }
        }
    }
    for count in [1, 2, 20] {
        // Equal unsound words, which a match by equality would take for a run.
        let bad = unsound_word(&mut g.random);
        let case = format_args!("{bad:#x} {count} times on both sides");
        refused(g, case, [&vec![bad; count], &vec![bad; count]]);
    }
}

/// One unsound word at each position of either side.
pub fn unsound(g: &mut Group) {
    each_unsound(g, |g, case, pair| {
        let problem = Problem::new(pair, 1);
        for engine in problem.engines(&mut g.random) {
            problem.compare_by(g, case, engine, UNSOUND);
        }
    });
    let sound = sequence(&mut g.random, 20);
    compare(g, format_args!("a sound pair"), [&sound, &sound], 1);
}

/// Every set of causes at once: too long, unsound, minimum, bucket count, first search length,
/// workspace, tile buffer; the first two on the first side, the second or both. The plain engine has
/// no bucket count and no search length.
pub fn order(g: &mut Group) {
    let numbers = [
        TOO_LONG, UNSOUND, MINIMUM, BUCKETS, WINDOW, WORKSPACE, TILES,
    ];
    for (faults, refusal) in fault_sets(numbers) {
        let [long, unsound, bad_minimum, bad_buckets, bad_start, no_workspace, no_tiles] = faults;
        for length in [2, 3, 20, 60].repeat(20) {
            let random = &mut g.random;
            let [first, second] = faulty_pair(random, length, long, unsound);
            let pair = [&first[..], &second];
            // A minimum of 1 or 2 leaves each pair something to ask for.
            let right = 1 + random.below(2) as u32;
            let wrong = random.pick(&[0, MAX_MINIMUM + 1, MAX_MINIMUM + 2, 1 << 31, u32::MAX]);
            let minimum = if bad_minimum { wrong } else { right };
            let asked = Problem::new(pair, right).needed();
            let short = [no_workspace, no_tiles];
            let rooms = [0, 1].map(|i| some_room(random, asked[i], short[i]));
            let mut engine = Engine::any_fast(random, minimum, length);
            if let Engine::Fast(settings) = &mut engine {
                if bad_buckets {
                    settings.buckets = random.pick(&WRONG_BUCKETS);
                }
                if bad_start {
                    settings.start = random.pick(&wrong_starts(minimum));
                }
            }
            let case = format_args!(
                "{} and {} words, long {long}, unsound {unsound}, minimum {minimum}, \
                 asked {asked:?}, rooms {rooms:?}",
                first.len(),
                second.len(),
            );
            let problem = Problem::new(pair, minimum);
            problem.compare_in(g, case, engine, rooms, refusal);
            if !bad_buckets && !bad_start {
                problem.compare_in(g, case, Engine::Plain, rooms, refusal);
            }
        }
    }
}
