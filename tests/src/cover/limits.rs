//! Limits and refusals of a cover: lengths, sizes of buffers, settings, unsound words, and causes in
//! combination. There is no minimum to refuse, and a first search length of 1 is accepted.

use super::Problem;
use crate::comparisons::limits::{each_unsound, LENGTHS};
use crate::engine::{any_settings, wrong_starts, BUCKETS, MULTIPLIERS, WRONG_BUCKETS};
use crate::group::Group;
use crate::pairs::{any_pair, distinct};
use crate::reference::{self, Tile, MAX_WORDS, ROOM, TILES, TOO_LONG, UNSOUND, WINDOW, WORKSPACE};
use crate::samples::{due, fault_sets, faulty_pair, rooms, some_room};
use sigxume::Settings;

/// Lengths and sizes of each buffer, the others being exact; and none at all.
pub fn sizes(g: &mut Group) {
    for n in LENGTHS {
        for m in LENGTHS {
            let pair = [&distinct(0, n)[..], &distinct(0, m)];
            let shorter = n.min(m);
            let tiles = (shorter > 0).then(|| Tile::from([0, 0, shorter]));
            let problem = Problem::known(pair, Vec::from_iter(tiles));
            let needed = problem.needed();
            let mut sizes = vec![[0; 3], needed];
            for at in 0..needed.len() {
                sizes.extend(rooms(needed[at]).into_iter().map(|room| {
                    let mut size = needed;
                    size[at] = room;
                    size
                }));
            }
            for size in sizes {
                let refusal = due([
                    (n.max(m) > MAX_WORDS, TOO_LONG),
                    (size[0] < needed[0], WORKSPACE),
                    (size[1] < needed[1], TILES),
                    (size[2] < needed[2], ROOM),
                ]);
                let settings = problem.settings(&mut g.random);
                let case = format_args!("{n} and {m} words, buffers of {size:?}");
                problem.cover_in(g, case, settings, size, refusal);
            }
        }
    }
}

/// Multipliers, bucket counts and first search lengths around each limit, each with each.
pub fn settings(g: &mut Group) {
    let longest = MAX_WORDS as u32;
    for number in 0..6 {
        let [first, second] = &any_pair(&mut g.random, 40, 4);
        let problem = Problem::new([first, second]);
        for multiplier in MULTIPLIERS {
            for buckets in BUCKETS.into_iter().chain(WRONG_BUCKETS) {
                let right = [1, 2, 20, longest - 1, longest];
                for start in right.into_iter().chain(wrong_starts(1)) {
                    let refusal = due([
                        (WRONG_BUCKETS.contains(&buckets), reference::BUCKETS),
                        (wrong_starts(1).contains(&start), WINDOW),
                    ]);
                    let settings = Settings {
                        multiplier,
                        buckets,
                        start,
                    };
                    problem.cover_by(g, format_args!("pair {number}"), settings, refusal);
                }
            }
        }
    }
}

/// One unsound word at each position of either side.
pub fn unsound(g: &mut Group) {
    each_unsound(g, |g, case, pair| {
        let problem = Problem::new(pair);
        let settings = problem.settings(&mut g.random);
        problem.cover_by(g, case, settings, UNSOUND);
    });
}

/// Every set of causes at once: too long, unsound, bucket count, first search length, workspace, tile
/// buffer, buffer for the cover.
pub fn order(g: &mut Group) {
    let numbers = [
        TOO_LONG,
        UNSOUND,
        reference::BUCKETS,
        WINDOW,
        WORKSPACE,
        TILES,
        ROOM,
    ];
    for (faults, refusal) in fault_sets(numbers) {
        let [long, unsound, bad_buckets, bad_start, short @ ..] = faults;
        for length in [2, 3, 20, 60].repeat(10) {
            let random = &mut g.random;
            let [first, second] = faulty_pair(random, length, long, unsound);
            let mut settings = any_settings(random, 1, length);
            if bad_buckets {
                settings.buckets = random.pick(&WRONG_BUCKETS);
            }
            if bad_start {
                settings.start = random.pick(&wrong_starts(1));
            }
            let problem = Problem::new([&first, &second]);
            let asked = problem.needed();
            let rooms = [0, 1, 2].map(|i| some_room(random, asked[i], short[i]));
            let case = format_args!(
                "{} and {} words, long {long}, unsound {unsound}, asked {asked:?}, rooms {rooms:?}",
                first.len(),
                second.len(),
            );
            problem.cover_in(g, case, settings, rooms, refusal);
        }
    }
}
