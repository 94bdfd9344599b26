//! Limits and refusals of a question about a threshold: lengths, minimums, thresholds, the workspace's size, settings,
//! unsound words, and causes in combination. There is no tile buffer to refuse.

use super::{workspace, WRONG_THRESHOLDS};
use crate::comparisons::limits::{each_unsound, LENGTHS};
use crate::comparisons::Problem;
use crate::engine::{any_settings, wrong_starts, BUCKETS, MULTIPLIERS, WRONG_BUCKETS};
use crate::group::Group;
use crate::pairs::{any_pair, distinct};
use crate::reference::{
    self, MAX_MINIMUM, MAX_THRESHOLD, MAX_WORDS, MINIMUM, THRESHOLD, TOO_LONG, UNSOUND, WINDOW,
    WORKSPACE,
};
use crate::samples::{due, fault_sets, faulty_pair, rooms, some_room};
use sigxume::Settings;

/// Minimums that are refused.
const WRONG_MINIMUMS: [u32; 5] = [0, MAX_MINIMUM + 1, MAX_MINIMUM + 2, 1 << 31, u32::MAX];

/// Thresholds at the ends and between, and past the end.
fn thresholds() -> impl Iterator<Item = u32> {
    let right = [0, 1, 500, MAX_THRESHOLD - 1, MAX_THRESHOLD];
    right.into_iter().chain(WRONG_THRESHOLDS)
}

/// Lengths, minimums, thresholds and sizes of the workspace, each with each.
pub fn sizes(g: &mut Group) {
    let minimums = [1, 2, MAX_MINIMUM].into_iter().chain(WRONG_MINIMUMS);
    let minimums = Vec::from_iter(minimums);
    for n in LENGTHS {
        for m in LENGTHS {
            let pair = [&distinct(0, n)[..], &distinct(0, m)];
            let needed = workspace(pair);
            for &minimum in &minimums {
                let shorter = n.min(m);
                let laid =
                    (shorter > 0 && shorter >= minimum as usize).then(|| [0, 0, shorter].into());
                let problem = Problem::known(pair, minimum, Vec::from_iter(laid));
                for threshold in thresholds() {
                    for room in rooms(needed) {
                        let refusal = due([
                            (n.max(m) > MAX_WORDS, TOO_LONG),
                            (WRONG_MINIMUMS.contains(&minimum), MINIMUM),
                            (room < needed, WORKSPACE),
                            (threshold > MAX_THRESHOLD, THRESHOLD),
                        ]);
                        let settings = problem.settings(&mut g.random);
                        let case = format_args!("{n} and {m} words, workspace {room}");
                        problem.ask_in(g, case, settings, threshold, room, refusal);
                    }
                }
            }
        }
    }
}

/// Multipliers, bucket counts, first search lengths and thresholds around each limit, each with each.
pub fn settings(g: &mut Group) {
    let longest = MAX_WORDS as u32;
    for number in 0..4 {
        let [first, second] = &any_pair(&mut g.random, 40, 4);
        let minimum = g.random.pick(&[1, 2, 3]);
        let problem = Problem::new([first, second], minimum);
        for multiplier in MULTIPLIERS {
            for buckets in BUCKETS.into_iter().chain(WRONG_BUCKETS) {
                let right = [minimum, minimum + 1, 20, longest - 1, longest];
                for start in right.into_iter().chain(wrong_starts(minimum)) {
                    for threshold in [0, 300, MAX_THRESHOLD, MAX_THRESHOLD + 1] {
                        let refusal = due([
                            (WRONG_BUCKETS.contains(&buckets), reference::BUCKETS),
                            (wrong_starts(minimum).contains(&start), WINDOW),
                            (threshold > MAX_THRESHOLD, THRESHOLD),
                        ]);
                        let settings = Settings {
                            multiplier,
                            buckets,
                            start,
                        };
                        let room = workspace(problem.pair);
                        let case = format_args!("pair {number}");
                        problem.ask_in(g, case, settings, threshold, room, refusal);
                    }
                }
            }
        }
    }
}

/// One unsound word at each position of either side.
pub fn unsound(g: &mut Group) {
    each_unsound(g, |g, case, pair| {
        let problem = Problem::new(pair, 1);
        let settings = problem.settings(&mut g.random);
        let threshold = g.random.pick(&[0, 500, MAX_THRESHOLD, MAX_THRESHOLD + 1]);
        let room = workspace(pair);
        problem.ask_in(g, case, settings, threshold, room, UNSOUND);
    });
}

/// Every set of causes at once: too long, unsound, minimum, bucket count, first search length, workspace,
/// threshold.
pub fn order(g: &mut Group) {
    let numbers = [
        TOO_LONG,
        UNSOUND,
        MINIMUM,
        reference::BUCKETS,
        WINDOW,
        WORKSPACE,
        THRESHOLD,
    ];
    for (faults, refusal) in fault_sets(numbers) {
        let [long, unsound, bad_minimum, bad_buckets, bad_start, short, bad_threshold] = faults;
        for length in [2, 3, 20, 60].repeat(20) {
            let random = &mut g.random;
            let [first, second] = faulty_pair(random, length, long, unsound);
            let minimum = match bad_minimum {
                true => random.pick(&WRONG_MINIMUMS),
                false => random.pick(&[1, 2, 3]),
            };
            let mut settings = any_settings(random, minimum, length);
            if bad_buckets {
                settings.buckets = random.pick(&WRONG_BUCKETS);
            }
            if bad_start {
                settings.start = random.pick(&wrong_starts(minimum));
            }
            let threshold = match bad_threshold {
                true => random.pick(&WRONG_THRESHOLDS),
                false => random.below(MAX_THRESHOLD as usize + 1) as u32,
            };
            let problem = Problem::new([&first, &second], minimum);
            let asked = workspace(problem.pair);
            let room = some_room(random, asked, short);
            let case = format_args!(
                "{} and {} words, long {long}, unsound {unsound}, asked {asked}, workspace {room}",
                first.len(),
                second.len(),
            );
            problem.ask_in(g, case, settings, threshold, room, refusal);
        }
    }
}
