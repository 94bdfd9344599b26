//! The list of window hashes.

use crate::engine::MULTIPLIERS;
use crate::group::Group;
use crate::reference::{self, MAX_WORDS, ROOM, TOO_LONG, UNSOUND, WINDOW};
use crate::samples::{
    any_length, call, damages, due, fault_sets, faulty, rooms, sequence, unsound_word, with,
    NO_CALL,
};
use sigxume::raw;
use std::fmt::Arguments;

/// Compares the list of hashes for a multiplier and a window, in a buffer of `room` words.
fn hash_list(
    g: &mut Group,
    case: Arguments,
    words: &[u32],
    (multiplier, window): (u32, u32),
    room: usize,
    refusal: Option<u32>,
) {
    g.lend(
        case,
        [room],
        refusal,
        |[buffer]| raw::hash_list(words, multiplier, window, buffer),
        |[buffer]| reference::hash_list(words, multiplier, window, buffer),
    );
}

/// How many windows fit; none for a window of no words, which is refused.
fn fitting(words: usize, window: u32) -> usize {
    match window {
        0 => 0,
        window => (words + 1).saturating_sub(window as usize),
    }
}

/// K12 with calls of codes 1 to 4 (hashes by hand: 2^30 × 111 is 3 × 2^30 modulo 2^32), and with
/// K12's own words, which are no calls.
pub fn known(g: &mut Group) {
    let calls = [1, 2, 3, 4].map(call);
    let rows: [(u32, usize, &[u32]); 3] = [
        (10, 4, &[(3 << 30) + 123, (3 << 30) + 234]),
        (1 << 31, 3, &[(1 << 30) + 3]),
        (0, 3, &[(1 << 30) + 3]),
    ];
    for (multiplier, count, hashes) in rows {
        let mut buffer = vec![0; hashes.len()];
        let answer = raw::hash_list(&calls[..count], multiplier, 3, &mut buffer);
        let case = format_args!("K12 at B = {multiplier}");
        g.equal(
            case,
            (answer.refusal, answer.count as usize, &buffer[..]),
            (0, hashes.len(), hashes),
        );
        let case = format_args!("K12's words at B = {multiplier}");
        hash_list(g, case, &[1, 2, 3], (multiplier, 3), 1, Some(UNSOUND));
    }
}

/// Lengths, windows, multipliers and buffer sizes, each with each.
pub fn sizes(g: &mut Group) {
    for count in [0, 1, 2, 20, 2_047, 2_048, 2_049, 4_096] {
        let mixed = sequence(&mut g.random, count);
        let mut multipliers = MULTIPLIERS.to_vec();
        multipliers.extend(g.random.words(3));
        let own = count as u32;
        let mut windows = vec![0, 1, 2, 20, 2_047, 2_048, 2_049, 1 << 16, 1 << 31, u32::MAX];
        windows.extend([own.saturating_sub(1), own, own + 1]);
        for &window in &windows {
            for &multiplier in &multipliers {
                let needed = fitting(count, window);
                for room in rooms(needed) {
                    let refusal = due([
                        (count > MAX_WORDS, TOO_LONG),
                        (window == 0 || window as usize > MAX_WORDS, WINDOW),
                        (room < needed, ROOM),
                    ]);
                    let case = format_args!(
                        "{count} words, multiplier {multiplier}, window {window}, room {room}"
                    );
                    let settings = (multiplier, window);
                    hash_list(g, case, &mixed, settings, room, Some(refusal));
                }
            }
        }
    }
}

/// Sequences of one word over and over: the largest call, the smallest, the no-call.
pub fn uniform(g: &mut Group) {
    for word in [call(65_535), call(0), NO_CALL] {
        for count in [1, 2, 20, MAX_WORDS] {
            for window in [1, 2, 3, 20, 256, 1_024, 2_048] {
                for multiplier in MULTIPLIERS {
                    let case = format_args!(
                        "{count} times {word:#x}, multiplier {multiplier}, window {window}"
                    );
                    let words = vec![word; count];
                    hash_list(g, case, &words, (multiplier, window), count, Some(0));
                }
            }
        }
    }
}

/// One unsound word at each position, also where no window fits.
pub fn unsound(g: &mut Group) {
    for count in [1, 2, 20, MAX_WORDS] {
        let sound = sequence(&mut g.random, count);
        for (at, bad) in damages(&mut g.random, count) {
            let words = with(&sound, at, bad);
            for window in [1, 2, 2_048] {
                let case = format_args!("{count} words, {bad:#x} at {at}, window {window}");
                hash_list(g, case, &words, (257, window), count, Some(UNSOUND));
            }
        }
    }
}

/// Every set of causes at once: too long, unsound, window, room.
pub fn order(g: &mut Group) {
    for (faults, refusal) in fault_sets([TOO_LONG, UNSOUND, WINDOW, ROOM]) {
        let [long, unsound, bad_window, short] = faults;
        for count in [1, 2, 20, MAX_WORDS].repeat(25) {
            let random = &mut g.random;
            let words = faulty(random, count, long, unsound);
            let count = words.len();
            let window = if bad_window {
                random.pick(&[0, MAX_WORDS as u32 + 1, u32::MAX])
            } else {
                1 + random.below(count.min(MAX_WORDS)) as u32
            };
            // Where no window fits only an empty buffer can be called short.
            let needed = fitting(count, window);
            let room = if short {
                random.below(needed.max(1))
            } else {
                needed + random.below(3)
            };
            let multiplier = random.word();
            let case = format_args!(
                "{count} words, long {long}, unsound {unsound}, window {window}, \
                 short buffer {short}, room {room}"
            );
            let settings = (multiplier, window);
            hash_list(g, case, &words, settings, room, Some(refusal));
        }
    }
}

/// Random sequences, multipliers, windows and buffers.
pub fn random(g: &mut Group) {
    for number in 0..20_000 {
        let random = &mut g.random;
        let count = any_length(random);
        let mut words = sequence(random, count);
        if count > 0 && random.one_in(8) {
            words[random.below(count)] = unsound_word(random);
        }
        let window = random.below(count + 3) as u32;
        let multiplier = if random.one_in(4) {
            random.pick(&MULTIPLIERS)
        } else {
            random.word()
        };
        let room = (fitting(count, window) + random.below(5)).saturating_sub(1);
        let case = format_args!(
            "sequence {number}, {count} words, multiplier {multiplier}, window {window}, room {room}"
        );
        hash_list(g, case, &words, (multiplier, window), room, None);
    }
}
