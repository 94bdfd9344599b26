//! What merging refuses: faults of either record, ids and counts that differ, short buffers, and all of them in
//! combination.

use super::merge;
use super::typings::typed_twice;
use crate::group::Group;
use crate::pairs::{both_orders, Pair};
use crate::random::Random;
use crate::records::faults::{
    both_trailers, faulty_record, mutated, wrong_trailers, RECORD_FAULTS,
};
use crate::records::LENGTHS;
use crate::reference::merging;
use crate::reference::{
    header, record, sealed, COUNT, CUT, FISH, HEADER, MAX_WORDS, ROOM, TRAILER, UNSOUND,
};
use crate::samples::{any_length, damages, due, fault_sets, rooms, sequence, with};
use std::fmt::Arguments;

/// Tries a record that is refused, as the first with a right second and as the second after a right first.
fn either(g: &mut Group, case: Arguments, bad: &[u32], good: &[u32], refusal: u32) {
    let room = g.random.pick(&[0, good.len(), good.len() + 3]);
    for (side, pair) in [("first", [bad, good]), ("second", [good, bad])] {
        let case = format_args!("{case}, {side}, room {room}");
        merge(g, case, pair, room, Some(refusal));
    }
}

/// First words that are no header, and headers with a bit flipped: another id or another count is refused too.
pub fn headers(g: &mut Group) {
    for count in [MAX_WORDS + 1, MAX_WORDS + 2, 4_096, 16_383] {
        let good = record(3, &sequence(&mut g.random, 20));
        let whole = record(3, &sequence(&mut g.random, count));
        for kept in [1, 2, 22, count, count + 1, count + 2] {
            let case = format_args!("count {count}, {kept} words");
            either(g, case, &whole[..kept], &good, HEADER);
        }
        let case = format_args!("count {count} in both");
        merge(g, case, [&whole, &whole], count + 2, Some(HEADER));
    }
    for length in LENGTHS {
        let [first, second] = typed_twice(&mut g.random, length);
        for bit in 0..32 {
            let flipped = with(&second, 0, second[0] ^ 1 << bit);
            for mut bad in both_trailers(flipped) {
                // Words enough for a larger count.
                bad.extend(sequence(&mut g.random, MAX_WORDS));
                for pair in both_orders(&[first.clone(), bad]) {
                    let refusal = (bit >= 30).then_some(HEADER);
                    let case = format_args!("{length} words, header bit {bit}");
                    merge(g, case, pair, length + 2, refusal);
                }
            }
        }
        for kind in 1..4 {
            for bad in both_trailers(with(&second, 0, second[0] | kind << 30)) {
                let case = format_args!("{length} words, first word of kind {kind}");
                either(g, case, &bad, &first, HEADER);
            }
        }
    }
}

/// Wrong trailers of either, one of them that of the other record.
pub fn trailers(g: &mut Group) {
    for length in LENGTHS {
        let [first, second] = typed_twice(&mut g.random, length);
        let right = second[length + 1];
        let mut wrong = wrong_trailers(right);
        wrong.extend([first[length + 1]].into_iter().filter(|&it| it != right));
        for word in wrong {
            let bad = with(&second, length + 1, word);
            let case = format_args!("{length} words, trailer {word:#x} for {right:#x}");
            either(g, case, &bad, &first, TRAILER);
        }
    }
}

/// One unsound word at each position of either.
pub fn unsound(g: &mut Group) {
    for length in [1, 2, 20, MAX_WORDS] {
        let [first, second] = typed_twice(&mut g.random, length);
        for (at, word) in damages(&mut g.random, length) {
            for bad in both_trailers(with(&second, at + 1, word)) {
                let case = format_args!("{length} words, {word:#x} at {at}");
                either(g, case, &bad, &first, UNSOUND);
            }
        }
    }
}

/// Either cut at every length, the empty one included; both cut; both empty.
pub fn cut(g: &mut Group) {
    for length in LENGTHS {
        let [first, second] = typed_twice(&mut g.random, length);
        for kept in 0..length + 2 {
            let case = format_args!("{kept} words for count {length}");
            either(g, case, &second[..kept], &first, CUT);
            let both = [&first[..kept], &second[..kept]];
            merge(g, case, both, length + 2, Some(CUT));
        }
        // An empty slice is refused before anything is known of the other.
        for word in [0, u32::MAX, header(1, MAX_WORDS + 1)] {
            let case = format_args!("{length} words, nothing and {word:#x}");
            merge(g, case, [&[], &[word]], length, Some(CUT));
            merge(g, case, [&first, &[]], length + 2, Some(CUT));
        }
    }
}

/// Every id, with itself and with one that differs in a bit; some with each that does.
pub fn fish(g: &mut Group) {
    for id in 0..=u16::MAX {
        let length = usize::from(id) % 3;
        let words = sequence(&mut g.random, length);
        let whole = record(id, &words);
        let case = format_args!("fish {id}");
        merge(g, case, [&whole, &whole], length + 2, Some(0));
        let flipped = |bit: u16| id ^ 1 << bit;
        let others = match id % 256 {
            0 | 255 => Vec::from_iter((0..16).map(flipped)),
            _ => vec![flipped(id % 16)],
        };
        for other in others {
            let pair = [whole.clone(), record(other, &words)];
            for room in [0, length + 2] {
                let case = format_args!("fish {id} and {other}, room {room}");
                merge(g, case, [&pair[0], &pair[1]], room, Some(FISH));
            }
        }
    }
}

/// Counts that differ, of one fish and of two, with buffers around the size of either.
pub fn counts(g: &mut Group) {
    for n in LENGTHS {
        for m in LENGTHS {
            for id in [0, 1, 65_535] {
                let first = record(id, &sequence(&mut g.random, n));
                for other in [id, id ^ 1] {
                    let second = record(other, &sequence(&mut g.random, m));
                    for room in rooms(n + 2).into_iter().chain(rooms(m + 2)) {
                        let refusal =
                            due([(id != other, FISH), (n != m, COUNT), (room < n + 2, ROOM)]);
                        let case =
                            format_args!("fish {id} and {other}, {n} and {m} words, room {room}");
                        merge(g, case, [&first, &second], room, Some(refusal));
                    }
                }
            }
        }
    }
}

/// Two records with these faults: five of the first, five of the second, another fish, another count.
fn faulty_pair(random: &mut Random, count: usize, faults: [bool; 12]) -> Pair {
    let (first, rest) = faults.split_first_chunk().expect("five of the first");
    let (second, rest) = rest.split_first_chunk().expect("five of the second");
    let id = random.half();
    let other = match rest[0] {
        true => id ^ random.pick(&[1, 1 << 7, 1 << 15, u16::MAX]),
        false => id,
    };
    let longer = match rest[1] {
        true => random.pick(&[count + 1, count + 2, 2 * count]),
        false => count,
    };
    let mut counts = [count, longer];
    if random.one_in(2) {
        counts.reverse();
    }
    [
        faulty_record(random, id, counts[0], *first),
        faulty_record(random, other, counts[1], *second),
    ]
}

/// Every set of causes at once: of the first record, of the second, another fish, another count, a short buffer.
pub fn order(g: &mut Group) {
    let [kind, large, cut, unsound, wrong] = RECORD_FAULTS;
    let numbers = [
        kind, large, cut, unsound, wrong, kind, large, cut, unsound, wrong, FISH, COUNT, ROOM,
    ];
    for (faults, refusal) in fault_sets(numbers) {
        let (of_pair, short) = faults.split_first_chunk().expect("all but the buffer");
        for count in [1, 2, 20] {
            let random = &mut g.random;
            let [first, second] = faulty_pair(random, count, *of_pair);
            let room = match short[0] {
                true => random.below(count + 2),
                false => 2 * count + 2 + random.below(3),
            };
            let case = format_args!(
                "count {count}, room {room}, first {:?}, second {:?}, fish {}, count {}",
                &faults[..5],
                &faults[5..10],
                faults[10],
                faults[11]
            );
            merge(g, case, [&first, &second], room, Some(refusal));
        }
    }
}

/// Random changes of right records, of either or of both.
pub fn mutations(g: &mut Group) {
    let mut accepted = 0;
    for number in 0..40_000 {
        let random = &mut g.random;
        let count = any_length(random);
        let [mut first, mut second] = typed_twice(random, count);
        match random.below(4) {
            0 => first = mutated(random, first),
            1 => second = mutated(random, second),
            2 => [first, second] = [first, second].map(|words| mutated(random, words)),
            // The right record of another header.
            _ => {
                second[0] ^= 1 << random.below(30);
                second.truncate(1);
                let longer = (second[0] & 0x3FFF) as usize;
                second.extend(sequence(random, longer));
                second = sealed(second);
            }
        }
        let room = random.pick(&[count + 2, count + 2, count + 3, count + 9, count + 1, 0]);
        let case = format_args!(
            "mutation {number}, {} and {} words, room {room}",
            first.len(),
            second.len()
        );
        let due = merging::merge(&first, &second, &mut vec![0; room]);
        accepted += usize::from(due.refusal == 0);
        merge(g, case, [&first, &second], room, None);
    }
    let case = format_args!("{accepted} were accepted");
    g.equal(case, accepted > 4_000 && accepted < 36_000, true);
}
