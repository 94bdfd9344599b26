//! Two records of one fish made one: the answer and each word of the buffer, which is dirty before.

pub mod laws;
pub mod limits;
pub mod typings;

use crate::group::Group;
use crate::pairs::Sides;
use crate::records::LENGTHS;
use crate::reference::merging::{self, merged_words};
use crate::reference::{record, MAX_WORDS, RETIRED, ROOM};
use crate::retired::{codes, spellings};
use crate::samples::{any_length, call, due, fills, ids, rooms, sequence, with, NO_CALL};
use sigxume::raw;
use std::fmt::Arguments;
use typings::{tails, typed_twice, typings};

/// Compares merging two records into a buffer of `room` words. The refusal is the one that the case is made for.
fn merge(g: &mut Group, case: Arguments, pair: Sides, room: usize, refusal: Option<u32>) {
    let held = g.random.words(room);
    merge_holding(g, case, pair, held, refusal);
}

/// The same with a buffer that holds these words.
fn merge_holding(
    g: &mut Group,
    case: Arguments,
    [first, second]: Sides,
    held: Vec<u32>,
    refusal: Option<u32>,
) {
    g.lend_holding(
        case,
        [held],
        refusal,
        |[buffer]| raw::merge(first, second, buffer),
        |[buffer]| merging::merge(first, second, buffer),
    );
}

/// What the core leaves of two records in a buffer of the first's size.
fn merged([first, second]: Sides) -> Vec<u32> {
    let mut buffer = vec![0; first.len()];
    raw::merge(first, second, &mut buffer);
    buffer
}

/// 0 is the no-call here, so that the tables below are of codes alone.
fn word(code: u16) -> u32 {
    match code {
        0 => NO_CALL,
        _ => call(code),
    }
}

/// By hand: the first's word, the second's and what becomes of them, 0 being the no-call.
const KNOWN: [(u16, u16, u16); 33] = [
    // A call, another call, a no-call on either side.
    (1, 1, 1),
    (1, 2, 0),
    (1, 0, 1),
    (2, 1, 0),
    (2, 2, 2),
    (2, 0, 2),
    (0, 1, 1),
    (0, 2, 2),
    (0, 0, 0),
    // A retired code and the code that it stands for: the first's spelling.
    (65_000, 11, 65_000),
    (11, 65_000, 11),
    (65_000, 65_000, 65_000),
    (65_015, 1_024, 65_015),
    (1_024, 65_015, 1_024),
    // Two retired codes that stand for the same.
    (65_001, 65_002, 65_001),
    (65_002, 65_001, 65_002),
    (65_005, 65_007, 65_005),
    (65_007, 65_006, 65_007),
    (65_006, 52, 65_006),
    // One side alone is called: its word as it stands.
    (65_000, 0, 65_000),
    (0, 65_000, 65_000),
    (0, 65_015, 65_015),
    // Calls that do not match, retired ones among them.
    (65_000, 65_001, 0),
    (65_000, 14, 0),
    (14, 65_000, 0),
    (65_004, 65_005, 0),
    (65_015, 777, 0),
    // Neighbours of the retired codes stand for themselves.
    (64_999, 11, 0),
    (65_016, 1_024, 0),
    (64_999, 65_000, 0),
    (65_016, 65_015, 0),
    (64_999, 64_999, 64_999),
    (65_535, 65_535, 65_535),
];

/// Words and a whole record by hand; every word of the table by the core and by the reference.
pub fn known(g: &mut Group) {
    for (first, second, due) in KNOWN {
        let [a, b, due] = [first, second, due].map(word);
        let case = format_args!("{first} and {second}");
        let pair = [record(7, &[a]), record(7, &[b])];
        let found = merged([&pair[0], &pair[1]]);
        g.equal(case, found, record(7, &[due]));
        g.equal(case, merged_words(&[a], &[b]), vec![due]);
        merge(g, case, [&pair[0], &pair[1]], 3, Some(0));
    }
    // Fish 12: 1 - 3 4 - and 1 2 - 1 -.
    let [a, b, c, d] = [1, 2, 3, 4].map(call);
    let first = [0x0003_0005, a, NO_CALL, c, d, NO_CALL, 0xC003_000D];
    let second = [0x0003_0005, a, b, NO_CALL, a, NO_CALL, 0xC003_0009];
    let whole = [0x0003_0005, a, b, c, NO_CALL, NO_CALL, 0xC003_000B];
    for (case, pair) in [("straight", [first, second]), ("crossed", [second, first])] {
        let found = merged([&pair[0], &pair[1]]);
        g.equal(format_args!("{case}"), &found[..], &whole[..]);
    }
    // A sum that passes 2^30: fish 65,535 with one word.
    let pair = [
        [0x3FFF_C001, call(16_383), 0xC000_0000],
        [0x3FFF_C001, NO_CALL, 0xFFFF_C001],
    ];
    let found = merged([&pair[0], &pair[1]]);
    g.equal(format_args!("a sum of 0"), &found[..], &pair[0][..]);
    let found = merged([&pair[1], &pair[0]]);
    g.equal(format_args!("a sum of 0"), &found[..], &pair[0][..]);
}

/// The no-call, every retired code, every code that one stands for, their neighbours, and the ends of the codes.
fn table() -> Vec<u32> {
    let mut words = codes();
    words.extend([1, 2, 0x3FFF, 0x4000, 0x7FFF, 0x8000]);
    words.sort_unstable();
    words.dedup();
    let mut words = Vec::from_iter(words.into_iter().map(call));
    words.push(NO_CALL);
    words
}

/// Every word of the table against every other, each pair alone in a record and all of them in long ones.
pub fn word_pairs(g: &mut Group) {
    let table = table();
    let pairs = table
        .iter()
        .flat_map(|&a| table.iter().map(move |&b| (a, b)));
    let (mut first, mut second): (Vec<u32>, Vec<u32>) = pairs.unzip();
    for (&a, &b) in first.iter().zip(&second) {
        let pair = [a, b].map(|word| record(9, &[word]));
        let case = format_args!("{a:#x} and {b:#x}");
        merge(g, case, [&pair[0], &pair[1]], 3, Some(0));
    }
    while !first.is_empty() {
        let rest = first.len().saturating_sub(MAX_WORDS);
        let pair = [&mut first, &mut second].map(|words| record(9, &words.split_off(rest)));
        let case = format_args!("pairs from {rest} on");
        merge(g, case, [&pair[0], &pair[1]], pair[0].len(), Some(0));
    }
}

/// A call, another call, a no-call, a retired code, one that stands for the same and that code, each against each.
const KINDS: [u32; 6] = {
    const CALL: u32 = 1 << 30;
    [
        CALL | 1,
        CALL | 2,
        NO_CALL,
        CALL | 65_001,
        CALL | 65_002,
        CALL | 14,
    ]
};

/// Each kind of pair at each position of records of several lengths; the other words are alike.
pub fn positions(g: &mut Group) {
    for length in [1, 2, 3, 20, MAX_WORDS] {
        let words = sequence(&mut g.random, length);
        for at in 0..length {
            for a in KINDS {
                for b in KINDS {
                    let pair = [a, b].map(|word| record(65_535, &with(&words, at, word)));
                    let case = format_args!("{length} words, {a:#x} and {b:#x} at {at}");
                    merge(g, case, [&pair[0], &pair[1]], length + 2, Some(0));
                }
            }
        }
    }
}

/// Every length that records have at their ends, every kind of id, and buffers of every size.
pub fn lengths(g: &mut Group) {
    for length in LENGTHS {
        for id in ids(&mut g.random) {
            let any = typings(&mut g.random, length);
            let none = [(); 2].map(|()| vec![NO_CALL; length]);
            let apart = [1, 2].map(|code| vec![call(code); length]);
            let last = [65_535; 2].map(|code| vec![call(code); length]);
            for sequences in [any, none, apart, last] {
                let pair = sequences.map(|words| record(id, &words));
                for room in rooms(length + 2) {
                    let refusal = due([(room < length + 2, ROOM)]);
                    let case = format_args!("fish {id}, {length} words, room {room}");
                    merge(g, case, [&pair[0], &pair[1]], room, Some(refusal));
                }
            }
        }
    }
}

/// What follows either record is not looked at.
pub fn what_follows(g: &mut Group) {
    for length in LENGTHS {
        let id = g.random.half();
        let pair = typings(&mut g.random, length).map(|words| record(id, &words));
        let alone = merged([&pair[0], &pair[1]]);
        let [of_first, of_second] = [(); 2].map(|()| tails(&mut g.random, id, length));
        for (i, after) in of_first.iter().enumerate() {
            for (j, behind) in of_second.iter().enumerate() {
                let case = format_args!("{length} words, tail {i} and tail {j}");
                let [first, second] = [[&pair[0], after], [&pair[1], behind]];
                let [first, second] = [first, second].map(|parts| {
                    let parts = parts.map(|part| &part[..]);
                    parts.concat()
                });
                merge(g, case, [&first, &second], length + 2, Some(0));
                let mut buffer = vec![0; length + 2];
                raw::merge(&first, &second, &mut buffer);
                g.equal(case, &buffer, &alone);
            }
        }
    }
}

/// Slices that overlap: one slice twice, and a row of records in which the second begins.
pub fn overlaps(g: &mut Group) {
    for number in 0..300 {
        let length = any_length(&mut g.random);
        let id = g.random.half();
        let row = typings(&mut g.random, length).map(|words| record(id, &words));
        let row = row.concat();
        let middle = row.len() / 2;
        for (name, pair) in [
            ("the same slice", [&row[..], &row]),
            ("the second within the first", [&row, &row[middle..]]),
            ("the first within the second", [&row[middle..], &row]),
            ("a longer slice", [&row[..middle], &row]),
        ] {
            let case = format_args!("row {number}, {length} words, {name}");
            merge(g, case, pair, length + 2, Some(0));
        }
    }
}

/// What the buffer held before does not matter: numbers, calls, and either record itself.
pub fn held(g: &mut Group) {
    for length in [0, 1, 2, 20, MAX_WORDS] {
        let pair = typed_twice(&mut g.random, length);
        let sides = [&pair[0][..], &pair[1][..]];
        let itself = [("the first", &pair[0]), ("the second", &pair[1])];
        let fills = fills(&pair);
        let fills = fills.iter().map(|(name, words)| (*name, words));
        for (name, words) in fills.chain(itself) {
            for room in rooms(length + 2) {
                let refusal = due([(room < length + 2, ROOM)]);
                let held = Vec::from_iter(words.iter().copied().cycle().take(room));
                let case = format_args!("{length} words, room {room}, held {name}");
                merge_holding(g, case, sides, held, Some(refusal));
            }
        }
    }
}

/// Random typings of any length, some with words after them, into buffers around their size, of which some hold the first.
pub fn random(g: &mut Group) {
    for number in 0..20_000 {
        let random = &mut g.random;
        let length = any_length(random);
        let mut pair = typed_twice(random, length);
        for words in &mut pair {
            if random.one_in(4) {
                let after = random.below(5);
                words.extend(random.words(after));
            }
        }
        let room = random.pick(&[length + 1, length + 2, length + 2, length + 3, length + 40]);
        let refusal = due([(room < length + 2, ROOM)]);
        let held = match random.below(4) {
            0 => Vec::from_iter(pair[0].iter().copied().cycle().take(room)),
            _ => random.words(room),
        };
        let case = format_args!("typings {number}, {length} words, room {room}");
        merge_holding(g, case, [&pair[0], &pair[1]], held, Some(refusal));
    }
    // Every spelling of every code that has more than one.
    for (_, new) in RETIRED {
        let spellings = spellings(new);
        for &a in &spellings {
            for &b in &spellings {
                let pair = [a, b].map(|code| record(1, &[call(code); 3]));
                let case = format_args!("{a} and {b}");
                merge(g, case, [&pair[0], &pair[1]], 5, Some(0));
            }
        }
    }
}
