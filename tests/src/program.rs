//! The pair program, run as a process: what it prints for valid, cut and damaged input, and where a read or a
//! write fails.

use crate::group::Group;
use crate::known::{self, letters, Known, LISTING};
use crate::pairs::{any_pair, calls, distinct, related, unrelated, Pair};
use crate::process::{self, first_difference, lossy, Pieces, AT_ONCE};
use crate::records::WORKED;
use crate::reference::{
    exchanged, header, listing, pair_program, record, sealed, trailer, Tile, CUT, HEADER,
    MAX_MINIMUM, MAX_WORDS, MINIMUM, TRAILER, UNSOUND,
};
use crate::retired::mixed_pair;
use crate::samples::{call, ids, sequence, sound_word, unsound_word, with, NO_CALL};
use std::fmt::Arguments;
use std::fs::File;
use std::io::Write;
use std::process::Command;
use std::time::Duration;

/// The program, which the gate builds.
const PROGRAM: &str = concat!(env!("CARGO_MANIFEST_DIR"), "/../target/bin/pair");

/// Words as bytes, "lowest byte first".
pub fn bytes(words: &[u32]) -> Vec<u8> {
    words.iter().flat_map(|word| word.to_le_bytes()).collect()
}

/// 01's worked example: the minimum and the records of fish 12 and fish 13.
pub fn worked() -> Vec<u32> {
    let records = WORKED.map(|(_, name, header, trailer)| {
        let words = letters(name);
        [&[header], &words[..], &[trailer]].concat()
    });
    [&[1], &records.concat()[..]].concat()
}

/// The program's input for two sequences.
pub fn input(minimum: u32, ids: [u16; 2], [first, second]: &Pair) -> Vec<u32> {
    let records = [record(ids[0], first), record(ids[1], second)];
    [&[minimum], &records.concat()[..]].concat()
}

/// What the program prints for these bytes; or why it did not run to its end.
pub fn run(input: &[u8], pieces: Pieces) -> Result<String, String> {
    let output = process::run(&mut Command::new(PROGRAM), input, pieces).map_err(|error| {
        format!("{PROGRAM}: {error}; run `make pair` at the top of the repository first")
    })?;
    if output.status.success() && output.stderr.is_empty() {
        Ok(lossy(&output.stdout))
    } else {
        Err(format!("{}, {}", output.status, lossy(&output.stderr)))
    }
}

/// The program gets its input at once or in pieces and must print what is expected.
fn expect_in(g: &mut Group, case: Arguments, input: &[u8], pieces: Pieces, expected: &str) {
    let printed = run(input, pieces);
    let difference = match &printed {
        Ok(printed) => Ok(first_difference(printed, expected)),
        Err(error) => Err(&error[..]),
    };
    g.equal(case, difference, Ok(None));
}

/// The program must print what is expected.
fn expect(g: &mut Group, case: Arguments, input: &[u8], expected: &str) {
    expect_in(g, case, input, AT_ONCE, expected);
}

/// The program must print what the reference does.
fn compare(g: &mut Group, case: Arguments, input: &[u8]) {
    expect(g, case, input, &pair_program(input));
}

/// The program must refuse with a number.
fn refused(g: &mut Group, case: Arguments, input: &[u8], number: u32) {
    expect(g, case, input, &format!("REFUSED {number}\n"));
}

/// The worked example and the known pairs, handed in either way.
pub fn known(g: &mut Group) {
    let case = format_args!("worked example");
    expect(g, case, &bytes(&worked()), LISTING);
    for row in known::rows().flat_map(Known::both_ways) {
        let pair = [row.first, row.second];
        let minimum = row.minimum as u32;
        let ids = [g.random.half(), g.random.half()];
        let lengths = [pair[0].len(), pair[1].len()];
        let expected = listing(ids.map(u32::from), lengths, minimum, &row.tiles);
        let case = format_args!("{}", row.name);
        expect(g, case, &bytes(&input(minimum, ids, &pair)), &expected);
    }
}

/// Random pairs of up to 200 words in both orders, ids at their ends.
pub fn random(g: &mut Group) {
    for number in 0..250 {
        let random = &mut g.random;
        let (longest, codes) = (random.pick(&[8, 60, 200]), random.pick(&[1, 2, 3, 6, 40]));
        let [first, second] = mixed_pair(random, longest, codes);
        let minimum = random.pick(&[1, 1, 2, 3, 8, 19, 20, 21, 40]);
        let table = ids(random);
        let ids = [random.pick(&table), random.pick(&table)];
        let (n, m) = (first.len(), second.len());
        let case = format_args!("pair {number}, {n} and {m} words, minimum {minimum}");
        let exchanged = [second.clone(), first.clone()];
        for pair in [[first, second], exchanged] {
            compare(g, case, &bytes(&input(minimum, ids, &pair)));
        }
    }
}

/// Pairs of up to 2,048 words, with as many tiles as there can be and shifts of -2,047 to 2,047.
pub fn larger(g: &mut Group) {
    let whole = distinct(0, MAX_WORDS);
    let turned: Vec<u32> = whole.iter().copied().rev().collect();
    let cross = |n: usize| -> Vec<Tile> {
        let tiles = (0..n).map(|at| [at, MAX_WORDS - 1 - at, 1]);
        tiles.map(Tile::from).collect()
    };
    let shorter = MAX_WORDS - 1;
    let one = |length: usize| vec![call(7); length];
    let all = |length: usize| vec![Tile::from([0, 0, length])];
    let plans: Vec<(Pair, u32, Vec<Tile>)> = vec![
        ([whole.clone(), turned.clone()], 1, cross(MAX_WORDS)),
        (
            [turned.clone(), whole.clone()],
            1,
            exchanged(cross(MAX_WORDS)),
        ),
        (
            [whole[..shorter].to_vec(), turned.clone()],
            1,
            cross(shorter),
        ),
        ([whole.clone(), turned], 2, Vec::new()),
        ([whole.clone(), whole.clone()], 256, all(MAX_WORDS)),
        ([whole.clone(), Vec::new()], 1, Vec::new()),
        ([Vec::new(), whole], 256, Vec::new()),
        ([one(MAX_WORDS), one(MAX_WORDS)], 1, all(MAX_WORDS)),
        ([one(MAX_WORDS), one(1)], 1, all(1)),
        ([one(300), one(MAX_WORDS)], 256, all(300)),
        (
            [vec![NO_CALL; MAX_WORDS], vec![NO_CALL; MAX_WORDS]],
            1,
            Vec::new(),
        ),
    ];
    for (pair, minimum, tiles) in &plans {
        let ids = [g.random.half(), g.random.half()];
        let lengths = [pair[0].len(), pair[1].len()];
        let expected = listing(ids.map(u32::from), lengths, *minimum, tiles);
        let case = format_args!("{lengths:?} words, minimum {minimum}");
        expect(g, case, &bytes(&input(*minimum, ids, pair)), &expected);
    }
    let random = &mut g.random;
    let pairs = [
        (related(random, MAX_WORDS, 40), 20),
        (unrelated(random, MAX_WORDS, 40), 8),
        ([calls(random, 90, 3), calls(random, MAX_WORDS, 3)], 3),
        ([calls(random, MAX_WORDS, 3), calls(random, 90, 3)], 3),
    ];
    for (number, (pair, minimum)) in pairs.iter().enumerate() {
        let case = format_args!("larger pair {number}, minimum {minimum}");
        compare(g, case, &bytes(&input(*minimum, [1, 2], pair)));
    }
}

/// Minimums around each limit, on pairs that are accepted, empty, cut or damaged.
pub fn minimums(g: &mut Group) {
    let block = distinct(0, 300);
    let pairs = [
        [letters("caabaad"), letters("baadcaaaabaa")],
        [Vec::new(), Vec::new()],
        [block.clone(), [&[NO_CALL], &block[..]].concat()],
    ];
    let long = MAX_WORDS as u32;
    let table = [
        0,
        1,
        2,
        19,
        20,
        21,
        MAX_MINIMUM - 1,
        MAX_MINIMUM,
        MAX_MINIMUM + 1,
        long,
        long + 1,
        1 << 16,
        1 << 24,
        1 << 31,
        u32::MAX,
    ];
    for minimum in table {
        for pair in &pairs {
            let whole = input(minimum, [3, 4], pair);
            let case = format_args!("minimum {minimum}, {} words", whole.len());
            if (1..=MAX_MINIMUM).contains(&minimum) {
                compare(g, case, &bytes(&whole));
            } else {
                refused(g, case, &bytes(&whole), MINIMUM);
            }
            // Both records are read before the minimum is looked at.
            let last = whole.len() - 1;
            let trailers = [pair[0].len() + 2, last];
            for at in trailers {
                let damaged = with(&whole, at, whole[at] ^ 1);
                let case = format_args!("minimum {minimum}, trailer at {at}");
                refused(g, case, &bytes(&damaged), TRAILER);
            }
            let case = format_args!("minimum {minimum}, cut");
            refused(g, case, &bytes(&whole[..last]), CUT);
        }
        let case = format_args!("minimum {minimum} alone");
        refused(g, case, &bytes(&[minimum]), CUT);
    }
}

/// Input that ends early, at every byte: none at all, within the minimum, after it, within a record,
/// between the records.
pub fn cut(g: &mut Group) {
    let first = vec![NO_CALL, call(0)];
    let inputs = [
        worked(),
        input(1, [0, 65_535], &[Vec::new(), Vec::new()]),
        input(0, [7, 8], &[first, Vec::new()]),
    ];
    for (number, whole) in inputs.iter().enumerate() {
        let whole = bytes(whole);
        for kept in 0..whole.len() {
            let case = format_args!("input {number}, {kept} of {} bytes", whole.len());
            refused(g, case, &whole[..kept], CUT);
        }
        let case = format_args!("input {number}, all bytes");
        compare(g, case, &whole);
    }
    let [first, second] = [(); 2].map(|()| sequence(&mut g.random, MAX_WORDS));
    let whole = bytes(&input(256, [5, 6], &[first, second]));
    let record = 4 * (MAX_WORDS + 2);
    for end in [4, 4 + record, 4 + 2 * record] {
        for less in [1, 2, 3, 4, 5, 4_000] {
            let kept = usize::saturating_sub(end, less);
            let case = format_args!("{kept} of {} bytes", whole.len());
            refused(g, case, &whole[..kept], CUT);
        }
    }
}

/// Each word of an input changed: one bit, all bits, another word; with the trailer that the record
/// had, and with the one that is right for its words.
pub fn damaged(g: &mut Group) {
    let whole = worked();
    // The header and the trailer of each record.
    let second = letters(WORKED[0].1).len() + 3;
    let ends = [(1, second - 1), (second, whole.len() - 1)];
    for at in 0..whole.len() {
        let random = &mut g.random;
        let mut changes: Vec<u32> = (0..32).map(|bit| whole[at] ^ 1 << bit).collect();
        changes.extend([0, u32::MAX, NO_CALL, call(1), !whole[at]]);
        changes.extend([random.word(), sound_word(random), unsound_word(random)]);
        changes.extend([whole[at].wrapping_add(1), whole[at].wrapping_sub(1)]);
        for word in changes {
            let damaged = with(&whole, at, word);
            let case = format_args!("{word:#x} at {at} for {:#x}", whole[at]);
            compare(g, case, &bytes(&damaged));
            for (start, end) in ends {
                if (start..end).contains(&at) {
                    let right = trailer(&damaged[start..end]);
                    let damaged = with(&damaged, end, right);
                    let case = format_args!("{word:#x} at {at} and its trailer");
                    compare(g, case, &bytes(&damaged));
                }
            }
        }
    }
    for number in 0..100 {
        let random = &mut g.random;
        let pair = any_pair(random, 20, 3);
        let mut words = input(random.pick(&[0, 1, 2, 257]), [1, 2], &pair);
        for _ in 0..1 + random.below(2) {
            let at = random.below(words.len());
            match random.below(4) {
                0 => words[at] = unsound_word(random),
                1 => words[at] ^= random.bit(),
                2 => drop(words.remove(at)),
                _ => words.insert(at, sound_word(random)),
            }
        }
        let case = format_args!("damage {number}, {} words", words.len());
        compare(g, case, &bytes(&words));
    }
}

/// Headers whose count is not the number of words that follow, and counts above 2,048, with and
/// without so many words.
pub fn counts(g: &mut Group) {
    let right = record(9, &letters("aba"));
    for count in [MAX_WORDS + 1, MAX_WORDS + 2, 4_096, 16_383] {
        let long = record(9, &sequence(&mut g.random, count));
        for kept in [1, 2, MAX_WORDS + 2, count + 2] {
            let part = &long[..kept];
            for (name, records) in [
                ("first", [part, &right].concat()),
                ("second", [&right, part].concat()),
            ] {
                let case = format_args!("{name} record, count {count}, {kept} words");
                refused(g, case, &bytes(&[&[1], &records[..]].concat()), HEADER);
            }
        }
    }
    // The first cause of the first record decides, whatever the second is.
    let unsound = record(9, &[0]);
    let late = [&right[..], &unsound].concat();
    let case = format_args!("unsound word in the second record");
    refused(g, case, &bytes(&[&[1], &late[..]].concat()), UNSOUND);
    let early = [&unsound[..], &[u32::MAX]].concat();
    let case = format_args!("unsound word in the first record, no header after it");
    refused(g, case, &bytes(&[&[1], &early[..]].concat()), UNSOUND);
    for count in 0..12 {
        let mut words = letters("abcaba");
        words.insert(0, header(9, count));
        for words in [sealed(words.clone()), words] {
            for records in [[&words[..], &right], [&right, &words]] {
                let input = [&[1], &records.concat()[..]].concat();
                let case = format_args!("count {count} of 6 words, {} in all", input.len());
                compare(g, case, &bytes(&input));
            }
        }
    }
}

/// Words and parts of words after the second record, up to more than any valid input has.
pub fn what_follows(g: &mut Group) {
    let full = [(); 2].map(|()| distinct(0, MAX_WORDS));
    let refused = with(&worked(), 0, 0);
    let inputs = [
        worked(),
        input(256, [1, 2], &full),
        input(2, [1, 2], &[Vec::new(), Vec::new()]),
        with(&worked(), 3, 0),
        refused,
    ];
    for (number, whole) in inputs.iter().enumerate() {
        let whole = bytes(whole);
        let expected = pair_program(&whole);
        for count in [1, 2, 3, 4, 5, 6, 7, 8, 9, 40, 5_001, 100_000, 100_003] {
            let random = g.random.words(count / 4 + 1);
            for after in [bytes(&random), vec![0; count], vec![255; count]] {
                let input = [&whole, &after[..count]].concat();
                let case = format_args!("input {number}, {count} bytes after it");
                expect(g, case, &input, &expected);
            }
        }
        let input = whole.repeat(3);
        let case = format_args!("input {number} three times");
        expect(g, case, &input, &expected);
    }
}

/// Input that comes a few bytes at a time, so that a word may come in parts.
pub fn in_pieces(g: &mut Group) {
    let pause = Duration::from_millis(1);
    let whole = bytes(&worked());
    for kept in [whole.len(), whole.len() - 1, 3] {
        let part = &whole[..kept];
        for piece in [1, 2, 3, 5, 7, 16, 41] {
            let case = format_args!("{kept} bytes in pieces of {piece}");
            expect_in(g, case, part, (piece, pause), &pair_program(part));
        }
    }
    let pair = [(); 2].map(|()| distinct(0, MAX_WORDS));
    let whole = bytes(&input(1, [12, 13], &pair));
    for piece in [401, 4_095, 4_096, 4_097, 8_193] {
        let case = format_args!("{} bytes in pieces of {piece}", whole.len());
        expect_in(g, case, &whole, (piece, pause), &pair_program(&whole));
    }
}

/// A read that fails is the end of the input, and output that cannot be written is lost. The program's status
/// does not say so.
pub fn faults(g: &mut Group) {
    let ended = |command: &mut Command| {
        let seen = command.output().map(|ran| {
            let printed = [&ran.stdout, &ran.stderr].map(|bytes| lossy(bytes));
            (ran.status.code(), printed)
        });
        seen.map_err(|error| error.to_string())
    };
    let quietly = |printed: &str| Ok((Some(0), [printed, ""].map(String::from)));
    let folder = File::open(env!("CARGO_MANIFEST_DIR")).expect("a folder can be opened");
    let seen = ended(Command::new(PROGRAM).stdin(folder));
    let expected = quietly(&format!("REFUSED {CUT}\n"));
    g.equal(format_args!("a folder as input"), seen, expected);
    let full = File::options()
        .write(true)
        .open("/dev/full")
        .expect("/dev/full is there");
    let (reader, mut writer) = std::io::pipe().expect("a pipe can be made");
    let input = bytes(&worked());
    writer.write_all(&input).expect("a pipe holds it");
    drop(writer);
    let seen = ended(Command::new(PROGRAM).stdin(reader).stdout(full));
    g.equal(format_args!("a full device as output"), seen, quietly(""));
}
