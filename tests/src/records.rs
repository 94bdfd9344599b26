//! Reading and writing records, and the two round trips.

pub mod faults;

use crate::group::Group;
use crate::known::letters;
use crate::random::Random;
use crate::reference::{self, record, CUT, HEADER, MAX_WORDS, ROOM, TOO_LONG, TRAILER, UNSOUND};
use crate::samples::{
    any_length, call, damages, due, fault_sets, faulty, ids, rooms, sequence, unsound_word, with,
    NO_CALL,
};
use faults::{both_trailers, faulty_record, mutated, random_record, wrong_trailers, RECORD_FAULTS};
use sigxume::raw::{self, Counted, ReadAnswer};
use std::fmt::Arguments;

/// Lengths of sequences that are accepted.
pub const LENGTHS: [usize; 6] = [0, 1, 2, 20, MAX_WORDS - 1, MAX_WORDS];

/// 01's two records: id, letters, header and trailer.
pub const WORKED: [(u16, &str, u32, u32); 2] = [
    (12, "caabaad", 0x0003_0007, 0xC003_0014),
    (13, "baadcaaaabaa", 0x0003_400C, 0xC003_401F),
];

/// Compares reading `src` into a buffer of `room` words.
fn read(g: &mut Group, case: Arguments, src: &[u32], room: usize, refusal: Option<u32>) {
    g.lend(
        case,
        [room],
        refusal,
        |[buffer]| raw::read(src, buffer),
        |[buffer]| reference::read(src, buffer),
    );
}

/// Compares writing a sequence into a buffer of `room` words.
fn write(
    g: &mut Group,
    case: Arguments,
    id: u16,
    words: &[u32],
    room: usize,
    refusal: Option<u32>,
) {
    g.lend(
        case,
        [room],
        refusal,
        |[buffer]| raw::write(id, words, buffer),
        |[buffer]| reference::write(id, words, buffer),
    );
}

/// Records that are accepted: every length, ids at their ends, mixed and uniform sequences.
fn accepted(random: &mut Random) -> Vec<Vec<u32>> {
    let mut records = Vec::new();
    for length in LENGTHS {
        for id in ids(random) {
            records.push(record(id, &sequence(random, length)));
            records.push(record(id, &vec![NO_CALL; length]));
            records.push(record(id, &vec![call(65_535); length]));
        }
    }
    records
}

/// 01's worked records, word for word.
pub fn worked(g: &mut Group) {
    for (id, name, first, last) in WORKED {
        let words = letters(name);
        let count = words.len();
        let whole = [&[first], &words[..], &[last]].concat();
        let mut buffer = vec![0; count];
        let answer = raw::read(&whole, &mut buffer);
        let expected = ReadAnswer {
            refusal: 0,
            id: id.into(),
            count: count as u32,
            used: count as u32 + 2,
        };
        g.equal(format_args!("read {name}"), answer, expected);
        g.equal(format_args!("words of {name}"), &buffer, &words);
        let mut buffer = vec![0; count + 2];
        let answer = raw::write(id, &words, &mut buffer);
        let expected = Counted {
            refusal: 0,
            count: count as u32 + 2,
        };
        g.equal(format_args!("write {name}"), answer, expected);
        g.equal(format_args!("record of {name}"), &buffer, &whole);
        g.equal(
            format_args!("reference's record of {name}"),
            record(id, &words),
            whole,
        );
    }
}

/// Accepted records, alone and with words after the trailer, into buffers of every size.
pub fn read_accepted(g: &mut Group) {
    for whole in accepted(&mut g.random) {
        let count = whole.len() - 2;
        for after in [0, 1, 2, 3_000] {
            let src = [&whole[..], &g.random.words(after)].concat();
            for room in rooms(count) {
                let refusal = due([(room < count, ROOM)]);
                let case = format_args!("{count} words, {after} after, room {room}");
                read(g, case, &src, room, Some(refusal));
            }
        }
    }
}

/// First words that are no header, and headers with a bit flipped.
pub fn read_headers(g: &mut Group) {
    for count in [2_049, 2_050, 4_096, 16_383] {
        let whole = random_record(&mut g.random, count);
        for kept in [1, 2, count, count + 1, count + 2] {
            for room in [0, count] {
                let case = format_args!("count {count}, {kept} words, room {room}");
                read(g, case, &whole[..kept], room, Some(HEADER));
            }
        }
    }
    for count in LENGTHS {
        let whole = random_record(&mut g.random, count);
        for bit in 0..32 {
            for mut src in both_trailers(with(&whole, 0, whole[0] ^ 1 << bit)) {
                // Words enough for a larger count.
                src.extend(sequence(&mut g.random, MAX_WORDS));
                let refusal = (bit >= 30).then_some(HEADER);
                let case = format_args!("{count} words, header bit {bit}");
                read(g, case, &src, MAX_WORDS, refusal);
            }
        }
        for kind in 1..4 {
            for src in both_trailers(with(&whole, 0, whole[0] | kind << 30)) {
                let case = format_args!("{count} words, first word of kind {kind}");
                read(g, case, &src, count, Some(HEADER));
            }
        }
    }
}

/// Wrong trailers, among them sums off by one where the sum is 0 and where it is 2^30 - 1.
pub fn read_trailers(g: &mut Group) {
    let sum_0 = record(65_535, &[call(16_383)]);
    let sum_max = record(65_535, &[call(16_382)]);
    g.equal(format_args!("sum 0"), sum_0[2], 0xC000_0000);
    g.equal(format_args!("sum 2^30 - 1"), sum_max[2], 0xFFFF_FFFF);
    let mut records = vec![record(0, &[]), sum_0, sum_max];
    records.extend(LENGTHS.map(|count| random_record(&mut g.random, count)));
    for whole in records {
        let count = whole.len() - 2;
        let right = whole[count + 1];
        for word in wrong_trailers(right) {
            let case = format_args!("{count} words, trailer {word:#x} for {right:#x}");
            let src = with(&whole, count + 1, word);
            read(g, case, &src, count, Some(TRAILER));
        }
        let case = format_args!("{count} words, trailer {right:#x}");
        read(g, case, &whole, count, Some(0));
    }
}

/// One unsound word at each position.
pub fn read_unsound(g: &mut Group) {
    for count in [1, 2, 20, MAX_WORDS] {
        let whole = random_record(&mut g.random, count);
        for (at, bad) in damages(&mut g.random, count) {
            for src in both_trailers(with(&whole, at + 1, bad)) {
                let case = format_args!("{count} words, {bad:#x} at {at}");
                read(g, case, &src, count, Some(UNSOUND));
            }
        }
    }
}

/// Records cut at every length, the empty one and the whole one included.
pub fn read_cut(g: &mut Group) {
    for count in LENGTHS {
        let whole = random_record(&mut g.random, count);
        for kept in 0..=count + 2 {
            for room in [0, count] {
                let refusal = due([(kept < count + 2, CUT), (room < count, ROOM)]);
                let case = format_args!("{kept} words for count {count}, room {room}");
                read(g, case, &whole[..kept], room, Some(refusal));
            }
        }
    }
}

/// Every set of causes at once: kind and count of the first word, cut, unsound, trailer, room.
pub fn read_order(g: &mut Group) {
    let [kind, large, cut, unsound, wrong] = RECORD_FAULTS;
    for (faults, refusal) in fault_sets([kind, large, cut, unsound, wrong, ROOM]) {
        let [kind, large, cut, unsound, wrong, short] = faults;
        for count in [1, 2, 20, MAX_WORDS].repeat(10) {
            let random = &mut g.random;
            let id = random.half();
            let of_record = [kind, large, cut, unsound, wrong];
            let src = faulty_record(random, id, count, of_record);
            let count = (src[0] & 0x3FFF) as usize;
            let room = if short {
                random.below(count)
            } else {
                count + random.below(3)
            };
            let case = format_args!(
                "count {count}, kind {kind}, large {large}, cut {cut}, unsound {unsound}, \
                 wrong trailer {wrong}, short buffer {short}"
            );
            read(g, case, &src, room, Some(refusal));
        }
    }
}

/// Random changes of right records; half of them get the trailer of their new words.
pub fn read_mutations(g: &mut Group) {
    for number in 0..60_000 {
        let random = &mut g.random;
        let count = any_length(random);
        let whole = random_record(random, count);
        let src = mutated(random, whole);
        let room = random.pick(&[count, count, count + 1, count + 9, count / 2]);
        let case = format_args!("mutation {number}, {} words, room {room}", src.len());
        read(g, case, &src, room, None);
    }
}

/// Lengths up to the limit and past it, some too large for the 14 bits of a count.
pub fn write_lengths(g: &mut Group) {
    for count in LENGTHS.into_iter().chain([2_049, 4_096, 16_384, 65_536]) {
        for id in ids(&mut g.random) {
            let words = sequence(&mut g.random, count);
            for room in rooms(count + 2) {
                let refusal = due([(count > MAX_WORDS, TOO_LONG), (room < count + 2, ROOM)]);
                let case = format_args!("id {id}, {count} words, room {room}");
                write(g, case, id, &words, room, Some(refusal));
            }
        }
    }
}

/// One unsound word at each position.
pub fn write_unsound(g: &mut Group) {
    for count in [1, 2, 20, MAX_WORDS] {
        let sound = sequence(&mut g.random, count);
        for (at, bad) in damages(&mut g.random, count) {
            let case = format_args!("{count} words, {bad:#x} at {at}");
            let words = with(&sound, at, bad);
            write(g, case, 7, &words, count + 2, Some(UNSOUND));
        }
    }
}

/// Every set of causes at once: too long, unsound, room.
pub fn write_order(g: &mut Group) {
    for (faults, refusal) in fault_sets([TOO_LONG, UNSOUND, ROOM]) {
        let [long, unsound, short] = faults;
        for count in [1, 2, 20, MAX_WORDS].repeat(50) {
            let random = &mut g.random;
            let words = faulty(random, count, long, unsound);
            let count = words.len();
            let room = if short {
                random.below(count + 2)
            } else {
                count + 2 + random.below(3)
            };
            let id = random.half();
            let case = format_args!(
                "{count} words, long {long}, unsound {unsound}, short buffer {short}, room {room}"
            );
            write(g, case, id, &words, room, Some(refusal));
        }
    }
}

/// Random sequences, some with an unsound word, into buffers around their size.
pub fn write_random(g: &mut Group) {
    for number in 0..20_000 {
        let random = &mut g.random;
        let count = any_length(random);
        let mut words = sequence(random, count);
        if count > 0 && random.one_in(4) {
            words[random.below(count)] = unsound_word(random);
        }
        let (id, room) = (random.half(), count + random.below(5));
        let case = format_args!("sequence {number}, {count} words, room {room}");
        write(g, case, id, &words, room, None);
    }
}

/// What is read from a written record is what was written; what is written from a read record is
/// that record. Only the core runs here.
pub fn round_trips(g: &mut Group) {
    let mut records = accepted(&mut g.random);
    records.extend((0..5_000).map(|_| {
        let count = any_length(&mut g.random);
        random_record(&mut g.random, count)
    }));
    for (number, whole) in records.iter().enumerate() {
        let count = whole.len() - 2;
        let mut words = vec![0; count];
        let read = raw::read(whole, &mut words);
        let mut written = vec![0; count + 2];
        raw::write(read.id as u16, &words, &mut written);
        g.equal(format_args!("record {number} written"), &written, whole);

        let (id, words) = (g.random.half(), sequence(&mut g.random, count));
        let mut written = vec![0; count + 2];
        let answer = raw::write(id, &words, &mut written);
        let mut back = vec![0; count];
        let read = raw::read(&written, &mut back);
        let expected = ReadAnswer {
            refusal: 0,
            id: id.into(),
            count: count as u32,
            used: answer.count,
        };
        g.equal(format_args!("sequence {number}, answer"), read, expected);
        g.equal(format_args!("sequence {number}, read"), back, words);
    }
}
