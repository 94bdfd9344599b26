//! Records that are refused: which one, where it begins, and why; and that nothing is written.

use super::expected::Expected;
use super::faults::{first, records as read, Fault};
use super::fish::{any_fish, fish, records, text, Fish};
use super::Tool;
use crate::group::Group;
use crate::program::bytes;
use crate::reference::{header, record, sealed, CUT, HEADER, MAX_WORDS, TRAILER, UNSOUND};
use crate::samples::{sequence, unsound_word, with};
use std::fmt::Arguments;

/// `decode` must refuse these bytes as the reference does; `made_for` is what the case was made for.
fn refused(g: &mut Group, tool: &Tool, case: Arguments, bad: &[u8], made_for: Fault) {
    let fault = first(&read(bad)).expect("the records are bad");
    g.equal(format_args!("{case}: the reference's"), fault, made_for);
    tool.put("bad", bad);
    let expected = Expected::fails(fault.line("bad"));
    tool.expect_failure(g, case, &["decode", "bad"], b"", &expected);
    let expected = Expected::fails(fault.line("standard input"));
    tool.expect(g, case, &["decode", "-"], bad, &expected);
}

/// One damaged record of each kind, with the refusal's number.
fn damaged(g: &mut Group, length: usize) -> Vec<(Vec<u32>, u32)> {
    let random = &mut g.random;
    let words = sequence(random, length);
    let good = record(random.half(), &words);
    let large = MAX_WORDS + 1 + random.below(9);
    let unsound = unsound_word(random);
    let mut rows = vec![
        (with(&good, 0, good[0] | 1 << 30), HEADER),
        (with(&good, 0, good[0] | 2 << 30), HEADER),
        (with(&good, 0, good[0] | 3 << 30), HEADER),
        (record(3, &sequence(random, large)), HEADER),
        (vec![header(3, 16_383)], HEADER),
        (
            with(&good, length + 1, good[length + 1] ^ 1 << random.below(32)),
            TRAILER,
        ),
        (
            with(&good, length + 1, good[length + 1] & 0x3FFF_FFFF),
            TRAILER,
        ),
        (with(&good, 0, good[0] ^ 1 << 20), TRAILER),
    ];
    if length > 0 {
        let at = 1 + random.below(length);
        let mut damaged = with(&good, at, unsound);
        rows.push((damaged.clone(), UNSOUND));
        damaged.pop();
        rows.push((sealed(damaged), UNSOUND));
    }
    rows
}

/// Each refusal, in the first record and in later ones, with good records after it.
fn each(g: &mut Group, tool: &Tool) {
    for length in [0, 1, 5, 300, MAX_WORDS] {
        for before in [0, 1, 3] {
            let good: Vec<Fish> = (0..before).map(|_| any_fish(&mut g.random)).collect();
            let (start, word) = (records(&good), good.iter().map(Fish::size).sum());
            for (words, refusal) in damaged(g, length) {
                let fault = Fault::Record {
                    record: before + 1,
                    word,
                    refusal,
                };
                let after = records(&[fish(&mut g.random, 4)]);
                let bad = [&start[..], &bytes(&words), &after].concat();
                let case = format_args!("{refusal} in record {} of {length} words", before + 1);
                refused(g, tool, case, &bad, fault);
            }
        }
    }
}

/// Records cut at every byte.
fn cut(g: &mut Group, tool: &Tool) {
    let good = [
        fish(&mut g.random, 2),
        fish(&mut g.random, 0),
        fish(&mut g.random, 1),
    ];
    let ends = [0, 4, 6, 9];
    let whole = records(&good);
    for kept in 0..=whole.len() {
        let part = &whole[..kept];
        let record = ends
            .iter()
            .rposition(|&end| 4 * end <= kept)
            .expect("0 is one");
        let case = format_args!("{kept} of {} bytes", whole.len());
        if 4 * ends[record] == kept {
            let expected = Expected::prints(text(&good[..record]));
            tool.expect(g, case, &["decode"], part, &expected);
        } else {
            let fault = Fault::Record {
                record: record + 1,
                word: ends[record],
                refusal: CUT,
            };
            refused(g, tool, case, part, fault);
        }
    }
    // One to three bytes after whole records, and after a record that is refused.
    for count in [1, 2, 3] {
        for byte in [0, b'1', 255] {
            let bad = [&whole[..], &vec![byte; count]].concat();
            let fault = Fault::Record {
                record: 4,
                word: 9,
                refusal: CUT,
            };
            refused(
                g,
                tool,
                format_args!("{count} bytes left over"),
                &bad,
                fault,
            );
            let damaged = bytes(&[header(1, 0), 0]);
            let bad = [&whole[..], &damaged, &vec![byte; count]].concat();
            let fault = Fault::Record {
                record: 4,
                word: 9,
                refusal: TRAILER,
            };
            refused(g, tool, format_args!("bad, and {count} bytes"), &bad, fault);
        }
    }
}

/// Good records with random changes of bits and bytes: decoded or refused as the reference reads them.
fn mutations(g: &mut Group, tool: &Tool) {
    for number in 0..500 {
        let random = &mut g.random;
        let all: Vec<Fish> = (0..1 + random.below(4)).map(|_| any_fish(random)).collect();
        let mut changed = records(&all);
        for _ in 0..random.below(3) {
            let at = random.below(changed.len());
            match random.below(4) {
                0 => changed[at] ^= 1 << random.below(8),
                1 => changed[at] = random.half() as u8,
                2 => drop(changed.remove(at)),
                _ => changed.truncate(at + 1),
            }
        }
        let found = read(&changed);
        let expected = match first(&found) {
            Some(fault) => Expected::fails(fault.line("standard input")),
            None => Expected::prints(text(&found.into_iter().flatten().collect::<Vec<_>>())),
        };
        let case = format_args!("mutation {number}");
        tool.expect(g, case, &["decode"], &changed, &expected);
    }
}

/// Damage at known places and random damage.
pub fn bad_records(g: &mut Group) {
    let tool = Tool::new(g);
    each(g, &tool);
    cut(g, &tool);
    mutations(g, &tool);
    // Text is no records, whatever it says.
    let lines = b"12 3 1 1\n13 2 1\n";
    let fault = Fault::Record {
        record: 1,
        word: 0,
        refusal: HEADER,
    };
    refused(g, &tool, format_args!("text"), lines, fault);
    // The first bad file is reported.
    let good = vec![fish(&mut g.random, 9)];
    tool.put("good", records(&good));
    tool.put("short", [0; 3]);
    tool.put("zero", [0; 8]);
    let fault = Fault::Record {
        record: 1,
        word: 0,
        refusal: CUT,
    };
    let expected = Expected::fails(fault.line("short"));
    let args = ["decode", "good", "short", "zero"];
    tool.expect_failure(g, format_args!("first bad file"), &args, b"", &expected);
    let many: Vec<Fish> = (0..100).map(|_| fish(&mut g.random, MAX_WORDS)).collect();
    let mut bad = records(&many);
    let last = bad.len() - 1;
    bad[last] ^= 1;
    let fault = Fault::Record {
        record: 100,
        word: 99 * (MAX_WORDS + 2),
        refusal: TRAILER,
    };
    refused(g, &tool, format_args!("very large"), &bad, fault);
}
