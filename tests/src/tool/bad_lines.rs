//! Text that is not as it must be: the place of the first fault, and that nothing is written.

use super::expected::{Expected, Line};
use super::faults::{first, lines, Fault};
use super::fish::{any_fishes, fish, records, text, Fish};
use super::Tool;
use crate::group::Group;
use crate::process::lossy;
use crate::random::Random;
use crate::reference::MAX_WORDS;
use std::fmt::Arguments;

/// Bad lines after good ones, with the column of the fault.
#[rustfmt::skip]
const FAULTS: [(&[u8], usize); 62] = [
    // Where a number should begin.
    (b"\n", 1), (b" \n", 1), (b"  12\n", 1), (b"\t12\n", 1), (b"\r\n", 1), (b"x\n", 1), (b"?\n", 1),
    (b"? 1\n", 1), (b"-1\n", 1), (b"+1\n", 1), (b"#12\n", 1), (b",\n", 1), (b"\0\n", 1), (b"\xFF\n", 1),
    (b"\xC3\xA9 1\n", 1), (b"\xEF\xBB\xBF12 1\n", 1), (b"12  3\n", 4), (b"12 \n", 4), (b"12 3 \n", 6),
    (b"12 x\n", 4), (b"12 3 x 4\n", 6), (b"12 -3\n", 4), (b"12 +3\n", 4), (b"12 .5\n", 4),
    (b"12 3 \t4\n", 6), (b"12 3 \r\n", 6), (b"12 3 4 !\n", 8), (b"12 3 \0\n", 6), (b"12 \xE2\x80\xA6\n", 4),
    // Leading zeros and numbers too large.
    (b"012\n", 1), (b"00\n", 1), (b"12 01\n", 4), (b"12 3 00 4\n", 6), (b"12 007\n", 4), (b"65536\n", 1),
    (b"12 65536\n", 4), (b"12 3 70000 4\n", 6), (b"100000\n", 1), (b"12 99999999999999999999999\n", 4),
    (b"12 4294967296\n", 4), (b"12 18446744073709551616\n", 4), (b"12 65536x\n", 4), (b"12 01x\n", 4),
    // After a number.
    (b"12x\n", 3), (b"12 3x\n", 5), (b"12 ?1\n", 5), (b"12 ??\n", 5), (b"12 1?\n", 5), (b"12\t3\n", 3),
    (b"12\r\n", 3), (b"12 3\r\n", 5), (b"12 ?\r\n", 5), (b"12 3,4\n", 5), (b"12 3\x0B4\n", 5),
    (b"12 3.0\n", 5), (b"12 0x10\n", 5), (b"12 3\xC2\xA04\n", 5), (b"12 3\0\n", 5), (b"12\xFF\n", 3),
    (b"0 0 0-\n", 6), (b"12 3 # 4\n", 6), (b"12 3; 4\n", 5),
];

/// The last line without its newline, with the column.
#[rustfmt::skip]
const ENDS: [(&[u8], usize); 9] = [
    (b"12", 3), (b"12 3", 5), (b"12 ?", 5), (b"0", 2), (b"12 ", 4), (b"65535 65535", 12), (b" ", 1),
    (b"12 x", 4), (b"70000", 1),
];

/// `encode` must refuse this text as the parser does; `made_for` is the place that the case was made for.
fn refused(
    g: &mut Group,
    tool: &Tool,
    case: Arguments,
    text: &[u8],
    made_for: Option<(usize, usize)>,
) {
    let fault = first(&lines(text)).expect("the text is bad");
    let (Fault::Text { line, column } | Fault::TooMany { line, column }) = fault else {
        unreachable!("a fault of text");
    };
    let place = (line, column);
    let wanted = made_for.unwrap_or(place);
    g.equal(format_args!("{case}: the parser's place"), place, wanted);
    tool.put("bad.txt", text);
    let expected = Expected::fails(fault.line("bad.txt"));
    tool.expect_failure(g, case, &["encode", "bad.txt"], b"", &expected);
    let expected = Expected::fails(fault.line("standard input"));
    tool.expect(g, case, &["encode"], text, &expected);
}

/// A change of some bytes: one more, one less, another one.
fn mutate(random: &mut Random, text: &mut Vec<u8>) {
    const BYTES: &[u8] = b"0123456789 ?\n\n  \t\rx-,\0\x7F\x80\xFF";
    let byte = random.pick(BYTES);
    if text.is_empty() {
        text.push(byte);
        return;
    }
    let at = random.below(text.len());
    match random.below(3) {
        0 => text.insert(at, byte),
        1 => drop(text.remove(at)),
        _ => text[at] = byte,
    }
}

/// Good text with random changes: accepted or refused as the parser says.
fn mutations(g: &mut Group, tool: &Tool) {
    for number in 0..500 {
        let all = any_fishes(&mut g.random, 3);
        let mut changed = text(&all);
        if changed.len() > 400 {
            changed.truncate(400);
            changed.push(b'\n');
        }
        for _ in 0..1 + g.random.below(3) {
            mutate(&mut g.random, &mut changed);
        }
        let read = lines(&changed);
        let expected = match first(&read) {
            Some(fault) => Expected::fails(fault.line("standard input")),
            None => {
                let all: Vec<Fish> = read.into_iter().flatten().collect();
                Expected::prints(records(&all))
            }
        };
        let case = format_args!("mutation {number}");
        tool.expect(g, case, &["encode", "-"], &changed, &expected);
    }
}

/// Lines of more than 2,048 words, alone and with other faults before and after.
fn too_many(g: &mut Group, tool: &Tool) {
    let full = fish(&mut g.random, MAX_WORDS).line();
    let full = full.trim_end();
    let next = full.len() + 2;
    let good = "7 1 2\n";
    #[rustfmt::skip]
    let rows = [
        (" 1\n", next), (" ?\n", next), (" 65535 1 1\n", next), (" 1", next), (" 1x\n", next), (" 1 x\n", next),
        (" 1 \n", next), (" x\n", next), (" 01\n", next), (" \n", next), (" 65536\n", next), ("x\n", next - 1),
        ("\r\n", next - 1), ("", next - 1),
    ];
    for (end, column) in rows {
        let bad = format!("{good}{full}{end}");
        let case = format_args!("2,048 words and {end:?}");
        refused(g, tool, case, bad.as_bytes(), Some((2, column)));
    }
    let long = fish(&mut g.random, 3 * MAX_WORDS).line();
    let column = long
        .match_indices(' ')
        .nth(MAX_WORDS)
        .expect("that many words")
        .0
        + 2;
    let case = format_args!("three times too many");
    refused(g, tool, case, long.as_bytes(), Some((1, column)));
    let early = long.replacen(' ', "  ", 1);
    let column = early.find(' ').expect("a space") + 2;
    let case = format_args!("too many, and a fault before");
    refused(g, tool, case, early.as_bytes(), Some((1, column)));
    let case = format_args!("too many, and a bad line before");
    refused(g, tool, case, format!("x\n{long}").as_bytes(), Some((1, 1)));
}

/// Every kind of fault, in the first line and in later ones, in files after good ones.
pub fn bad_lines(g: &mut Group) {
    let tool = Tool::new(g);
    for (bad, column) in FAULTS {
        for before in [0, 1, 4] {
            let good: Vec<Fish> = (0..before).map(|_| fish(&mut g.random, 3)).collect();
            for after in [&b""[..], b"14 1\n", b"x\n"] {
                let whole = [&text(&good), bad, after].concat();
                let case = format_args!("{before} lines and {:?}", lossy(bad));
                let fault = Fault::Text {
                    line: before + 1,
                    column,
                };
                if after.is_empty() {
                    refused(g, &tool, case, &whole, Some((before + 1, column)));
                } else {
                    let expected = Expected::fails(fault.line("standard input"));
                    tool.expect(g, case, &["encode"], &whole, &expected);
                }
            }
        }
    }
    for (end, column) in ENDS {
        for before in [0, 2] {
            let good: Vec<Fish> = (0..before).map(|_| fish(&mut g.random, 2)).collect();
            let whole = [&text(&good), end].concat();
            let case = format_args!("{before} lines and an end {:?}", lossy(end));
            refused(g, &tool, case, &whole, Some((before + 1, column)));
        }
    }
    too_many(g, &tool);
    mutations(g, &tool);
    // Records are no text, whatever they hold.
    for length in [0, 1, 9, 48] {
        let stored = fish(&mut g.random, length).record();
        refused(g, &tool, format_args!("a record"), &stored, None);
    }
    // The first bad file is reported.
    let good = text(&any_fishes(&mut g.random, 5));
    tool.put("good.txt", &good);
    tool.put("bad.txt", "1 2\n3 4 x\n");
    tool.put("worse.txt", "x\n");
    let expected = Expected::fails(Line::Begins("sigxume: bad.txt, line 2, column 5: ".into()));
    let args = ["encode", "good.txt", "bad.txt", "worse.txt"];
    tool.expect_failure(g, format_args!("first bad file"), &args, b"", &expected);
    let late = [&b"1 2 3 4 5\n".repeat(100_000)[..], b"6 7 08\n"].concat();
    let case = format_args!("very large");
    refused(g, &tool, case, &late, Some((100_001, 5)));
}
