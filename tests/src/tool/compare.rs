//! `compare`: the listing of two fish, however they are stored and chosen.

use super::choice;
use super::expected::{differing, Expected, Line};
use super::faults::{first, lines, records as read, refusal};
use super::fish::{records, text, Fish};
use super::results::{with_no_calls, Compared};
use super::typing::no_calls;
use super::Tool;
use crate::group::Group;
use crate::known;
use crate::pairs::{distinct, periodic, related};
use crate::process::{lossy, AT_ONCE};
use crate::program::{self, bytes, input};
use crate::reference::{MAX_WORDS, MINIMUM};
use crate::retired::mixed_pair;
use crate::samples::{call, ids, NO_CALL};
use std::fmt::Arguments;

/// A known pair as fish 12 and fish 13, with its minimum.
fn known_pair(row: &known::Known) -> ([Fish; 2], u32) {
    let pair = [Fish::new(12, &row.first), Fish::new(13, &row.second)];
    (pair, row.minimum as u32)
}

/// K1 to K11.
pub fn known_pairs() -> Vec<([Fish; 2], u32)> {
    known::rows().map(|row| known_pair(&row)).collect()
}

/// A random pair of fish with a minimum, now and then with retired codes.
pub fn any_fish_pair(g: &mut Group) -> ([Fish; 2], u32) {
    let random = &mut g.random;
    let (longest, codes) = (random.pick(&[8, 60, 200]), random.pick(&[1, 2, 3, 6, 40]));
    let pair = mixed_pair(random, longest, codes);
    let table = ids(random);
    let fish = pair.map(|words| Fish::new(random.pick(&table), &words));
    (fish, random.pick(&[1, 1, 2, 3, 8, 19, 20, 21, 40, 256]))
}

/// Pairs of up to 2,048 words, with the tiles that they have.
pub fn larger(g: &mut Group) -> Vec<([Fish; 2], u32)> {
    let whole = distinct(0, MAX_WORDS);
    let turned: Vec<u32> = whole.iter().copied().rev().collect();
    let [a, b] = related(&mut g.random, MAX_WORDS, 40);
    let pairs = [
        (whole.clone(), turned, 1),
        (whole.clone(), whole.clone(), 256),
        (whole.clone(), Vec::new(), 1),
        (vec![call(7); 300], vec![call(7); MAX_WORDS], 20),
        (vec![NO_CALL; MAX_WORDS], vec![NO_CALL; MAX_WORDS], 1),
        (a, b, 8),
    ];
    let fish = |(first, second, minimum): (Vec<u32>, Vec<u32>, u32)| {
        ([Fish::new(65_535, &first), Fish::new(0, &second)], minimum)
    };
    pairs.into_iter().map(fish).collect()
}

/// The tool must print a pair's listing: two files of either form, one file of either form, standard input.
fn listed(g: &mut Group, tool: &Tool, case: Arguments, pair: &[Fish; 2], minimum: u32) {
    let compared = Compared::new(&pair[0], &pair[1], minimum);
    let expected = compared.prints(compared.listing());
    let minimum = minimum.to_string();
    let forms = [text as fn(&[Fish]) -> Vec<u8>, records];
    for (number, form) in forms.iter().enumerate() {
        tool.put(&format!("first{number}"), form(&pair[..1]));
        tool.put(&format!("second{number}"), form(&pair[1..]));
        tool.put(&format!("both{number}"), form(pair));
    }
    for first in ["first0", "first1"] {
        for second in ["second0", "second1"] {
            let args = ["compare", "-m", &minimum, first, second];
            tool.expect(g, case, &args, b"", &expected);
        }
    }
    for both in ["both0", "both1"] {
        tool.expect(g, case, &["compare", both, "-m", &minimum], b"", &expected);
    }
    let args = ["compare", "-m", &minimum, "-", "second0"];
    tool.expect(g, case, &args, &records(&pair[..1]), &expected);
    let args = ["compare", "-m", &minimum, "-"];
    tool.expect(g, case, &args, &text(pair), &expected);
    let args = ["compare", "-m", &minimum, "both1"];
    tool.expect_written(g, case, &args, b"", &expected);
}

/// The tool must print what the pair program prints, with the line of the no-calls.
fn as_the_program(g: &mut Group, tool: &Tool, case: Arguments, pair: &[Fish; 2], minimum: u32) {
    let ids = [pair[0].id, pair[1].id];
    let words = [pair[0].words.clone(), pair[1].words.clone()];
    let printed = program::run(&bytes(&input(minimum, ids, &words)), AT_ONCE);
    let args = ["compare", "-m", &minimum.to_string(), "-"];
    let ran = tool.run(&args, &records(pair));
    let difference = match (printed, ran) {
        (Ok(printed), Ok(ran)) => {
            let no_calls = [&pair[0], &pair[1]].map(no_calls);
            differing(&ran.stdout, with_no_calls(&printed, no_calls).as_bytes())
        }
        (printed, ran) => Some(format!("{:?}, {:?}", printed.err(), ran.err())),
    };
    g.equal(format_args!("{case}: pair program"), difference, None);
}

/// Minimums that are refused, after the input has been read.
fn minimums(g: &mut Group, tool: &Tool) {
    let (pair, _) = any_fish_pair(g);
    tool.put("pair", records(&pair));
    for minimum in ["0", "257", "2048", "65536", "4294967295"] {
        let line = Line::Is(format!("sigxume: {}", refusal(MINIMUM)));
        let args = ["compare", "-m", minimum, "pair"];
        let case = format_args!("minimum");
        tool.expect_failure(g, case, &args, b"", &Expected::fails(line));
        let fault = first(&lines(b"x\n")).expect("a fault");
        let expected = Expected::fails(fault.line("standard input"));
        let args = ["compare", "-m", minimum, "-"];
        tool.expect(g, case, &args, b"x\n", &expected);
    }
}

/// Files that are refused: text and records are told apart by their bytes.
fn bad(g: &mut Group, tool: &Tool) {
    let (pair, _) = any_fish_pair(g);
    tool.put("good", records(&pair[..1]));
    let texts: [&[u8]; 7] = [
        b"12 x\n",
        b"12 3\r\n",
        b"12\t3\n",
        b"\xC3\xA9\n",
        b"12 3",
        b"1234",
        b"x\n",
    ];
    for bytes in texts {
        let fault = first(&lines(bytes)).expect("a fault");
        tool.put("bad", bytes);
        let case = format_args!("bad text {:?}", lossy(bytes));
        for files in [["good", "bad"], ["bad", "good"]] {
            let args = ["compare", "-m", "1", files[0], files[1]];
            tool.expect_failure(g, case, &args, b"", &Expected::fails(fault.line("bad")));
        }
    }
    let damaged: [&[u8]; 9] = [
        b"12 3\n\0",
        b"12 3\n\x1B",
        b"12 3\n\x7F",
        b"\x0B12 3\n",
        b"12 3\xFF\n",
        b"12 3\xC2\x85\n",
        b"\0",
        &[0; 8],
        &bytes(&[1, call(1), 0xC000_0000]),
    ];
    for bytes in damaged {
        let fault = first(&read(bytes)).expect("a fault");
        tool.put("bad", bytes);
        let case = format_args!("bad records {bytes:?}");
        for files in [["good", "bad"], ["bad", "good"]] {
            let args = ["compare", "-m", "1", files[0], files[1]];
            tool.expect_failure(g, case, &args, b"", &Expected::fails(fault.line("bad")));
        }
    }
    let missing = Expected::fails(Line::Begins("sigxume: missing".into()));
    for args in [
        &["compare", "-m", "1", "missing", "good"][..],
        &["compare", "-m", "1", "good", "missing"],
        &["plot", "-m", "1", "good", "missing"],
        &["cover", "missing", "good"],
        &["cover", "--plot", "good", "missing"],
        &["encode", "missing"],
        &["decode", "good", "missing"],
    ] {
        tool.expect_failure(g, format_args!("missing"), args, b"", &missing);
    }
    tool.put("folder/file", records(&pair));
    let folder = Expected::fails(Line::Begins("sigxume: folder".into()));
    for args in [
        &["compare", "-m", "1", "folder"][..],
        &["plot", "-m", "1", "good", "folder"],
        &["cover", "folder"],
        &["cover", "--json", "good", "folder"],
        &["encode", "folder"],
        &["decode", "good", "folder"],
    ] {
        tool.expect_failure(g, format_args!("a folder"), args, b"", &folder);
    }
}

/// Records that begin like text: the first bytes of a header may be a digit and letters.
fn like_text(g: &mut Group, tool: &Tool) {
    // The bytes of its header after the count are `@`, `1` and `0`.
    let id = 0x30 << 10 | 0x31 << 2 | 1;
    for count in [b'\t', b'\n', b'\r', b' ', b'0', b'1', b'9', b'?'] {
        let words = periodic(count.into(), 7, 0);
        let pair = [Fish::new(id, &words), Fish::new(id + 1, &words)];
        let start = &records(&pair)[..4];
        let case = format_args!("records that begin with {:?}", lossy(start));
        g.equal(case, start, &[count, b'@', b'1', b'0'][..]);
        listed(g, tool, case, &pair, 3);
    }
}

/// Known, random and large pairs.
pub fn compare(g: &mut Group) {
    let tool = Tool::new(g);
    for row in known::rows() {
        let (pair, minimum) = known_pair(&row);
        let case = format_args!("{}", row.name);
        let listing = Compared::new(&pair[0], &pair[1], minimum).listing();
        let summary = format!("SCORE {}\n", row.score);
        g.equal(case, listing.ends_with(&summary), true);
        listed(g, &tool, case, &pair, minimum);
        as_the_program(g, &tool, case, &pair, minimum);
    }
    let example = b"12 3 1 1 2 1 1 4\n13 2 1 1 4 3 1 1 1 1 2 1 1\n";
    let case = format_args!("worked example");
    let expected = Expected::prints(with_no_calls(known::LISTING, [0, 0]));
    tool.expect(g, case, &["compare", "-m1", "-"], example, &expected);
    for number in 0..50 {
        let (pair, minimum) = any_fish_pair(g);
        let case = format_args!("pair {number}");
        listed(g, &tool, case, &pair, minimum);
        as_the_program(g, &tool, case, &pair, minimum);
    }
    for (number, (pair, minimum)) in larger(g).iter().enumerate() {
        let case = format_args!("larger pair {number}");
        as_the_program(g, &tool, case, pair, *minimum);
    }
    like_text(g, &tool);
    choice::chosen(g, &tool);
    choice::very_many(g, &tool);
    minimums(g, &tool);
    bad(g, &tool);
}
