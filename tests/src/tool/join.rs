//! `join`: two files of typings made one, fish by fish and word by word.

use super::expected::{Expected, Line};
use super::fish::{records, text, Fish};
use super::typings::{joined, Joined, Typings, HEADING};
use super::Tool;
use crate::group::Group;
use crate::process::lossy;
use crate::reference::{replaced_words, MAX_WORDS};
use crate::samples::{call, NO_CALL};
use std::fmt::Arguments;

/// What is done with fish that are in one file only, and the options that ask for it.
const TYPED_ONCE: [(bool, &[&str]); 4] = [
    (true, &[]),
    (true, &["--typed-once", "keep"]),
    (false, &["--typed-once", "leave-out"]),
    (false, &["--typed-once=leave-out"]),
];

/// The tool must write the joined records and print the report.
fn made(g: &mut Group, tool: &Tool, case: Arguments, args: &[&str], input: &[u8], due: &Joined) {
    let args = [&["join"], args].concat();
    let expected = Expected::prints(&due.report[..]).after(due.said.clone());
    tool.expect_made(g, case, &args, input, &expected, &records(&due.fish));
}

/// Two files in either form, one of them from standard input, with every option.
fn every_way(g: &mut Group, tool: &Tool, case: Arguments, [first, second]: [&[Fish]; 2]) {
    let forms = [text as fn(&[Fish]) -> Vec<u8>, records];
    for (number, form) in forms.iter().enumerate() {
        tool.put(&format!("first{number}"), form(first));
        tool.put(&format!("second{number}"), form(second));
    }
    for (at, (keep, option)) in TYPED_ONCE.into_iter().enumerate() {
        let due = |names: [&str; 2]| joined([(names[0], first), (names[1], second)], keep);
        for names in [
            ["first0", "second0"],
            ["first0", "second1"],
            ["first1", "second0"],
            ["first1", "second1"],
        ] {
            let args = [&names[..], option].concat();
            made(g, tool, case, &args, b"", &due(names));
        }
        let form = forms[at % 2];
        let args = [option, &["-", "second1"]].concat();
        let names = ["standard input", "second1"];
        made(g, tool, case, &args, &form(first), &due(names));
        let args = [&["first0"], option, &["-"]].concat();
        let names = ["first0", "standard input"];
        made(g, tool, case, &args, &form(second), &due(names));
    }
}

/// A fish with itself is as it was: its calls agree, and its no-calls are called by neither.
fn itself(g: &mut Group, tool: &Tool, case: Arguments, all: &[Fish]) {
    tool.put("all", records(all));
    let due = joined([("all", all), ("all", all)], true);
    g.equal(case, &due.fish[..], all);
    let rows = all.iter().map(|fish| {
        let words = fish.words.len();
        let uncalled = fish.words.iter().filter(|&&word| word == NO_CALL).count();
        format!("{},{words},{},0,0,{uncalled}\n", fish.id, words - uncalled)
    });
    let report = HEADING.to_string() + &rows.collect::<String>();
    g.equal(case, &due.report, &report);
    made(g, tool, case, &["all", "all"], b"", &due);
}

/// The other way round the same words agree, are filled in and are in conflict; and the words are the same once retired
/// codes are replaced.
fn turned(g: &mut Group, tool: &Tool, case: Arguments, [first, second]: [&[Fish]; 2]) {
    tool.put("a", text(first));
    tool.put("b", text(second));
    let words = |files: [&str; 2]| {
        let args = ["join", files[0], files[1], "-o", "out"];
        let ran = tool.run(&args, b"").map(|ran| lossy(&ran.stdout));
        let mut report: Vec<String> = ran.unwrap_or_default().lines().map(String::from).collect();
        report.sort();
        let lines = tool.run(&["decode", "out"], b"");
        let lines = lines.map(|ran| ran.stdout).unwrap_or_default();
        let mut fish = super::faults::lines(&lines);
        fish.iter_mut().flatten().for_each(|fish| {
            fish.words = replaced_words(&fish.words);
        });
        fish.sort_by_key(|fish| fish.as_ref().map_or(0, |fish| fish.id));
        (report, fish)
    };
    let [one_way, other_way] = [words(["a", "b"]), words(["b", "a"])];
    g.equal(format_args!("{case}: turned"), &one_way, &other_way);
    g.equal(
        format_args!("{case}: something is joined"),
        one_way.1.len() >= first.len().max(second.len()),
        true,
    );
    tool.remove("out");
}

/// The kinds of words by hand: equal calls, retired codes on either side and on both, a no-call on either side, two
/// calls that differ, two no-calls.
fn example(g: &mut Group, tool: &Tool) {
    tool.put(
        "first.txt",
        "41 7 65000 11 65001 ? 8 ? 52 65005 3\n42 5 6 7\n44\n45 1 2\n",
    );
    tool.put(
        "second.txt",
        "43 1 2\n44\n41 7 11 65000 65002 9 ? ? 53 65004 3\n45 2 1\n",
    );
    let fish = |id, codes: &[Option<u16>]| {
        let words: Vec<u32> = codes
            .iter()
            .map(|code| code.map_or(NO_CALL, call))
            .collect();
        Fish::new(id, &words)
    };
    let is = |line: &str| Line::Is(format!("sigxume: {line}"));
    let warning = is("warning: fish 45 has 0 of 2 words called: a fish typed so badly looks unrelated to every other");
    let joined = [
        fish(
            41,
            &[
                Some(7),
                Some(65_000),
                Some(11),
                Some(65_001),
                Some(9),
                Some(8),
                None,
                None,
                None,
                Some(3),
            ],
        ),
        fish(42, &[Some(5), Some(6), Some(7)]),
        fish(44, &[]),
        fish(45, &[None, None]),
        fish(43, &[Some(1), Some(2)]),
    ];
    let report = format!("{HEADING}41,10,5,2,2,1\n44,0,0,0,0,0\n45,2,0,0,2,0\n");
    let mut due = Joined {
        fish: joined.to_vec(),
        report,
        said: vec![
            is("kept: fish 42 is in first.txt only"),
            is("kept: fish 43 is in second.txt only"),
            warning.clone(),
        ],
    };
    let case = format_args!("example");
    made(g, tool, case, &["first.txt", "second.txt"], b"", &due);
    due.fish = vec![joined[0].clone(), joined[2].clone(), joined[3].clone()];
    due.said = vec![
        is("left out: fish 42 is in first.txt only"),
        is("left out: fish 43 is in second.txt only"),
        warning,
    ];
    let args = ["--typed-once=leave-out", "first.txt", "second.txt"];
    made(g, tool, case, &args, b"", &due);
}

/// Two calls a and b that differ: (a with b) with b is b, and a with (b with b) is a no-call.
fn three_typings(g: &mut Group, tool: &Tool) {
    tool.put("a", "51 52\n");
    tool.put("b", "51 53\n");
    let case = format_args!("three typings");
    let fish = |word| vec![Fish::new(51, &[word])];
    for (files, out, word, counts) in [
        (["a", "b"], "ab", NO_CALL, "0,0,1,0"),
        (["ab", "b"], "ab-b", call(53), "0,1,0,0"),
        (["b", "b"], "bb", call(53), "1,0,0,0"),
        (["a", "bb"], "a-bb", NO_CALL, "0,0,1,0"),
    ] {
        let said = match word {
            NO_CALL => vec![Line::Has(vec!["warning: fish 51 has 0 of 1 words".into()])],
            _ => Vec::new(),
        };
        let args = ["join", files[0], files[1], "-o", out];
        let expected = Expected::prints(format!("{HEADING}51,1,{counts}\n")).after(said);
        tool.expect(g, case, &args, b"", &expected);
        tool.expect_file(g, case, out, &records(&fish(word)));
    }
}

/// Known, random, empty, long and very many fish.
pub fn join(g: &mut Group) {
    let tool = Tool::new(g);
    example(g, &tool);
    three_typings(g, &tool);
    for number in 0..25 {
        let Typings { first, second } = Typings::any(&mut g.random, 6, 30);
        let case = format_args!("files {number}");
        every_way(g, &tool, case, [&first, &second]);
        turned(g, &tool, case, [&first, &second]);
        itself(g, &tool, case, &first);
    }
    let none = Typings::any(&mut g.random, 4, 10);
    let case = format_args!("no fish");
    every_way(g, &tool, case, [&none.first, &[]]);
    every_way(g, &tool, case, [&[], &none.second]);
    every_way(g, &tool, case, [&[], &[]]);
    let long = Typings::of_lengths(&mut g.random, &[0, 1, MAX_WORDS - 1, MAX_WORDS]);
    let case = format_args!("long fish");
    every_way(g, &tool, case, [&long.first, &long.second]);
    let many = Typings::any(&mut g.random, 6_000, 8);
    let case = format_args!("very many fish");
    let [first, second] = [&many.first[..], &many.second];
    tool.put("a", records(first));
    tool.put("b", text(second));
    let due = joined([("a", first), ("b", second)], true);
    made(g, &tool, case, &["a", "b"], b"", &due);
}
