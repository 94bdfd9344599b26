//! `encode` and `decode` on good input: text to records and back.

use super::expected::Expected;
use super::fish::{any_fishes, fish, limits, records, text, Fish};
use super::Tool;
use crate::group::Group;
use crate::records::WORKED;
use crate::reference::MAX_WORDS;
use std::fmt::Arguments;

/// The two forms of the same fish, each turned into the other, by files, standard input and `-o`.
fn both_ways(g: &mut Group, tool: &Tool, case: Arguments, all: &[Fish]) {
    let forms = [text(all), records(all)];
    for (from, name) in ["encode", "decode"].into_iter().enumerate() {
        let (source, result) = (&forms[from], &forms[1 - from]);
        let printed = Expected::prints(&result[..]);
        tool.put("in", source);
        tool.expect(g, case, &[name, "in"], b"", &printed);
        tool.expect(g, case, &[name], source, &printed);
        tool.expect(g, case, &[name, "-"], source, &printed);
    }
}

/// A file of text and its records by the tool itself, one after the other.
fn there_and_back(g: &mut Group, tool: &Tool, case: Arguments, all: &[Fish]) {
    for (names, source) in [
        (["encode", "decode"], text(all)),
        (["decode", "encode"], records(all)),
    ] {
        let between = tool.run(&[names[0]], &source);
        let between = between.map(|ran| ran.stdout).unwrap_or_default();
        tool.expect(g, case, &[names[1]], &between, &Expected::prints(source));
    }
}

/// Several files, standard input among them, one after another.
fn several(g: &mut Group, tool: &Tool) {
    for number in 0..25 {
        let parts = [(); 3].map(|()| any_fishes(&mut g.random, 4));
        let all = parts.concat();
        for (name, form, other) in [
            (
                "encode",
                text as fn(&[Fish]) -> Vec<u8>,
                records as fn(&[Fish]) -> Vec<u8>,
            ),
            ("decode", records, text),
        ] {
            let case = format_args!("files {number}");
            tool.put("a", form(&parts[0]));
            tool.put("b c", form(&parts[1]));
            tool.put("-x", form(&parts[2]));
            let result = other(&all);
            let printed = Expected::prints(&result[..]);
            let middle = form(&parts[1]);
            let args = [name, "a", "b c", "--", "-x"];
            tool.expect(g, case, &args, b"not read", &printed);
            tool.expect(g, case, &[name, "a", "-", "./-x"], &middle, &printed);
            tool.expect_written(g, case, &[name, "a", "-", "./-x"], &middle, &printed);
            let twice = other(&[&all[..], &parts[0]].concat());
            let args = [name, "a", "b c", "./-x", "a"];
            tool.expect(g, case, &args, b"", &Expected::prints(twice));
        }
    }
}

/// Both ways of writing the name of the output.
fn outputs(g: &mut Group, tool: &Tool) {
    let all = any_fishes(&mut g.random, 9);
    let (lines, made) = (text(&all), records(&all));
    tool.put("in", &lines);
    let printed = Expected::prints("");
    for args in [
        &["encode", "in", "-o", "made"][..],
        &["encode", "-omade", "in"],
        &["encode", "--output", "made", "in"],
        &["encode", "in", "--output=made"],
    ] {
        tool.remove("made");
        let case = format_args!("output");
        tool.expect(g, case, args, b"", &printed);
        tool.expect_file(g, format_args!("{args:?}"), "made", &made);
    }
    tool.expect(
        g,
        format_args!("standard output by name"),
        &["encode", "in", "-o", "-"],
        b"",
        &Expected::prints(&made[..]),
    );
}

/// Random fish, fish at the limits, no fish, and very many.
pub fn encode_and_decode(g: &mut Group) {
    let tool = Tool::new(g);
    both_ways(g, &tool, format_args!("no fish"), &[]);
    tool.expect_written(
        g,
        format_args!("no fish"),
        &["encode"],
        b"",
        &Expected::prints(""),
    );
    tool.expect_written(
        g,
        format_args!("no fish"),
        &["decode"],
        b"",
        &Expected::prints(""),
    );
    let worked = WORKED.map(|(id, name, ..)| Fish::new(id, &crate::known::letters(name)));
    both_ways(g, &tool, format_args!("worked example"), &worked);
    let example = "12 3 1 1 2 1 1 4\n13 2 1 1 4 3 1 1 1 1 2 1 1\n";
    let case = format_args!("worked example in letters");
    tool.expect(
        g,
        case,
        &["decode"],
        &records(&worked),
        &Expected::prints(example),
    );
    for (number, one) in limits(&mut g.random).into_iter().enumerate() {
        both_ways(g, &tool, format_args!("limit {number}"), &[one]);
    }
    for number in 0..60 {
        let all = any_fishes(&mut g.random, 6);
        both_ways(g, &tool, format_args!("fish {number}"), &all);
        there_and_back(g, &tool, format_args!("fish {number}"), &all);
    }
    let many: Vec<Fish> = (0..200).map(|_| fish(&mut g.random, MAX_WORDS)).collect();
    both_ways(g, &tool, format_args!("very large"), &many);
    there_and_back(g, &tool, format_args!("very large"), &many);
    let short: Vec<Fish> = (0..50_000).map(|_| fish(&mut g.random, 1)).collect();
    both_ways(g, &tool, format_args!("very many"), &short);
    several(g, &tool);
    outputs(g, &tool);
}
