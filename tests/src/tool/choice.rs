//! Which two fish are compared: `--fish`, of `compare` and of `cover`.

use super::expected::{Expected, Line};
use super::fish::{fish, records, text, Fish};
use super::results::{Compared, Covers};
use super::Tool;
use crate::group::Group;
use crate::known;

/// What a command must print of two fish.
type Prints = fn(&Fish, &Fish) -> Expected;

/// The commands that compare two fish, each up to its operands.
const COMMANDS: [(&[&str], Prints); 3] = [
    (&["compare", "-m", "1"], |first, second| {
        let compared = Compared::new(first, second, 1);
        compared.prints(compared.listing())
    }),
    (
        &["compare", "-m", "1", "--at-least", "500", "--json"],
        |first, second| {
            let compared = Compared::new(first, second, 1);
            compared.prints(compared.verdict_json(500))
        },
    ),
    (&["cover"], |first, second| {
        let covers = Covers::new(first, second);
        Covers::print(&[&covers], covers.table())
    }),
];

/// Which two of several fish are compared.
pub fn chosen(g: &mut Group, tool: &Tool) {
    let words = |letters: &str| known::letters(letters);
    let all = [
        (12, "caabaad"),
        (13, "baadcaaaabaa"),
        (12, "abcde"),
        (7, ""),
        (65_535, "cdeab"),
    ];
    let all = all.map(|(id, name)| Fish::new(id, &words(name)));
    tool.put("all.txt", text(&all));
    tool.put("all", records(&all));
    tool.put("front", records(&all[..2]));
    tool.put("back.txt", text(&all[2..]));
    let sources = [&["all.txt"][..], &["all"], &["front", "back.txt"]];
    for (command, prints) in COMMANDS {
        named(g, tool, command, prints, &all, &sources);
    }
    // A file twice has its fish twice.
    tool.put("one", records(&all[1..2]));
    for (command, prints) in COMMANDS {
        let args = [command, &["one", "one"]].concat();
        let expected = prints(&all[1], &all[1]);
        tool.expect(g, format_args!("the same file"), &args, b"", &expected);
    }
}

/// Which two of several fish a command takes, by name and without.
fn named(
    g: &mut Group,
    tool: &Tool,
    command: &[&str],
    prints: Prints,
    all: &[Fish],
    sources: &[&[&str]],
) {
    let is = |line: &str| Expected::fails(Line::Is(format!("sigxume: {line}")));
    let printed = |a: usize, b: usize| prints(&all[a], &all[b]);
    let rows = [
        ("13,65535", printed(1, 4)),
        ("65535,13", printed(4, 1)),
        ("7,13", printed(3, 1)),
        ("13,7", printed(1, 3)),
        ("12,12", printed(0, 2)),
        ("99,13", is("there is no fish 99")),
        ("13,0", is("there is no fish 0")),
        ("99,99", is("there is no fish 99")),
        ("12,13", is("fish 12 is there 2 times: one is wanted")),
        ("13,12", is("fish 12 is there 2 times: one is wanted")),
        ("13,13", is("fish 13 is there once: two are wanted")),
    ];
    for source in sources {
        for (names, expected) in &rows {
            for option in [&["--fish", names][..], &[&format!("--fish={names}")]] {
                let args = [command, option, source].concat();
                let case = format_args!("fish {names}");
                if expected.status == 0 {
                    tool.expect(g, case, &args, b"", expected);
                } else {
                    tool.expect_failure(g, case, &args, b"", expected);
                }
            }
        }
        let args = [command, source].concat();
        let expected = is("there are 5 fish: name two of them by --fish A,B");
        tool.expect_failure(g, format_args!("five fish"), &args, b"", &expected);
    }
    let case = format_args!("three times the same");
    let three = text(&[all[0].clone(), all[0].clone(), all[0].clone()]);
    let expected = is("fish 12 is there 3 times: two are wanted");
    let args = [command, &["--fish", "12,12", "-"]].concat();
    tool.expect(g, case, &args, &three, &expected);
    let expected = is("there are 3 fish: name two of them by --fish A,B");
    let args = [command, &["-"]].concat();
    tool.expect(g, case, &args, &three, &expected);
    for count in [0, 1] {
        let expected = Expected::fails(Line::Begins("sigxume: ".into()));
        for form in [text, records] {
            let case = format_args!("{count} fish");
            tool.expect_failure(g, case, &args, &form(&all[..count]), &expected);
        }
    }
}

/// Two of very many fish.
pub fn very_many(g: &mut Group, tool: &Tool) {
    let random = &mut g.random;
    let all: Vec<Fish> = (0..20_000)
        .map(|id| Fish {
            id,
            ..fish(random, 20)
        })
        .collect();
    tool.put("many", records(&all));
    tool.put("many.txt", text(&all));
    for (command, prints) in COMMANDS {
        let expected = prints(&all[19_999], &all[3]);
        for file in ["many", "many.txt"] {
            let args = [command, &["--fish", "19999,3", file]].concat();
            tool.expect(g, format_args!("20,000 fish"), &args, b"", &expected);
            let args = [command, &[file]].concat();
            let line = "sigxume: there are 20000 fish: name two of them by --fish A,B";
            let expected = Expected::fails(Line::Is(line.into()));
            tool.expect(g, format_args!("20,000 fish"), &args, b"", &expected);
        }
    }
}
