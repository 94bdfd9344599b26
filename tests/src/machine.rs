//! The match of two words does not branch, the replacement of retired codes in it included: neither as it is written nor
//! as it was compiled. No contract can say so, since it speaks of what a function answers. So both are read here.

use crate::group::Group;
use crate::process::printed;
use std::process::Command;

/// The source of the match.
const SOURCE: &str = include_str!("../../crates/symbol/src/lib.rt");

/// A source with a function that has a loop.
const LOOPING: &str = include_str!("../../crates/plain/src/lib.rt");

/// The archive that C and Rust programs link.
const ARCHIVE: &str = concat!(
    env!("CARGO_MANIFEST_DIR"),
    "/../target/library/libsigxume.a"
);

/// What stands between the braces of a function's body.
fn body<'a>(source: &'a str, function: &str) -> Option<&'a str> {
    let (_, after) = source.split_once(&format!("fn {function}("))?;
    let (_, after) = after.split_once("\n{\n")?;
    let (body, _) = after.split_once("\n}\n")?;
    Some(body)
}

/// The words of a text: names, keywords and numbers.
fn words(text: &str) -> impl Iterator<Item = &str> {
    let parts = text.split(|c: char| !c.is_ascii_alphanumeric() && c != '_');
    parts.filter(|word| !word.is_empty())
}

/// Each function of the match, with the names that may stand in its body: what it is given, what it names, the table,
/// conversions, and functions of this list.
const STRAIGHT: [(&str, &[&str]); 4] = [
    ("is_retired", &["w"]),
    (
        "replaced",
        &[
            "let",
            "w",
            "retired",
            "is_retired",
            "as",
            "u32",
            "usize",
            "entry",
            "REPLACEMENTS",
        ],
    ),
    ("equal_calls", &["a", "b"]),
    ("words_match", &["a", "b", "replaced", "equal_calls"]),
];

/// What in a body is more than arithmetic and comparison on these names: any other name, which a keyword or a call
/// would need, and the operators that look at their right side only now and then.
fn more_than_arithmetic<'a>(body: &'a str, known: &[&str]) -> Vec<&'a str> {
    let number = |word: &str| word.starts_with(|c: char| c.is_ascii_digit());
    let names = words(body).filter(|word| !number(word) && !known.contains(word));
    let lazy = ["&&", "||"].into_iter().filter(|sign| body.contains(sign));
    names.chain(lazy).collect()
}

/// The bodies of the match, and, so that this can fail, bodies that branch.
pub fn source(g: &mut Group) {
    for (function, known) in STRAIGHT {
        let found = body(SOURCE, function).map(|body| more_than_arithmetic(body, known));
        g.equal(format_args!("{function}"), found, Some(Vec::new()));
    }
    for (text, due) in [
        ("    a == b && is_call(a)", &["is_call", "&&"][..]),
        (
            "    if a == b { a / 2 == 1 } else { 0 == 1 }",
            &["if", "else"],
        ),
        ("    (a != b) || a == 0x4000", &["||"]),
    ] {
        let found = more_than_arithmetic(text, &["a", "b"]);
        g.equal(format_args!("{text:?}"), &found[..], due);
    }
    let found = body(SOURCE, "all_sound").map(|body| more_than_arithmetic(body, &[]));
    let found = found.is_some_and(|found| found.contains(&"fold"));
    g.equal(format_args!("all_sound folds"), found, true);
    let found = body(LOOPING, "row_search").map(|body| more_than_arithmetic(body, &[]));
    let found = found.is_some_and(|found| found.contains(&"while"));
    g.equal(format_args!("row_search has a loop"), found, true);
}

/// The instructions of a function of the archive, by their names, as objdump prints them: a line each, an address, a
/// colon, a tab, and the instruction.
fn instructions(function: &str) -> Result<Vec<String>, String> {
    let mut command = Command::new("objdump");
    let only = format!("--disassemble={function}");
    command.args(["--no-show-raw-insn", &only, ARCHIVE]);
    let text = printed(&mut command, b"")?;
    let lines = text.lines().filter_map(|line| line.split_once(":\t"));
    let names = lines.filter_map(|(_, instruction)| instruction.split_whitespace().next());
    Ok(names.map(String::from).collect())
}

/// Whether control may go elsewhere than to the next instruction. On x86 the name of each jump begins with j, that
/// of the conditional ones (jne, jb, jrcxz, ..) as well as jmp; loop, loope and loopne jump by a counter; a call would
/// hide the jumps of another function.
fn leaves_the_line(instruction: &str) -> bool {
    ["j", "loop", "call"]
        .iter()
        .any(|begin| instruction.starts_with(begin))
}

/// The machine code of the exported match, and of the exported replacement, goes from its first instruction to its last,
/// which returns. That no test of a word is a jump is thus seen of all 2^64 pairs at once. The same look finds the jumps
/// of a function that has a loop.
pub fn code(g: &mut Group) {
    for function in ["sigxume_match", "sigxume_replaced"] {
        match instructions(function) {
            Err(error) => g.equal(format_args!("{function}"), error, String::new()),
            Ok(found) => {
                let jumps = Vec::from_iter(found.iter().filter(|name| leaves_the_line(name)));
                g.equal(format_args!("{function}: jumps"), jumps, Vec::new());
                let returns = found.iter().position(|name| name.starts_with("ret"));
                let last = found.len().checked_sub(1);
                g.equal(format_args!("{function}: return"), returns, last);
            }
        }
    }
    let looping = instructions("sigxume_sound");
    let jumps = looping.map(|found| found.iter().any(|name| leaves_the_line(name)));
    g.equal(format_args!("sigxume_sound: jumps"), jumps, Ok(true));
}
