//! Warnings of badly typed fish, by hand: just half is none, one call less is one, and so is a fish without words.

use super::expected::{Expected, Line};
use super::faults::refusal;
use super::typing::said;
use super::Tool;
use crate::group::Group;
use crate::reference::MINIMUM;

/// Fish 1, 2, 4 and 6 are typed well enough; 3 and 5 are not.
const FISH: &str = "1 5 6 7\n2 ? 6\n3 ? ? 7\n4\n5 5 ? 6 ? ?\n6 5 ? 6 ?\n";

/// What is said of a bad fish.
fn line(id: u16) -> String {
    let called = match id {
        3 => "1 of 3",
        5 => "2 of 5",
        _ => panic!("fish {id} is not bad"),
    };
    format!(
        "sigxume: warning: fish {id} has {called} words called: a fish typed so badly looks unrelated to every other"
    )
}

/// The commands that compare a pair, up to their operands.
const PAIRS: [&[&str]; 9] = [
    &["compare", "-m1"],
    &["compare", "-m1", "--json"],
    &["compare", "-m1", "--at-least=500"],
    &["compare", "-m1", "--at-least=500", "--json"],
    &["plot", "-m1"],
    &["cover"],
    &["cover", "--all"],
    &["cover", "--json"],
    &["cover", "--plot"],
];

/// The tool must say this of bad fish, with status 0, whether its output goes to a file or not.
fn warned(g: &mut Group, tool: &Tool, args: &[&str], bad: &[u16]) {
    let printed = tool
        .run(args, b"")
        .map(|ran| ran.stdout)
        .unwrap_or_default();
    let case = format_args!("{args:?}");
    g.equal(case, printed.is_empty(), false);
    let due = Expected::prints(printed).after(said(bad.iter().map(|id| line(*id))));
    tool.expect(g, case, args, b"", &due);
    tool.expect_written(g, case, args, b"", &due);
}

/// Pairs, several pairs of `cover`, and matrices.
pub fn warnings(g: &mut Group) {
    let tool = Tool::new(g);
    tool.put("all", FISH);
    let side = |from: usize, to: usize| -> String {
        let lines = FISH.split_inclusive('\n').skip(from - 1);
        lines.take(to + 1 - from).collect()
    };
    tool.put("front", side(1, 3));
    tool.put("back", side(4, 6));
    for args in PAIRS {
        for (pair, bad) in [
            ("1,2", &[][..]),
            ("4,6", &[]),
            ("1,3", &[3]),
            ("3,1", &[3]),
            ("5,6", &[5]),
            ("4,3", &[3]),
            ("3,5", &[3, 5]),
            ("5,3", &[5, 3]),
        ] {
            warned(g, &tool, &[args, &["--fish", pair, "all"]].concat(), bad);
        }
        // A comparison that is refused says that alone.
        if args[0] == "cover" {
            continue;
        }
        let args = [&args[..1], &["-m0"], &args[2..], &["--fish=3,5", "all"]].concat();
        let refused = Line::Is(format!("sigxume: {}", refusal(MINIMUM)));
        let case = format_args!("a refusal");
        tool.expect_failure(g, case, &args, b"", &Expected::fails(refused));
    }
    let rows: [(&[&str], &[u16]); 20] = [
        (&["cover", "--fish=1,3", "--fish=3,2", "all"], &[3]),
        (
            &["cover", "--fish=1,5", "--fish=3,5", "--json", "all"],
            &[5, 3],
        ),
        (&["cover", "--fish=1,2", "--fish=6,4", "--plot", "all"], &[]),
        (&["matrix", "-m1", "all"], &[3, 5]),
        (&["matrix", "-m1", "all", "--threads=1"], &[3, 5]),
        (&["matrix", "-m1", "--pairs", "all"], &[3, 5]),
        (&["matrix", "-m1", "--at-least=900", "all"], &[3, 5]),
        (&["matrix", "-m1", "front"], &[3]),
        (&["matrix", "-m1", "back", "front"], &[5, 3]),
        (&["matrix", "-m1", "front", "--against", "back"], &[3, 5]),
        (&["matrix", "-m1", "back", "--against", "front"], &[5, 3]),
        (&["matrix", "-m1", "all", "--against", "front"], &[3, 5]),
        (&["matrix", "-m1", "front", "--against", "front"], &[3]),
        // Fish without a partner are not compared.
        (&["matrix", "-m1", "all", "--against", "none"], &[]),
        (&["matrix", "-m1", "none", "--against", "all"], &[]),
        (&["matrix", "-m1", "one"], &[]),
        // Pairs 1 to 5 are those of fish 1, 6 to 9 those of fish 2, and the last that of fish 5 and 6.
        (&["matrix", "-m1", "--pairs", "--part=1/15", "all"], &[]),
        (&["matrix", "-m1", "--pairs", "--part=2/3", "all"], &[3, 5]),
        (
            &["matrix", "-m1", "--pairs", "--part=11/15", "all"],
            &[3, 5],
        ),
        (&["matrix", "-m1", "--pairs", "--part=15/15", "all"], &[5]),
    ];
    tool.put("none", "");
    tool.put("one", side(3, 3));
    for (args, bad) in rows {
        warned(g, &tool, args, bad);
    }
}
