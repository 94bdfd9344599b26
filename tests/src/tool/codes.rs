//! `codes`, and what the other subcommands make of retired codes.

use super::expected::Expected;
use super::fish::{records, text, Fish};
use super::typing::warnings;
use super::Tool;
use crate::group::Group;
use crate::reference::{replaced_words, RETIRED};
use crate::retired::any_retired;

/// The list is 02's table.
fn list(g: &mut Group, tool: &Tool) {
    let rows = RETIRED.map(|(retired, new)| format!("{retired} {new}\n"));
    let rows = rows.concat();
    let case = format_args!("the list");
    let printed = Expected::prints(&rows[..]);
    tool.expect(g, case, &["codes"], b"not read", &printed);
    tool.expect(g, case, &["codes", "--"], b"", &printed);
    tool.expect_written(g, case, &["codes"], b"", &printed);
}

/// Fish with retired codes. Text and records keep every code. Of fish with different numbers of words, where the codes do
/// not choose the pattern, every comparison shows what it shows of the replaced codes.
pub fn codes(g: &mut Group) {
    let tool = Tool::new(g);
    list(g, &tool);
    for number in 0..60 {
        let pair = any_retired(&mut g.random, 40);
        let fish = |words: &[Vec<u32>; 2]| [Fish::new(1, &words[0]), Fish::new(2, &words[1])];
        let case = format_args!("pair {number}");
        let [old, new] = [
            fish(&pair),
            fish(&pair.each_ref().map(|words| replaced_words(words))),
        ];
        tool.expect(
            g,
            case,
            &["encode"],
            &text(&old),
            &Expected::prints(records(&old)),
        );
        tool.expect(
            g,
            case,
            &["decode"],
            &records(&old),
            &Expected::prints(text(&old)),
        );
        if pair[0].len() == pair[1].len() {
            continue;
        }
        let commands: [&[&str]; 7] = [
            &["compare", "-m", "1", "-"],
            &["compare", "-m", "2", "--json", "-"],
            &["plot", "-m", "2", "-"],
            &["cover", "-"],
            &["cover", "--plot", "-"],
            &["matrix", "-m", "1", "-"],
            &["matrix", "-m", "2", "--pairs", "-"],
        ];
        for args in commands {
            let due = tool.run(args, &text(&new)).map(|ran| ran.stdout);
            let due = due.unwrap_or_default();
            g.equal(
                format_args!("{case}: {args:?} prints"),
                due.is_empty(),
                false,
            );
            let printed = Expected::prints(due).after(warnings(&old));
            tool.expect(g, case, args, &text(&old), &printed);
            tool.expect(g, case, args, &records(&old), &printed);
        }
    }
}
