//! `matrix --against`: each fish of one side with each of the other.

use super::expected::{Expected, Line};
use super::faults::refusal;
use super::fish::{records, text, Fish};
use super::matrix::{parts, related_fish};
use super::ranking::{listed, thresholds};
use super::results::{Matrix, PAIRS};
use super::Tool;
use crate::group::Group;
use crate::known::letters;
use crate::reference::MINIMUM;

/// Both sides from every kind of source: the operands, the path that `--against` names, and standard input.
fn sources(tool: &Tool, [fish, others]: [&[Fish]; 2]) -> [(&'static [&'static str], Vec<u8>); 6] {
    let half = fish.len() / 2;
    tool.put("fish", records(fish));
    tool.put("front.txt", text(&fish[..half]));
    tool.put("back", records(&fish[half..]));
    tool.put("others", records(others));
    tool.put("others.txt", text(others));
    tool.remove("folder");
    tool.put("folder/.hidden", "x");
    tool.put("folder/empty", "");
    for (number, fish) in others.iter().enumerate() {
        tool.put(&format!("folder/{number:03}"), fish.line());
    }
    [
        (&["fish", "--against", "others"], Vec::new()),
        (&["--against=others.txt", "fish"], Vec::new()),
        (&["front.txt", "--against", "folder", "back"], Vec::new()),
        (&["-", "--against", "others.txt"], text(fish)),
        (
            &["front.txt", "-", "--against=folder"],
            records(&fish[half..]),
        ),
        (&["fish", "--against", "-"], records(others)),
    ]
}

/// The table, the list of pairs and its parts, and the list of those that reach a line.
fn forms(g: &mut Group, tool: &Tool, sides: [&[Fish]; 2], minimum: u32) {
    let matrix = Matrix::sides(sides, minimum);
    let least = minimum.to_string();
    let [n, m] = sides.map(<[Fish]>::len);
    let case = format_args!("{n} fish against {m}");
    let layouts = matrix.layouts();
    for (args, input) in sources(tool, sides) {
        for (option, made) in &layouts {
            let args = [&["matrix", "-m", &least], *option, args].concat();
            tool.expect(g, case, &args, &input, made);
        }
    }
    let files = ["-m", &least, "fish", "--against", "others"];
    for (option, made) in &layouts {
        let args = [&["matrix"], &files[..], option].concat();
        for threads in ["--threads=1", "--threads=3"] {
            let args = [&args[..], &[threads]].concat();
            tool.expect(g, case, &args, b"", made);
        }
        tool.expect_written(g, case, &args, b"", made);
        let args = [&args[..], &["-k"]].concat();
        tool.expect(g, case, &args, b"", made);
    }
    for threshold in thresholds(g, &matrix) {
        let pairs = matrix.ranking(threshold).1.len();
        let tops = [1, 1 + pairs / 2, 1 + pairs];
        listed(g, tool, case, &files, &matrix, threshold, tops);
    }
    parts(g, tool, case, &files, &matrix);
}

/// The example of the description: what the tool must print, letter for letter.
fn example(g: &mut Group, tool: &Tool) {
    let fish = |id, words| Fish::new(id, &letters(words));
    tool.put("dams", text(&[fish(12, "caabaad"), fish(13, "ab")]));
    tool.put("sires", text(&[fish(13, "baadcaaaabaa"), fish(20, "")]));
    let reached = "row,column,first_fish,second_fish,covered,score\n";
    let both = ["dams", "--against", "sires"];
    let turned = ["sires", "--against", "dams"];
    let itself = ["dams", "--against", "dams"];
    let rows: [(&[&str], &[&str], String); 10] = [
        (&both, &[], "fish,13,20\n12,736,0\n13,285,0\n".into()),
        (&turned, &[], "fish,12,13\n13,736,285\n20,0,0\n".into()),
        (
            &itself,
            &[],
            "fish,12,13\n12,1000,444\n13,444,1000\n".into(),
        ),
        (
            &both,
            &["--pairs"],
            format!(
                "{PAIRS}1,1,12,13,3,7,736,0,0\n1,2,12,20,0,0,0,0,0\n2,1,13,13,1,2,285,0,0\n2,2,13,20,0,0,0,0,0\n"
            ),
        ),
        (
            &both,
            &["--at-least", "0"],
            format!("{reached}1,1,12,13,7,736\n2,1,13,13,2,285\n1,2,12,20,0,0\n2,2,13,20,0,0\n"),
        ),
        (
            &both,
            &["--at-least", "286"],
            format!("{reached}1,1,12,13,7,736\n"),
        ),
        (
            &turned,
            &["--at-least", "285"],
            format!("{reached}1,1,13,12,7,736\n1,2,13,13,2,285\n"),
        ),
        (
            &turned,
            &["--at-least=1", "--top=1"],
            format!("{reached}1,1,13,12,7,736\n"),
        ),
        (
            &itself,
            &["--at-least", "444", "--top", "3"],
            format!("{reached}1,1,12,12,7,1000\n2,2,13,13,2,1000\n1,2,12,13,2,444\n"),
        ),
        (&both, &["--at-least", "1000"], reached.into()),
    ];
    for (files, options, printed) in rows {
        let args = [&["matrix", "-m", "1"], files, options].concat();
        tool.expect(
            g,
            format_args!("example"),
            &args,
            b"",
            &Expected::prints(printed),
        );
    }
}

/// Sides of 0 to 7 fish.
pub fn sides(g: &mut Group) {
    let tool = Tool::new(g);
    example(g, &tool);
    for (n, m) in [(0, 0), (0, 3), (3, 0), (1, 1), (1, 5), (6, 1), (4, 7)] {
        for minimum in [1, 3] {
            let all = related_fish(&mut g.random, n + m);
            let (fish, others) = all.split_at(n);
            forms(g, &tool, [fish, others], minimum);
        }
        for minimum in ["0", "257"] {
            let line = Line::Is(format!("sigxume: {}", refusal(MINIMUM)));
            let args = ["matrix", "-m", minimum, "fish", "--against", "others"];
            let case = format_args!("{n} fish against {m}");
            tool.expect_failure(g, case, &args, b"", &Expected::fails(line));
        }
    }
    // The same file on both sides, as one file and by another name.
    let all = related_fish(&mut g.random, 5);
    let matrix = Matrix::sides([&all, &all], 2);
    tool.put("all", records(&all));
    for other in ["all", "./all"] {
        let args = ["matrix", "-m", "2", "all", "--against", other];
        let case = format_args!("the same fish on both sides");
        tool.expect(g, case, &args, b"", &matrix.prints(matrix.table()));
    }
}
