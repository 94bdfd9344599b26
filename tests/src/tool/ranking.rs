//! `matrix --at-least`: the list of the pairs that reach a line, and its first ones.

use super::expected::{Expected, Line};
use super::faults::refusal;
use super::fish::{records, text, Fish};
use super::matrix::{example_fish, related_fish};
use super::matrix_large::many_fish;
use super::results::Matrix;
use super::Tool;
use crate::group::Group;
use crate::pairs::calls;
use crate::reference::{MINIMUM, THRESHOLD};
use std::fmt::Arguments;

/// The list at a threshold and each beginning of it that has one of these numbers of pairs, by one thread and by three.
/// The arguments are the minimum and the files.
pub fn listed(
    g: &mut Group,
    tool: &Tool,
    case: Arguments,
    args: &[&str],
    matrix: &Matrix,
    threshold: usize,
    tops: impl IntoIterator<Item = usize>,
) {
    let (heading, lines) = matrix.ranking(threshold);
    let at_least = threshold.to_string();
    let args = [&["matrix", "--at-least", &at_least], args].concat();
    let beginning = |top: usize| (Some(format!("--top={top}")), top.min(lines.len()));
    let whole = [(None, lines.len())];
    for (option, count) in whole.into_iter().chain(tops.into_iter().map(beginning)) {
        let option = option.as_deref();
        let expected = matrix.prints(heading.clone() + &lines[..count].concat());
        for threads in ["--threads=1", "--threads=3"] {
            let args = [&args[..], option.as_slice(), &[threads]].concat();
            tool.expect(g, case, &args, b"", &expected);
        }
    }
}

/// Thresholds at their ends, at some scores of a matrix, and just above and below these.
pub fn thresholds(g: &mut Group, matrix: &Matrix) -> Vec<usize> {
    let scores = Vec::from_iter(matrix.pairs().map(|(_, cell)| cell.score));
    let mut all = vec![0, 1, 999, 1_000, g.random.below(1_001)];
    if !scores.is_empty() {
        for _ in 0..3 {
            let score = g.random.pick(&scores);
            all.extend([score.saturating_sub(1), score, 1_000.min(score + 1)]);
        }
    }
    all.sort();
    all.dedup();
    all
}

/// The example of the description: what the tool must print, letter for letter.
fn example(g: &mut Group, tool: &Tool) {
    let heading = "row,column,first_fish,second_fish,covered,score\n";
    let high = "1,2,12,13,7,736\n1,3,12,14,2,444\n";
    let low = "2,3,13,14,2,285\n";
    let none = "1,4,12,15,0,0\n2,4,13,15,0,0\n3,4,14,15,0,0\n";
    for (options, lines) in [
        (&["--at-least", "0"][..], [high, low, none].concat()),
        (&["--at-least=1"], [high, low].concat()),
        (&["--at-least", "285"], [high, low].concat()),
        (&["--at-least", "286"], high.into()),
        (&["--at-least=286", "--top", "2"], high.into()),
        (&["--at-least", "0", "--top=2"], high.into()),
        (&["--top=3", "--at-least", "1"], [high, low].concat()),
        (&["--at-least", "737"], String::new()),
        (&["--at-least", "1000", "--top", "5"], String::new()),
    ] {
        let args = [&["matrix", "-m", "1", "-"], options].concat();
        let expected = Expected::prints(heading.to_string() + &lines);
        let input = text(&example_fish());
        tool.expect(g, format_args!("example"), &args, &input, &expected);
    }
}

/// Lists of so many fish at several thresholds.
fn some(g: &mut Group, tool: &Tool, count: usize, minimum: u32) {
    let all = related_fish(&mut g.random, count);
    let matrix = Matrix::new(&all, minimum);
    tool.put("all", records(&all));
    let least = minimum.to_string();
    for threshold in thresholds(g, &matrix) {
        let pairs = matrix.ranking(threshold).1.len();
        let mut tops = vec![1, 2, pairs / 2, pairs, pairs + 1, usize::MAX];
        tops.retain(|top| *top > 0);
        let case = format_args!("{count} fish");
        let args = ["-m", &least, "all"];
        listed(g, tool, case, &args, &matrix, threshold, tops);
    }
}

/// Many pairs with few scores: each beginning of the list, most of which end among equal scores.
fn equal_scores(g: &mut Group, tool: &Tool) {
    let kinds = [(); 3].map(|()| calls(&mut g.random, 20, 2));
    let fish = |id| Fish::new(id, &kinds[g.random.below(kinds.len())]);
    let all = Vec::from_iter((1..=9).map(fish));
    let matrix = Matrix::new(&all, 2);
    tool.put("all", records(&all));
    let list = matrix.ranking(1);
    let mut scores = Vec::from_iter(matrix.pairs().map(|(_, cell)| cell.score));
    scores.sort();
    scores.dedup();
    let few = scores.len() <= 4 && list.1.len() == 36;
    g.equal(format_args!("36 pairs, few scores"), few, true);
    let case = format_args!("equal scores");
    listed(g, tool, case, &["-m2", "all"], &matrix, 1, 1..=37);
}

/// Very many fish of few words: the threads are done out of order.
fn many(g: &mut Group, tool: &Tool) {
    let all = many_fish(&mut g.random);
    let matrix = Matrix::new(&all, 1);
    tool.put("many.txt", text(&all));
    for threshold in [0, 500, 900, 1_000] {
        let case = format_args!("300 fish");
        let args = ["-m1", "many.txt"];
        listed(g, tool, case, &args, &matrix, threshold, [1, 100, 10_000]);
    }
}

/// Minimums and thresholds that are refused, whatever there is to compare: the minimum first.
fn refused(g: &mut Group, tool: &Tool) {
    for count in [0, 1, 3] {
        tool.put("all", records(&related_fish(&mut g.random, count)));
        for (minimum, threshold, number) in [
            ("1", "1001", THRESHOLD),
            ("256", "4294967295", THRESHOLD),
            ("0", "1000", MINIMUM),
            ("257", "1001", MINIMUM),
        ] {
            let line = Line::Is(format!("sigxume: {}", refusal(number)));
            let args = ["matrix", "-m", minimum, "--at-least", threshold, "all"];
            let case = format_args!("{count} fish");
            tool.expect_failure(g, case, &args, b"", &Expected::fails(line));
        }
    }
}

/// Known, random and many fish.
pub fn ranking(g: &mut Group) {
    let tool = Tool::new(g);
    example(g, &tool);
    for count in [0, 1, 2, 3, 7, 12] {
        for minimum in [1, 3] {
            some(g, &tool, count, minimum);
        }
    }
    equal_scores(g, &tool);
    many(g, &tool);
    refused(g, &tool);
}
