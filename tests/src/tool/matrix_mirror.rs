//! `matrix` either way round: the table mirrors itself at its empty diagonal, and says what `compare` says whichever
//! fish is first.

use super::expected::Expected;
use super::fish::{text, Fish};
use super::matrix::related_fish;
use super::results::Matrix;
use super::Tool;
use crate::group::Group;
use crate::pairs::{calls, shuffled};
use crate::process::lossy;
use crate::random::Random;
use crate::reference::{covered, pattern_tiling};
use crate::samples::NO_CALL;
use std::fmt::Arguments;

/// A table as the tool prints it: the cells of each line, the heading and the numbers of the fish too.
type Cells = Vec<Vec<String>>;

/// The table of these fish.
fn table(tool: &Tool, all: &[Fish], minimum: u32) -> Cells {
    let args = ["matrix", "-m", &minimum.to_string(), "-"];
    let printed = tool.run(&args, &text(all)).map(|ran| ran.stdout);
    let printed = lossy(&printed.unwrap_or_default());
    let cells = |line: &str| line.split(',').map(String::from).collect();
    printed.lines().map(cells).collect()
}

/// The table whose lines and columns are those with these numbers.
fn arranged(cells: &Cells, numbers: &[usize]) -> Cells {
    let cell = |line: usize, column: usize| cells.get(line)?.get(column).cloned();
    let line = |&line: &usize| {
        let cells = numbers.iter().map(|&column| cell(line, column));
        cells.map(Option::unwrap_or_default).collect()
    };
    numbers.iter().map(line).collect()
}

/// Exchanging lines and columns changes nothing, and the cells off the diagonal alone are scores.
fn mirrors(g: &mut Group, case: Arguments, cells: &Cells) {
    let columns = (0..cells.len()).map(|column| {
        let column = cells.iter().map(|line| line.get(column).cloned());
        column.map(Option::unwrap_or_default).collect()
    });
    let turned: Cells = columns.collect();
    g.equal(format_args!("{case}: turned"), &turned, cells);
    for (number, line) in cells.iter().enumerate().skip(1) {
        let scores = line.iter().skip(1).map(|cell| cell.parse::<u32>());
        let kinds: Vec<bool> = scores
            .map(|score| score.is_ok_and(|score| score <= 1_000))
            .collect();
        let mut expected = vec![true; cells.len() - 1];
        expected[number - 1] = false;
        g.equal(format_args!("{case}: line {number}"), kinds, expected);
    }
}

/// Each cell is the score of its fish by `compare`, either way round.
fn compared(
    g: &mut Group,
    tool: &Tool,
    case: Arguments,
    all: &[Fish],
    minimum: u32,
    cells: &Cells,
) {
    let minimum = minimum.to_string();
    for (row, first) in all.iter().enumerate() {
        for (column, second) in all.iter().enumerate() {
            if row == column {
                continue;
            }
            let pair = format!("{},{}", first.id, second.id);
            let args = ["compare", "-m", &minimum, "--fish", &pair, "-"];
            let printed = tool.run(&args, &text(all)).map(|ran| lossy(&ran.stdout));
            let score = printed.map(|printed| printed.lines().last().map(String::from));
            let cell = cells.get(row + 1).and_then(|line| line.get(column + 1));
            let expected = cell.map(|cell| format!("SCORE {cell}"));
            g.equal(format_args!("{case}: fish {pair}"), score, Ok(expected));
        }
    }
}

/// The table, its mirror, the scores by `compare`, and the tables of the same fish in other orders.
fn either_way(g: &mut Group, tool: &Tool, case: Arguments, all: &[Fish], minimum: u32) {
    let cells = table(tool, all, minimum);
    mirrors(g, case, &cells);
    compared(g, tool, case, all, minimum, &cells);
    let reversed = Vec::from_iter((0..all.len()).rev());
    for order in [reversed, shuffled(&mut g.random, all.len())] {
        let fish = Vec::from_iter(order.iter().map(|&at| all[at].clone()));
        let args = ["matrix", "-m", &minimum.to_string(), "-"];
        let matrix = Matrix::new(&fish, minimum);
        let expected = matrix.prints(matrix.table());
        tool.expect(g, case, &args, &text(&fish), &expected);
        let numbers = Vec::from_iter([0].into_iter().chain(order.iter().map(|at| at + 1)));
        g.equal(
            format_args!("{case}: in the order {order:?}"),
            table(tool, &fish, minimum),
            arranged(&cells, &numbers),
        );
    }
}

/// Fish with numbers of their own and equally many words, of few codes and with several no-calls.
fn equally_long(random: &mut Random, count: u16, length: usize) -> Vec<Fish> {
    let fish = |id| {
        let mut words = calls(random, length, 2);
        for _ in 0..2 + random.below(length / 3) {
            words[random.below(length)] = NO_CALL;
        }
        Fish::new(id, &words)
    };
    (1..=count).map(fish).collect()
}

/// Whether it matters to the score of two fish with equally many words which is the pattern.
fn pattern_matters(first: &Fish, second: &Fish, minimum: u32) -> bool {
    let [one, other] = [[first, second], [second, first]].map(|[pattern, text]| {
        covered(&pattern_tiling(
            &pattern.words,
            &text.words,
            minimum as usize,
        ))
    });
    one != other
}

/// Fish with equally many words, and with any.
pub fn mirrored(g: &mut Group) {
    let tool = Tool::new(g);
    let case = format_args!("example");
    let lines = ["1 2 2 1 2\n", "2 1 2 2 2\n"];
    let args = ["matrix", "-m", "2", "-"];
    for (lines, table) in [
        (lines, "fish,1,2\n1,,1000\n2,1000,\n"),
        ([lines[1], lines[0]], "fish,2,1\n2,,1000\n1,1000,\n"),
    ] {
        let input = lines.concat();
        tool.expect(g, case, &args, input.as_bytes(), &Expected::prints(table));
    }
    let mut decided = 0;
    for (count, length, minimum) in [(2, 4, 1), (9, 6, 2), (12, 12, 2), (9, 20, 3), (5, 60, 2)] {
        let all = equally_long(&mut g.random, count, length);
        let case = format_args!("{count} fish of {length} words, minimum {minimum}");
        either_way(g, &tool, case, &all, minimum);
        for (at, first) in all.iter().enumerate() {
            let mut later = all[at + 1..].iter();
            decided += usize::from(later.any(|second| pattern_matters(first, second, minimum)));
        }
    }
    g.equal(format_args!("the pattern matters"), decided > 10, true);
    for count in [0, 1, 3, 10] {
        let mut all = related_fish(&mut g.random, count);
        for (id, fish) in (7..).zip(&mut all) {
            fish.id = id;
        }
        either_way(g, &tool, format_args!("{count} fish"), &all, 2);
    }
}
