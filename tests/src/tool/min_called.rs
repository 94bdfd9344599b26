//! `--min-called`: fish with too few calls are left out and named, and the rest is as if they had not been there.

use super::expected::{Expected, Line};
use super::fish::{records, text, Fish};
use super::matrix::related_fish;
use super::results::{Compared, Covers, Matrix};
use super::typing::{called, no_calls};
use super::Tool;
use crate::group::Group;
use crate::random::Random;
use crate::samples::NO_CALL;

/// The fish that stay, and the lines about the others.
fn left(all: &[Fish], percent: usize) -> (Vec<Fish>, Vec<Line>) {
    let mut stay = Vec::new();
    let mut lines = Vec::new();
    for fish in all {
        // So many words in a hundred are called, as a fraction.
        let calls = fish.words.len() - no_calls(fish);
        match calls * 100 < percent * fish.words.len() {
            true => lines.push(Line::Is(format!("sigxume: left out: {}", called(fish)))),
            false => stay.push(fish.clone()),
        }
    }
    (stay, lines)
}

/// Fish of which all is called, nothing, or any share; and some without words.
fn shares(random: &mut Random, count: usize) -> Vec<Fish> {
    let mut all = related_fish(random, count);
    for (id, fish) in (20..).zip(&mut all) {
        fish.id = id;
        let none = random.pick(&[0, 0, 25, 50, 75, 100]);
        for word in &mut fish.words {
            if random.below(100) < none {
                *word = NO_CALL;
            }
        }
    }
    all
}

/// Shares at the ends, and those of the fish themselves, just below and just above.
fn percents(all: &[Fish]) -> Vec<usize> {
    let mut percents = vec![0, 1, 50, 99, 100];
    for fish in all.iter().filter(|fish| !fish.words.is_empty()) {
        let share = 100 * (fish.words.len() - no_calls(fish)) / fish.words.len();
        percents.extend([share, 100.min(share + 1)]);
    }
    percents.sort();
    percents.dedup();
    percents
}

/// The list, table and ranking of one side and of two.
fn matrices(g: &mut Group, tool: &Tool, all: &[Fish], percent: usize) {
    let option = format!("--min-called={percent}");
    let (stay, said) = left(all, percent);
    let case = format_args!("{} fish, {percent} per cent", all.len());
    tool.put("all", records(all));
    for (layout, due) in Matrix::new(&stay, 2).layouts() {
        let args = [&["matrix", "-m2", &option, "all"], layout].concat();
        let due = due.after(said.clone());
        tool.expect(g, case, &args, b"", &due);
        tool.expect_written(g, case, &args, b"", &due);
        // What is bad besides is left out before, and makes the status 1.
        let input = [&text(all)[..], b"x\n"].concat();
        let args = [&["matrix", "-m2", "-k", &option, "-"], layout].concat();
        let bad = format!(
            "sigxume: left out: standard input, line {}, column 1: ",
            all.len() + 1
        );
        let due = Expected {
            status: 1,
            ..due.after(vec![Line::Begins(bad)])
        };
        tool.expect(g, case, &args, &input, &due);
    }
    let (rows, columns) = all.split_at(all.len() / 2);
    tool.put("rows", text(rows));
    tool.put("columns", text(columns));
    let [(rows, of_rows), (columns, of_columns)] = [rows, columns].map(|side| left(side, percent));
    for (layout, due) in Matrix::sides([&rows, &columns], 1).layouts() {
        let args = ["matrix", "-m1", "rows", "--against", "columns", &option];
        let due = due.after([&of_rows[..], &of_columns].concat());
        tool.expect(g, case, &[&args[..], layout].concat(), b"", &due);
    }
}

/// Pairs by their numbers: as ever, or there is no such fish.
fn pairs(g: &mut Group, tool: &Tool, all: &[Fish], percent: usize) {
    let percent_option = percent.to_string();
    let (stay, said) = left(all, percent);
    tool.put("all", records(all));
    let case = format_args!("{} fish, {percent} per cent", all.len());
    for _ in 0..4 {
        let first = g.random.below(all.len());
        let second = (first + 1 + g.random.below(all.len() - 1)) % all.len();
        let [a, b] = [&all[first], &all[second]];
        let names = format!("{},{}", a.id, b.id);
        let compared = Compared::new(a, b, 1);
        let covers = Covers::new(a, b);
        let gone = [a, b].into_iter().find(|fish| !stay.contains(fish));
        let commands: [(&[&str], Expected); 5] = [
            (&["compare", "-m1"], compared.prints(compared.listing())),
            (
                &["compare", "-m1", "--json"],
                compared.prints(compared.json()),
            ),
            (
                &["compare", "-m1", "--at-least=300"],
                compared.prints(compared.verdict(300)),
            ),
            (&["cover"], Covers::print(&[&covers], covers.table())),
            (
                &["cover", "--json"],
                Covers::print(&[&covers], covers.json()),
            ),
        ];
        for (command, due) in commands {
            let option = ["--min-called", &percent_option, "--fish", &names, "all"];
            let args = [command, &option].concat();
            match gone {
                None => tool.expect(g, case, &args, b"", &due.after(said.clone())),
                Some(fish) => {
                    let line = format!("sigxume: there is no fish {}", fish.id);
                    let due = Expected::fails(Line::Is(line)).after(said.clone());
                    tool.expect_failure(g, case, &args, b"", &due);
                }
            }
        }
        // The picture is that of the two alone.
        let alone = tool.run(&["plot", "-m1", "-"], &text(&[a.clone(), b.clone()]));
        let drawn = alone.map(|ran| ran.stdout).unwrap_or_default();
        let args = ["plot", "-m1", "--fish", &names, "all", "--min-called"];
        let args = [&args[..], &[&percent_option]].concat();
        if gone.is_none() {
            let due = compared.prints(drawn).after(said.clone());
            tool.expect(g, case, &args, b"", &due);
        }
    }
}

/// By hand: exact shares, the two that are left without a name, and none left.
fn example(g: &mut Group, tool: &Tool) {
    tool.put("all", "1 5 6\n2 ? 5 6\n3 ? ? 5 ?\n4\n");
    let is = |line: &str| Line::Is(format!("sigxume: {line}"));
    let two = is("left out: fish 2 has 2 of 3 words called");
    let three = is("left out: fish 3 has 1 of 4 words called");
    let badly = is(
        "warning: fish 3 has 1 of 4 words called: a fish typed so badly looks unrelated to every other",
    );
    let whole = "fish,1,2,3,4\n1,,800,333,0\n2,800,,285,0\n3,333,285,,0\n4,0,0,0,\n";
    let case = format_args!("example");
    for (percent, table, said) in [
        ("0", whole, vec![badly.clone()]),
        ("25", whole, vec![badly]),
        (
            "26",
            "fish,1,2,4\n1,,800,0\n2,800,,0\n4,0,0,\n",
            vec![three.clone()],
        ),
        (
            "66",
            "fish,1,2,4\n1,,800,0\n2,800,,0\n4,0,0,\n",
            vec![three.clone()],
        ),
        (
            "67",
            "fish,1,4\n1,,0\n4,0,\n",
            vec![two.clone(), three.clone()],
        ),
        (
            "100",
            "fish,1,4\n1,,0\n4,0,\n",
            vec![two.clone(), three.clone()],
        ),
    ] {
        let args = ["matrix", "-m1", "--min-called", percent, "all"];
        let due = Expected::prints(table).after(said);
        tool.expect(g, case, &args, b"", &due);
    }
    let listing = "FISH 1 4\nMINIMUM 1\nTILES 0\nCOVERED 0 OF 2 0\nNO-CALLS 0 0\nSCORE 0\n";
    let due = Expected::prints(listing).after(vec![two.clone(), three.clone()]);
    let args = ["compare", "-m1", "all", "--min-called=100"];
    tool.expect(g, case, &args, b"", &due);
    let line = is("there are 3 fish: name two of them by --fish A,B");
    let due = Expected::fails(line).after(vec![three.clone()]);
    let args = ["compare", "-m1", "all", "--min-called=50"];
    tool.expect_failure(g, case, &args, b"", &due);
    let line = is("there are 0 fish: two are wanted");
    for args in [
        &["compare", "-m1", "-", "--min-called=100"][..],
        &["plot", "-m1", "-", "--min-called=68"],
        &["cover", "-", "--min-called", "70"],
    ] {
        let due = Expected::fails(line.clone()).after(vec![two.clone(), three.clone()]);
        tool.expect_failure(g, case, args, b"2 ? 5 6\n3 ? ? 5 ?\n", &due);
    }
    let args = ["matrix", "-m1", "--min-called=100", "-"];
    let due = Expected::prints("fish\n").after(vec![two, three]);
    tool.expect(g, case, &args, b"2 ? 5 6\n3 ? ? 5 ?\n", &due);
}

/// Known and random shares.
pub fn min_called(g: &mut Group) {
    let tool = Tool::new(g);
    example(g, &tool);
    for count in [2, 2, 3, 3, 5, 8] {
        let all = shares(&mut g.random, count);
        for percent in percents(&all) {
            matrices(g, &tool, &all, percent);
            pairs(g, &tool, &all, percent);
        }
    }
}
