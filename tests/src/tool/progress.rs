//! The progress bar of `matrix`: at a terminal it is there and wiped in the end, elsewhere it is not.

use super::expected::differing;
use super::fish::{records, text, Fish};
use super::matrix::related_fish;
use super::results::{Cell, Compared, Matrix};
use super::{Tool, PROGRAMS};
use crate::group::Group;
use crate::pairs::calls;
use crate::process::lossy;
use crate::samples::sequence;
use std::process::{Command, Stdio};

/// What a command writes to a pseudo-terminal, and its status.
fn at_terminal(tool: &Tool, line: &str) -> Result<(Option<i32>, Vec<u8>), String> {
    let mut command = Command::new("script");
    let path = std::env::var("PATH").unwrap_or_default();
    command.current_dir(tool.folder()).env("SHELL", "/bin/sh");
    command.env("PATH", format!("{PROGRAMS}:{path}"));
    command.args(["-qec", line, "/dev/null"]);
    let pipe = Stdio::piped;
    let command = command.stdin(pipe()).stdout(pipe()).stderr(pipe());
    let mut child = command
        .spawn()
        .map_err(|error| format!("script (of util-linux), which these cases need: {error}"))?;
    // Its end would be shown as a character of the terminal.
    let stdin = child.stdin.take();
    let output = child
        .wait_with_output()
        .map_err(|error| error.to_string())?;
    drop(stdin);
    match output.stderr.is_empty() {
        true => Ok((output.status.code(), output.stdout)),
        false => Err(lossy(&output.stderr)),
    }
}

/// The lines that a terminal shows after these bytes, without the blanks at their ends.
fn shown(bytes: &[u8]) -> Result<String, String> {
    let mut lines: Vec<Vec<char>> = vec![Vec::new()];
    let (mut row, mut column) = (0, 0);
    let text = lossy(bytes);
    let mut rest = text.chars();
    while let Some(c) = rest.next() {
        match c {
            '\r' => column = 0,
            '\n' => {
                row += 1;
                if row == lines.len() {
                    lines.push(Vec::new());
                }
            }
            '\x08' => column = usize::saturating_sub(column, 1),
            '\x1B' => {
                let sequence: String = rest.by_ref().take(2).collect();
                match &sequence[..] {
                    "[K" => lines[row].truncate(column),
                    "[2" if rest.next() == Some('K') => lines[row].clear(),
                    "[0" if rest.next() == Some('K') => lines[row].truncate(column),
                    _ => return Err(format!("the sequence {sequence:?} is not known here")),
                }
            }
            c => {
                let line = &mut lines[row];
                if line.len() <= column {
                    line.resize(column + 1, ' ');
                }
                line[column] = c;
                column += 1;
            }
        }
    }
    let lines = lines.iter().map(|line| {
        let line: String = line.iter().collect();
        line.trim_end().to_string() + "\n"
    });
    Ok(lines.collect::<String>().trim_end().to_string())
}

/// The bar and the table, on a terminal and beside it.
pub fn progress(g: &mut Group) {
    let tool = Tool::new(g);
    let mut all = related_fish(&mut g.random, 40);
    for one in &mut all {
        one.words.extend(sequence(&mut g.random, 300));
    }
    let matrix = Matrix::new(&all, 1);
    let (table, list) = (matrix.table(), matrix.whole_list());
    let reached = matrix.whole_ranking(300);
    tool.put("fish", records(&all));
    for (option, made) in [
        ("", &table),
        ("--pairs", &list),
        ("--threads=1", &table),
        ("--at-least=300", &reached),
    ] {
        for (line, written, printed, bar) in [
            // The bar alone is on the terminal, and nothing is left of it.
            ("fish > out", true, "", true),
            ("fish -o out", true, "", true),
            // The bar and the table.
            ("fish", false, &made[..], true),
            // The table alone.
            ("fish 2> out", false, made, false),
        ] {
            tool.remove("out");
            let line = format!("sigxume matrix -m 1 {option} {line}");
            let case = format_args!("{line}");
            let ran = at_terminal(&tool, &line);
            let status = ran.as_ref().map(|(status, _)| *status);
            g.equal(case, status.map_err(Clone::clone), Ok(Some(0)));
            let bytes = ran.map(|(_, bytes)| bytes).unwrap_or_default();
            let screen = shown(&bytes)
                .map(|screen| differing(screen.as_bytes(), printed.trim_end().as_bytes()));
            g.equal(format_args!("{case}: the screen"), screen, Ok(None));
            let count = format!("0 of {} pairs", matrix.pairs().count());
            let drawn = lossy(&bytes).contains(&count);
            g.equal(format_args!("{case}: the bar"), drawn, bar);
            let out = tool.get("out").unwrap_or_default();
            let expected = if written { made.as_bytes() } else { b"" };
            g.equal(
                format_args!("{case}: the file"),
                differing(&out, expected),
                None,
            );
        }
    }
    left_out(g, &tool, &table);
    warned(g, &tool);
    midway(g, &tool);
    encode(g, &tool);
}

/// Very many fish, so that rows are long and the bar is drawn several times, and their matrix. They are of eight kinds,
/// each with each compared once.
fn many_fish(g: &mut Group) -> (Vec<Fish>, Matrix) {
    const KINDS: usize = 8;
    let kinds = [(); KINDS].map(|()| Fish::new(0, &calls(&mut g.random, 120, 4)));
    let cells = kinds.each_ref().map(|first| {
        let cell = |second: &Fish| Cell::of(&Compared::new(first, second, 1));
        kinds.each_ref().map(cell)
    });
    let kind = |id: u16| usize::from(id) % KINDS;
    let all = Vec::from_iter((0..400).map(|id| Fish::new(id, &kinds[kind(id)].words)));
    let cell = |first: &Fish, second: &Fish| cells[kind(first.id)][kind(second.id)];
    let matrix = Matrix::of(&all, cell);
    (all, matrix)
}

/// Whenever the bar is drawn, the lines of all that is done are there, and nothing of the next; of the list of pairs
/// that reach a line, whose order is known in the end, the heading alone.
fn midway(g: &mut Group, tool: &Tool) {
    let (all, matrix) = many_fish(g);
    tool.put("many", records(&all));
    let rows = Vec::from_iter(matrix.pairs().map(|([row, _], _)| row));
    for (option, made) in [
        ("", matrix.table()),
        ("--pairs", matrix.whole_list()),
        ("--at-least=900", matrix.whole_ranking(900)),
    ] {
        let line = format!("sigxume matrix -m 1 --threads=1 {option} many");
        let bytes = at_terminal(tool, &line).map(|(_, bytes)| bytes);
        let bytes = lossy(&bytes.unwrap_or_default());
        let mut written = String::new();
        let (mut wrong, mut between) = (None, false);
        for piece in bytes.split("\r\x1B[K") {
            let (lines, bar) = piece.split_once("\r[").unwrap_or((piece, ""));
            written += &lines.replace("\r\n", "\n");
            let Some((_, counts)) = bar.split_once("] ") else {
                continue;
            };
            let done = counts.strip_suffix(&format!(" of {} pairs", rows.len()));
            let done = done.map_or(0, |done| done.parse().expect("a count"));
            let lines = match option {
                "" => rows.get(done).map_or(all.len(), |row| *row) - 1,
                "--pairs" => done,
                _ => 0,
            };
            let due: String = made.split_inclusive('\n').take(1 + lines).collect();
            wrong = wrong.or(differing(written.as_bytes(), due.as_bytes()));
            between |= 0 < done && done < rows.len();
        }
        g.equal(
            format_args!("{line}: midway"),
            (wrong, between),
            (None, true),
        );
        let difference = differing(written.as_bytes(), made.as_bytes());
        g.equal(format_args!("{line}: in the end"), difference, None);
    }
}

/// What is left out is said on lines of their own before the table.
fn left_out(g: &mut Group, tool: &Tool, table: &str) {
    tool.put("bad.txt", "x\n");
    let ran = at_terminal(tool, "sigxume matrix -m 1 -k fish bad.txt");
    let seen = ran.and_then(|(status, bytes)| {
        let screen = shown(&bytes)?;
        let (line, rest) = screen.split_once('\n').unwrap_or_default();
        let right = line.starts_with("sigxume: left out: bad.txt, line 1, column 1: ");
        Ok((status, right, rest == table.trim_end()))
    });
    g.equal(format_args!("left out"), seen, Ok((Some(1), true, true)));
}

/// A warning stands on a line of its own before the table.
fn warned(g: &mut Group, tool: &Tool) {
    tool.put("badly.txt", "1 ? ? 5\n2 5\n");
    let ran = at_terminal(tool, "sigxume matrix -m 1 badly.txt");
    let seen = ran.and_then(|(status, bytes)| Ok((status, shown(&bytes)?)));
    let screen = "sigxume: warning: fish 1 has 1 of 3 words called: a fish typed so badly looks unrelated to \
                  every other\nfish,1,2\n1,,500\n2,500,";
    g.equal(format_args!("warned"), seen, Ok((Some(0), screen.into())));
}

/// `encode` prints no records at a terminal.
fn encode(g: &mut Group, tool: &Tool) {
    let all = related_fish(&mut g.random, 3);
    tool.put("fish.txt", text(&all));
    let ran = at_terminal(tool, "sigxume encode fish.txt");
    let seen = ran.map(|(status, bytes)| {
        let screen = shown(&bytes).unwrap_or_default();
        let lines: Vec<&str> = screen.lines().collect();
        let right = lines.len() == 2
            && lines[0].starts_with("sigxume: ")
            && lines[1] == "Try 'sigxume encode --help'.";
        (status, right)
    });
    g.equal(
        format_args!("encode to a terminal"),
        seen,
        Ok((Some(2), true)),
    );
    for line in ["encode fish.txt > out", "encode fish.txt -o out"] {
        tool.remove("out");
        let ran = at_terminal(tool, &format!("sigxume {line}"));
        g.equal(format_args!("{line}"), ran, Ok((Some(0), Vec::new())));
        tool.expect_file(g, format_args!("{line}"), "out", &records(&all));
    }
    let ran = at_terminal(tool, "sigxume decode out");
    let seen = ran.map(|(status, bytes)| (status, lossy(&bytes).replace("\r\n", "\n")));
    let expected = (Some(0), lossy(&text(&all)));
    g.equal(format_args!("decode to a terminal"), seen, Ok(expected));
}
