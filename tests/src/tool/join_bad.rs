//! `join` on what it cannot join, cannot read or cannot write: every file stays as it was.

use super::expected::{Expected, Line};
use super::faults::{first, lines, records as read, refusal};
use super::fish::{records, text, Fish};
use super::typings::Typings;
use super::Tool;
use crate::group::Group;
use crate::process::lossy;
use crate::reference::COUNT;
use crate::samples::call;
use std::fs::File;
use std::process::Stdio;

/// It prints nothing but these lines on standard error.
fn says(lines: &[String]) -> Expected {
    let lines = lines
        .iter()
        .map(|line| Line::Is(format!("sigxume: {line}")));
    Expected {
        status: 1,
        stdout: Vec::new(),
        stderr: lines.collect(),
    }
}

/// Numbers that stand twice or more in a file: each is named once, with its file.
fn twice(g: &mut Group, tool: &Tool) {
    tool.put("once", "12 1\n13 2\n14 3\n15 4\n");
    tool.put("twice", "12 1\n13 2\n12 1\n");
    tool.put("thrice", "13 2\n12 1\n15 4\n13 2\n13 2\n12 9 9\n");
    let line = |file: &str, id: u16| format!("{file}: fish {id} is there more than once");
    let case = format_args!("a number twice");
    for (files, input, due) in [
        (["twice", "once"], &b""[..], vec![line("twice", 12)]),
        (["once", "twice"], b"", vec![line("twice", 12)]),
        (
            ["thrice", "once"],
            b"",
            vec![line("thrice", 13), line("thrice", 12)],
        ),
        (
            ["twice", "thrice"],
            b"",
            vec![line("twice", 12), line("thrice", 13), line("thrice", 12)],
        ),
        (
            ["once", "-"],
            b"16\n17 1 2\n16\n",
            vec![line("standard input", 16)],
        ),
    ] {
        for option in [&[][..], &["--typed-once", "leave-out"]] {
            let args = [&["join"], &files[..], option].concat();
            tool.expect_unmade(g, case, &args, input, &says(&due));
        }
    }
}

/// Typings with different numbers of words: each such fish is named with both counts, in the order of the first file, and
/// no other is, whether it could be joined or is in one file only.
fn counts(g: &mut Group, tool: &Tool) {
    for number in 0..60 {
        let Typings { mut first, second } = Typings::any(&mut g.random, 8, 12);
        let mut due = Vec::new();
        for fish in &mut first {
            let other = second.iter().find(|other| other.id == fish.id);
            let (Some(other), true) = (other, g.random.one_in(2)) else {
                continue;
            };
            match g.random.one_in(2) {
                true => fish.words.push(call(1)),
                false if fish.words.is_empty() => continue,
                false => drop(fish.words.pop()),
            }
            due.push(format!(
                "fish {}: {}: {} in first, {} in second",
                fish.id,
                refusal(COUNT),
                fish.words.len(),
                other.words.len()
            ));
        }
        if due.is_empty() {
            continue;
        }
        let forms = [text as fn(&[Fish]) -> Vec<u8>, records];
        tool.put("first", g.random.pick(&forms)(&first));
        tool.put("second", g.random.pick(&forms)(&second));
        let case = format_args!("different counts {number}");
        tool.expect_unmade(g, case, &["join", "first", "second"], b"", &says(&due));
    }
    let words = refusal(COUNT);
    let right = words == "the two records have different counts of words (refusal 14)";
    g.equal(format_args!("{words}"), right, true);
}

/// Files that cannot be read, in whole or in part.
fn unreadable(g: &mut Group, tool: &Tool) {
    tool.put("good", "12 1\n");
    tool.put("folder/file", "12 1\n");
    let case = format_args!("bad input");
    let begins = |start: &str| Expected::fails(Line::Begins(format!("sigxume: {start}")));
    for (bad, due) in [("missing", "missing: "), ("folder", "folder: is a folde")] {
        tool.expect_unmade(g, case, &["join", "good", bad], b"", &begins(due));
        tool.expect_unmade(g, case, &["join", bad, "good"], b"", &begins(due));
    }
    let texts: [&[u8]; 4] = [b"12 x\n", b"12 1\n12 1", b"12 1\n\n", b"12 1\r\n"];
    let damaged: [&[u8]; 3] = [&[0; 12], &[255; 12], b"\0\0\0"];
    let text_faults = texts.map(|bytes| (bytes, first(&lines(bytes))));
    let record_faults = damaged.map(|bytes| (bytes, first(&read(bytes))));
    for (bytes, fault) in text_faults.into_iter().chain(record_faults) {
        let fault = fault.expect("a fault");
        tool.put("bad", bytes);
        let due = Expected::fails(fault.line("bad"));
        tool.expect_unmade(g, case, &["join", "good", "bad"], b"", &due);
        tool.expect_unmade(g, case, &["join", "bad", "good"], b"", &due);
        let due = Expected::fails(fault.line("standard input"));
        tool.expect_unmade(g, case, &["join", "good", "-"], bytes, &due);
    }
    // Of two bad files the first is told.
    let due = Expected::fails(Line::Begins("sigxume: bad, ".into()));
    tool.expect_unmade(g, case, &["join", "bad", "missing"], b"", &due);
}

/// A report that cannot be written, and a file that cannot be.
fn unwritten(g: &mut Group, tool: &Tool) {
    tool.put("a", "12 1 2\n13 3\n");
    tool.put("b", "12 1 ?\n13 3\n");
    tool.put("folder/file", "");
    let before = b"what was there before\n".to_vec();
    tool.put("out", &before);
    let names = tool.names();
    let full = File::options().write(true).open("/dev/full");
    let (reader, closed) = std::io::pipe().expect("a pipe can be made");
    drop(reader);
    let sinks = [
        (Stdio::from(full.expect("/dev/full is there")), 1),
        (Stdio::from(closed), 0),
    ];
    for (sink, lines) in sinks {
        let mut command = tool.command(&["join", "a", "b", "-o", "out"]);
        let ran = command.stdin(Stdio::null()).stdout(sink).output();
        let seen = ran.map(|ran| (ran.status.code(), lossy(&ran.stderr).lines().count()));
        let seen = seen.map_err(|error| error.to_string());
        let case = format_args!("a report that cannot be written");
        g.equal(case, seen, Ok((Some(1), lines)));
        g.equal(case, tool.get("out"), Some(before.clone()));
        g.equal(case, tool.names(), names.clone());
    }
    for name in ["missing/out", "folder", "folder/file/out", "/dev/full/out"] {
        let args = ["join", "a", "b", "-o", name];
        let due = Expected::fails(Line::Begins(format!("sigxume: {name}: cannot be writ")));
        let case = format_args!("no such output");
        tool.expect(g, case, &args, b"", &due);
        g.equal(format_args!("{args:?}: names"), tool.names(), names.clone());
    }
    tool.remove("out");
}

/// No file for the records, or one that is read, or standard input twice.
fn usage(g: &mut Group, tool: &Tool) {
    let nowhere = "joined records go to a file: name it by -o FILE";
    let over = |name: &str| format!("-o names a file that is read: {name}");
    let rows: [(&[&str], String); 9] = [
        (&["a", "b"], nowhere.into()),
        (&["a", "b", "-o", "-"], nowhere.into()),
        (&["missing", "b", "--typed-once=keep"], nowhere.into()),
        (&["a", "b", "-o", "a"], over("a")),
        (&["a", "b", "-o", "b"], over("b")),
        (&["a", "-", "-o", "./a"], over("./a")),
        (
            &["-", "-", "-o", "out"],
            "standard input is named twice".into(),
        ),
        (&["a", "-o", "out"], "1 file is named, 2 are wanted".into()),
        (&["-o", "out"], "no file is named".into()),
    ];
    let files = ["a", "b"].map(|name| tool.get(name));
    for (args, line) in rows {
        let due = Expected {
            status: 2,
            stdout: Vec::new(),
            stderr: vec![
                Line::Is(format!("sigxume: {line}")),
                Line::Is("Try 'sigxume join --help'.".into()),
            ],
        };
        let names = tool.names();
        let args = [&["join"], args].concat();
        tool.expect(g, format_args!("usage"), &args, b"12 1 2\n", &due);
        let left = (["a", "b"].map(|name| tool.get(name)), tool.names());
        let case = format_args!("{args:?}: files");
        g.equal(case, left, (files.clone(), names));
    }
}

/// Everything that is refused.
pub fn join_bad(g: &mut Group) {
    let tool = Tool::new(g);
    twice(g, &tool);
    counts(g, &tool);
    unreadable(g, &tool);
    unwritten(g, &tool);
    usage(g, &tool);
}
