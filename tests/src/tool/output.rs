//! Output that cannot be written, or must not be.

use super::expected::{Expected, Line};
use super::fish::{records, text, Fish};
use super::Tool;
use crate::group::Group;
use crate::process::lossy;
use crate::reference::MAX_WORDS;
use crate::samples::sequence;
use std::fs::File;
use std::process::Stdio;

/// Each subcommand with an output.
const COMMANDS: [&[&str]; 13] = [
    &["encode", "fish.txt"],
    &["decode", "fish"],
    &["compare", "-m", "1", "fish"],
    &["compare", "-m", "1", "--json", "fish"],
    &["compare", "-m", "1", "--at-least", "500", "fish"],
    &["compare", "-m", "1", "--at-least", "500", "--json", "fish"],
    &["plot", "-m", "1", "fish"],
    &["cover", "fish"],
    &["cover", "--json", "fish"],
    &["cover", "--plot", "fish"],
    &["matrix", "-m", "1", "fish"],
    &["matrix", "-m", "1", "--at-least", "0", "fish"],
    &["matrix", "-m", "1", "fish.txt", "--against", "fish"],
];

/// A closed pipe, a full disk, a folder that is not there, a folder in place of the file.
pub fn output(g: &mut Group) {
    let tool = Tool::new(g);
    let all = [1, 2].map(|id| Fish::new(id, &sequence(&mut g.random, MAX_WORDS)));
    tool.put("fish", records(&all));
    tool.put("fish.txt", text(&all));
    tool.put("folder/file", "");
    for args in COMMANDS
        .into_iter()
        .chain([&["--help"][..], &["matrix", "--help"]])
    {
        let (reader, writer) = std::io::pipe().expect("a pipe can be made");
        drop(reader);
        let mut command = tool.command(args);
        let ran = command.stdin(Stdio::null()).stdout(writer).output();
        let seen = ran.map(|ran| (ran.status.code(), lossy(&ran.stderr)));
        let seen = seen.map_err(|error| error.to_string());
        let case = format_args!("closed pipe: {args:?}");
        g.equal(case, seen, Ok((Some(1), String::new())));
        let full = File::options()
            .write(true)
            .open("/dev/full")
            .expect("/dev/full is there");
        let mut command = tool.command(args);
        let ran = command.stdin(Stdio::null()).stdout(full).output();
        let seen = ran.map(|ran| {
            let line = lossy(&ran.stderr);
            let right = line.starts_with("sigxume: ") && line.lines().count() == 1;
            (ran.status.code(), right)
        });
        let seen = seen.map_err(|error| error.to_string());
        g.equal(format_args!("full: {args:?}"), seen, Ok((Some(1), true)));
    }
    for args in COMMANDS {
        for name in ["missing/out", "folder", "folder/file/out", "/dev/full/out"] {
            let names = tool.names();
            let expected = Expected::fails(Line::Begins("sigxume: ".into()));
            let args = [args, &["-o", name]].concat();
            tool.expect(g, format_args!("no such output"), &args, b"", &expected);
            let left = (tool.names(), tool.get("folder/file"));
            let expected = (names, Some(Vec::new()));
            g.equal(format_args!("{args:?}: files"), left, expected);
        }
    }
    over_input(g, &tool);
}

/// A file that is read is not written over, however it is named.
fn over_input(g: &mut Group, tool: &Tool) {
    let fish = tool.get("fish").expect("a file");
    tool.put("folder/fish", &fish);
    tool.remove("folder/file");
    let (here, there) = (tool.folder().join("fish"), tool.folder().join("link"));
    std::os::unix::fs::symlink(&here, &there).expect("a link can be made");
    let whole = lossy(here.as_os_str().as_encoded_bytes());
    for args in COMMANDS {
        let read = args[args.len() - 1];
        for name in [
            "fish",
            "fish.txt",
            "./fish",
            "folder/../fish.txt",
            "link",
            &whole,
        ] {
            if name.ends_with(read) || (read == "fish" && name == "link") {
                refused(g, tool, &[args, &["-o", name]].concat(), name);
            }
        }
    }
    let name = "folder/fish";
    for args in [
        &["matrix", "-m", "1", "folder", "-o", name][..],
        &[
            "matrix",
            "-m",
            "1",
            "fish",
            "--against",
            "folder",
            "-o",
            name,
        ],
        &["matrix", "-m", "1", name, "--against", "fish", "-o", name],
    ] {
        refused(g, tool, args, name);
    }
    let unchanged = [tool.get("fish"), tool.get("folder/fish")];
    g.equal(
        format_args!("what is read"),
        unchanged,
        [Some(fish.clone()), Some(fish)],
    );
    tool.put("folder/.hidden", "");
    for name in ["folder/new", "folder/.hidden"] {
        let args = ["matrix", "-m", "1", "folder", "-o", name];
        tool.expect(
            g,
            format_args!("not read"),
            &args,
            b"",
            &Expected::prints(""),
        );
        tool.remove("folder/new");
    }
}

/// Bad usage: the file that `-o` names is read.
fn refused(g: &mut Group, tool: &Tool, args: &[&str], name: &str) {
    let expected = Expected {
        status: 2,
        stdout: Vec::new(),
        stderr: vec![
            Line::Is(format!("sigxume: -o names a file that is read: {name}")),
            Line::Is(format!("Try 'sigxume {} --help'.", args[0])),
        ],
    };
    tool.expect(g, format_args!("over its input"), args, b"", &expected);
}
