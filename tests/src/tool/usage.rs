//! Arguments that the tool refuses, its help and its version.

mod tables;

use super::expected::{Expected, Line};
use super::fish::records;
use super::matrix::related_fish;
use super::Tool;
use crate::group::Group;
use crate::process::lossy;
use tables::{FISH, MESSAGES, MINIMUMS, OPTIONS, PARTS, ROWS, SHARES, THRESHOLDS};

/// The tool must call these arguments bad usage, and hint at a subcommand's help.
fn refused(g: &mut Group, tool: &Tool, hint: &str, args: &[&str]) {
    refused_with(g, tool, Line::Begins("sigxume: ".into()), hint, args);
}

/// The same with a line of its own.
fn refused_with(g: &mut Group, tool: &Tool, line: Line, hint: &str, args: &[&str]) {
    let hint = match hint {
        "" => "Try 'sigxume --help'.".into(),
        name => format!("Try 'sigxume {name} --help'."),
    };
    let expected = Expected {
        status: 2,
        stdout: Vec::new(),
        stderr: vec![line, Line::Is(hint)],
    };
    let names = tool.names();
    tool.expect(g, format_args!("bad usage"), args, b"12 1\n", &expected);
    g.equal(format_args!("{args:?}: names"), tool.names(), names);
}

/// Every rule, one at a time, with files that are there and arguments that are otherwise right.
fn bad(g: &mut Group, tool: &Tool) {
    for (hint, args) in ROWS {
        refused(g, tool, hint, args);
    }
    for (words, args) in MESSAGES {
        let line = Line::Is(format!("sigxume: {words}"));
        refused_with(g, tool, line, args[0], args);
    }
    for name in ["compare", "plot", "matrix"] {
        for rest in MINIMUMS {
            refused(g, tool, name, &[&[name], rest].concat());
        }
    }
    let starts: [&[&str]; 4] = [
        &["compare", "-m", "1", "a"],
        &["plot", "-m", "1", "a"],
        &["cover", "a"],
        &["cover", "a", "--fish", "1,2"],
    ];
    for start in starts {
        for value in FISH {
            refused(g, tool, start[0], &[start, &["--fish", value]].concat());
            let joined = format!("--fish={value}");
            refused(g, tool, start[0], &[start, &[&joined]].concat());
        }
    }
    let start = ["matrix", "-m", "1", "a"];
    for value in PARTS {
        refused(
            g,
            tool,
            "matrix",
            &[&start[..], &["--pairs", "--part", value]].concat(),
        );
    }
    for value in ["", "0", "-1", "x", "1.5", "99999999999999999999999"] {
        for option in [&["--threads"][..], &["--at-least", "300", "--top"]] {
            refused(g, tool, "matrix", &[&start, option, &[value]].concat());
        }
    }
    for start in starts.into_iter().chain([&start[..]]) {
        for value in SHARES {
            refused(
                g,
                tool,
                start[0],
                &[start, &["--min-called", value]].concat(),
            );
            let joined = format!("--min-called={value}");
            refused(g, tool, start[0], &[start, &[&joined]].concat());
        }
    }
    for name in ["compare", "matrix"] {
        for value in THRESHOLDS {
            let joined = format!("--at-least={value}");
            for option in [&["--at-least", value][..], &[&joined]] {
                refused(g, tool, name, &[&[name, "-m", "1", "a"], option].concat());
            }
        }
    }
    // Help about nothing that there is.
    let case = format_args!("help about nothing");
    let expected = Expected {
        status: 2,
        stdout: Vec::new(),
        stderr: vec![
            Line::Begins("sigxume: ".into()),
            Line::Begins("Try 'sigxume ".into()),
        ],
    };
    for args in [&["help", "nonsense"][..], &["help", "compare", "plot"]] {
        tool.expect(g, case, args, b"", &expected);
    }
}

/// What help prints: status 0, nothing on standard error, lines of up to 80 columns, every name there is.
fn helps(g: &mut Group, tool: &Tool, args: &[&str], names: &[&str]) {
    let ran = tool.run(args, b"");
    let seen = ran
        .as_ref()
        .map(|ran| (ran.status.code(), lossy(&ran.stderr)));
    g.equal(format_args!("{args:?}"), seen, Ok((Some(0), String::new())));
    let text = ran.map(|ran| lossy(&ran.stdout)).unwrap_or_default();
    let ends = text.len() > 1 && text.ends_with('\n');
    g.equal(format_args!("{args:?}: whole lines"), ends, true);
    let wide = text.lines().find(|line| line.chars().count() > 80);
    g.equal(format_args!("{args:?}: 80 columns"), wide, None);
    let mut words = text.split(|c: char| !c.is_ascii_alphanumeric() && c != '-');
    for name in names {
        let found = words.clone().any(|word| word == *name);
        g.equal(format_args!("{args:?}: {name}"), found, true);
    }
    g.equal(
        format_args!("{args:?}: sigxume"),
        words.any(|word| word == "sigxume"),
        true,
    );
}

/// Bad usage, help and version.
pub fn usage(g: &mut Group) {
    let tool = Tool::new(g);
    let all = related_fish(&mut g.random, 2);
    tool.put("a", records(&all));
    bad(g, &tool);
    let every = OPTIONS.map(|(name, _)| name);
    for args in [&["help"][..], &["--help"], &["-h"]] {
        helps(
            g,
            &tool,
            args,
            &[&every[..], &["help", "--version"]].concat(),
        );
    }
    for (name, options) in OPTIONS {
        let names = [&[name], options].concat();
        for args in [["help", name], [name, "--help"], [name, "-h"]] {
            helps(g, &tool, &args, &names);
        }
    }
    for args in [["--version"], ["-V"]] {
        let expected = Expected::prints("sigxume 0.1.0\n");
        tool.expect(g, format_args!("version"), &args, b"", &expected);
    }
}
