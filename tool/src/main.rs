//! `sigxume`, the command-line tool: thin, it decides nothing that the core decides.

#![forbid(unsafe_code)]

mod axis;
mod chain;
mod commands;
mod cover;
mod curves;
mod failure;
mod fish;
mod help;
mod input;
mod join;
mod layout;
mod listing;
mod matrix;
mod output;
mod pairs;
mod plot;
mod progress;
mod ranking;
mod svg;
mod text;
mod typing;
mod usage;
mod verdict;

use failure::Failure;
use std::env;
use std::ffi::OsString;
use std::process::ExitCode;
use usage::{Accepted, Arguments};

struct Subcommand {
    name: &'static str,
    accepted: Accepted,
    help: &'static str,
    run: fn(Arguments) -> Result<(), Failure>,
}

const SUBCOMMANDS: [Subcommand; 8] = [
    Subcommand {
        name: "encode",
        accepted: Accepted {
            options: &["output"],
            repeated: &[],
            operands: 0..=usize::MAX,
        },
        help: help::ENCODE,
        run: commands::encode,
    },
    Subcommand {
        name: "decode",
        accepted: Accepted {
            options: &["output"],
            repeated: &[],
            operands: 0..=usize::MAX,
        },
        help: help::DECODE,
        run: commands::decode,
    },
    Subcommand {
        name: "join",
        accepted: Accepted {
            options: &["typed-once", "output"],
            repeated: &[],
            operands: 2..=2,
        },
        help: help::JOIN,
        run: commands::join,
    },
    Subcommand {
        name: "compare",
        accepted: Accepted {
            options: &[
                "minimum",
                "fish",
                "at-least",
                "min-called",
                "json",
                "output",
            ],
            repeated: &[],
            operands: 1..=2,
        },
        help: help::COMPARE,
        run: commands::compare,
    },
    Subcommand {
        name: "plot",
        accepted: Accepted {
            options: &["minimum", "fish", "min-called", "output"],
            repeated: &[],
            operands: 1..=2,
        },
        help: help::PLOT,
        run: commands::plot,
    },
    Subcommand {
        name: "cover",
        accepted: Accepted {
            options: &["fish", "min-called", "all", "json", "plot", "output"],
            repeated: &["fish"],
            operands: 1..=2,
        },
        help: help::COVER,
        run: commands::cover,
    },
    Subcommand {
        name: "matrix",
        accepted: Accepted {
            options: &[
                "minimum",
                "pairs",
                "part",
                "at-least",
                "top",
                "against",
                "min-called",
                "keep-going",
                "threads",
                "output",
            ],
            repeated: &[],
            operands: 1..=usize::MAX,
        },
        help: help::MATRIX,
        run: commands::matrix,
    },
    Subcommand {
        name: "codes",
        accepted: Accepted {
            options: &["output"],
            repeated: &[],
            operands: 0..=0,
        },
        help: help::CODES,
        run: commands::codes,
    },
];

fn main() -> ExitCode {
    let arguments = Vec::from_iter(env::args_os().skip(1));
    let words = Vec::from_iter(arguments.iter().map(|argument| argument.to_string_lossy()));
    let words = Vec::from_iter(words.iter().map(|word| &**word));
    let (asked, done) = match words.first().and_then(|name| find(name)) {
        Some(subcommand) => (
            format!("sigxume {}", subcommand.name),
            subcommand.run(&arguments[1..]),
        ),
        None => ("sigxume".into(), general(&words)),
    };
    match done {
        Ok(()) => ExitCode::SUCCESS,
        Err(failure) => failure.report(&asked),
    }
}

fn find(name: &str) -> Option<&'static Subcommand> {
    SUBCOMMANDS.iter().find(|known| known.name == name)
}

impl Subcommand {
    fn run(&self, arguments: &[OsString]) -> Result<(), Failure> {
        let parsed = usage::parse(arguments, &self.accepted).map_err(Failure::Usage)?;
        if parsed.help {
            return print(self.help);
        }
        input::spare(parsed.inputs(), parsed.output.as_deref())?;
        (self.run)(parsed)
    }
}

/// What there is beside the subcommands: help and the version.
fn general(words: &[&str]) -> Result<(), Failure> {
    match words {
        [] => usage("a subcommand is missing".into()),
        ["-h" | "--help", ..] | ["help"] | ["help", "help" | "-h" | "--help"] => {
            print(help::GENERAL)
        }
        ["-V" | "--version", ..] => print(concat!("sigxume ", env!("CARGO_PKG_VERSION"), "\n")),
        ["help", name] => match find(name) {
            Some(subcommand) => print(subcommand.help),
            None => usage(format!("unknown subcommand '{name}'")),
        },
        ["help", ..] => usage("help takes one subcommand at most".into()),
        [option, ..] if option.starts_with('-') => usage(format!(
            "unknown option {option}: options follow a subcommand"
        )),
        [name, ..] => usage(format!("unknown subcommand '{name}'")),
    }
}

fn usage(message: String) -> Result<(), Failure> {
    Err(Failure::Usage(message))
}

fn print(text: &str) -> Result<(), Failure> {
    output::write(None, text.as_bytes())
}
