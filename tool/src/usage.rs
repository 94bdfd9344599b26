//! The command line: one table of options, and one parser for all subcommands.

use crate::join::TypedOnce;
use std::ffi::{OsStr, OsString};
use std::num::NonZeroUsize;
use std::ops::RangeInclusive;
use std::os::unix::ffi::OsStrExt;
use std::path::PathBuf;
use std::str::FromStr;
use Takes::{Nothing, Value};

/// What a command line asks of its subcommand.
#[derive(Default)]
pub struct Arguments {
    pub minimum: u32,
    /// The threshold: the line that scores must reach.
    pub at_least: Option<u32>,
    /// The most pairs of a list.
    pub top: Option<NonZeroUsize>,
    /// The least share of called words, in per cent.
    pub min_called: usize,
    pub typed_once: TypedOnce,
    pub output: Option<PathBuf>,
    /// One pair at most, but where `--fish` may be repeated.
    pub fish: Vec<[u16; 2]>,
    pub all: bool,
    pub json: bool,
    pub plot: bool,
    pub pairs: bool,
    pub part: Option<Part>,
    /// Where the fish of the other side are.
    pub against: Option<OsString>,
    pub threads: Option<NonZeroUsize>,
    pub keep_going: bool,
    pub help: bool,
    pub operands: Vec<OsString>,
}

/// The part `number` of `count`, counted from 1.
#[derive(Clone, Copy)]
pub struct Part {
    pub number: u64,
    pub count: u64,
}

/// What a subcommand takes: its options by their long names, those of them that may be given again, and how many
/// operands.
pub struct Accepted {
    pub options: &'static [&'static str],
    pub repeated: &'static [&'static str],
    pub operands: RangeInclusive<usize>,
}

struct Row {
    long: &'static str,
    short: Option<u8>,
    takes: Takes,
}

/// An option either sets something or takes a value; the words say what it wants, and `None` that the value
/// is not that.
enum Takes {
    Nothing(fn(&mut Arguments)),
    Value(&'static str, fn(&mut Arguments, &OsStr) -> Option<()>),
}

const TABLE: [Row; 16] = [
    Row {
        long: "minimum",
        short: Some(b'm'),
        takes: Value("a number from 1 to 256", |arguments, value| {
            arguments.minimum = number(value.to_str()?)?;
            Some(())
        }),
    },
    Row {
        long: "at-least",
        short: None,
        takes: Value("a number from 0 to 1000", |arguments, value| {
            arguments.at_least = Some(number(value.to_str()?)?);
            Some(())
        }),
    },
    Row {
        long: "top",
        short: None,
        takes: Value("a number from 1", |arguments, value| {
            arguments.top = Some(number(value.to_str()?)?);
            Some(())
        }),
    },
    Row {
        long: "min-called",
        short: None,
        takes: Value("a number from 0 to 100", |arguments, value| {
            arguments.min_called = number(value.to_str()?)?;
            (arguments.min_called <= 100).then_some(())
        }),
    },
    Row {
        long: "typed-once",
        short: None,
        takes: Value("keep or leave-out", |arguments, value| {
            arguments.typed_once = match value.to_str()? {
                "keep" => TypedOnce::Keep,
                "leave-out" => TypedOnce::LeaveOut,
                _ => return None,
            };
            Some(())
        }),
    },
    Row {
        long: "output",
        short: Some(b'o'),
        takes: Value("the name of a file", |arguments, value| {
            // As an operand - is standard input, so here it is standard output.
            arguments.output = (value != "-").then(|| PathBuf::from(value));
            (!value.is_empty()).then_some(())
        }),
    },
    Row {
        long: "fish",
        short: None,
        takes: Value("two fish's numbers, as in 12,13", |arguments, value| {
            let (first, second) = value.to_str()?.split_once(',')?;
            arguments.fish.push([number(first)?, number(second)?]);
            Some(())
        }),
    },
    Row {
        long: "all",
        short: None,
        takes: Nothing(|arguments| arguments.all = true),
    },
    Row {
        long: "json",
        short: None,
        takes: Nothing(|arguments| arguments.json = true),
    },
    Row {
        long: "plot",
        short: None,
        takes: Nothing(|arguments| arguments.plot = true),
    },
    Row {
        long: "pairs",
        short: None,
        takes: Nothing(|arguments| arguments.pairs = true),
    },
    Row {
        long: "part",
        short: None,
        takes: Value("K/N with K from 1 to N, as in 2/4", |arguments, value| {
            let (part, count) = value.to_str()?.split_once('/')?;
            let (number, count) = (number(part)?, number(count)?);
            arguments.part = Some(Part { number, count });
            (1..=count).contains(&number).then_some(())
        }),
    },
    Row {
        long: "against",
        short: None,
        takes: Value("the name of a file or a folder", |arguments, value| {
            arguments.against = Some(value.into());
            (!value.is_empty()).then_some(())
        }),
    },
    Row {
        long: "threads",
        short: None,
        takes: Value("a number from 1", |arguments, value| {
            arguments.threads = Some(number(value.to_str()?)?);
            Some(())
        }),
    },
    Row {
        long: "keep-going",
        short: Some(b'k'),
        takes: Nothing(|arguments| arguments.keep_going = true),
    },
    Row {
        long: "help",
        short: Some(b'h'),
        takes: Nothing(|arguments| arguments.help = true),
    },
];

/// The options that go with another one only.
const NEEDS: [(&str, &str); 2] = [("part", "pairs"), ("top", "at-least")];

/// Each of these chooses what is written, so of each list one alone may be given.
const FORMS: [&[&str]; 2] = [&["all", "json", "plot"], &["pairs", "at-least"]];

impl Arguments {
    /// All that is read: the operands, then the other side.
    pub fn inputs(&self) -> impl Iterator<Item = &OsString> {
        self.operands.iter().chain(&self.against)
    }
}

/// Digits only: Rust's own reading takes a sign too.
fn number<T: FromStr>(text: &str) -> Option<T> {
    let digits = text.bytes().all(|byte| byte.is_ascii_digit());
    digits.then(|| text.parse().ok()).flatten()
}

/// Reads what stands after a subcommand, up to a wish for help, if there is one. The message of an error says
/// what is wrong.
pub fn parse(arguments: &[OsString], accepted: &Accepted) -> Result<Arguments, String> {
    let mut rest = arguments.iter();
    let mut parsed = Arguments::default();
    let mut given = Vec::new();
    while let Some(argument) = rest.next() {
        if argument == "--" {
            parsed.operands.extend(rest.cloned());
            break;
        }
        let Some((spelled, attached)) = split(argument) else {
            parsed.operands.push(argument.clone());
            continue;
        };
        let shown = spelled.to_string_lossy();
        let row = TABLE
            .iter()
            .filter(|row| row.long == "help" || accepted.options.contains(&row.long))
            .find(|row| row.is(spelled))
            .ok_or_else(|| format!("unknown option {shown}"))?;
        if given.contains(&row.long) && !accepted.repeated.contains(&row.long) {
            return Err(format!("{shown} is given twice"));
        }
        given.push(row.long);
        match row.takes {
            Nothing(set) => match attached {
                None => set(&mut parsed),
                Some(_) => return Err(format!("{shown} takes no value")),
            },
            Value(wanted, set) => {
                let value = match attached {
                    Some(value) => value,
                    None => rest.next().ok_or(format!("{shown} wants {wanted}"))?,
                };
                set(&mut parsed, value).ok_or_else(|| {
                    format!("{shown} wants {wanted}, not '{}'", value.to_string_lossy())
                })?;
            }
        }
        if parsed.help {
            return Ok(parsed);
        }
    }
    if accepted.options.contains(&"minimum") && !given.contains(&"minimum") {
        return Err("the minimum is missing: -m N".into());
    }
    together(&given, &parsed)?;
    let [least, most] = [accepted.operands.start(), accepted.operands.end()];
    match parsed.operands.len() {
        0 if *least > 0 => Err("no file is named".into()),
        1 if *least > 1 => Err(format!("1 file is named, {least} are wanted")),
        found if found > 0 && *most == 0 => Err("a file is named, but none is taken".into()),
        found if found > *most => Err(format!("{found} files are named, at most {most} are taken")),
        _ => Ok(parsed),
    }
}

/// Whether options go together that are right each by itself.
fn together(given: &[&str], parsed: &Arguments) -> Result<(), String> {
    for (option, other) in NEEDS {
        if given.contains(&option) && !given.contains(&other) {
            return Err(format!("--{option} goes with --{other} only"));
        }
    }
    for forms in FORMS {
        let chosen = given.iter().filter(|option| forms.contains(option));
        if let [one, other, ..] = *Vec::from_iter(chosen) {
            return Err(format!("--{one} does not go with --{other}"));
        }
    }
    // It can be read once, so one side would be empty.
    let standard = |input: &OsString| input == "-";
    if parsed.against.iter().any(standard) && parsed.operands.iter().any(standard) {
        return Err("standard input is named on both sides".into());
    }
    Ok(())
}

impl Row {
    /// Whether an option is spelled so: `-m` or `--minimum`.
    fn is(&self, spelled: &OsStr) -> bool {
        match spelled.as_bytes() {
            [b'-', b'-', long @ ..] => long == self.long.as_bytes(),
            [b'-', short] => self.short == Some(*short),
            _ => false,
        }
    }
}

/// An option as it is spelled, and the value that is attached to it: `-m8`, `--minimum=8`. An operand is
/// `None`.
fn split(argument: &OsStr) -> Option<(&OsStr, Option<&OsStr>)> {
    let bytes = argument.as_bytes();
    let (spelled, attached) = match bytes {
        [b'-', b'-', ..] => match bytes.iter().position(|byte| *byte == b'=') {
            Some(at) => (&bytes[..at], Some(&bytes[at + 1..])),
            None => (bytes, None),
        },
        [b'-', _] => (bytes, None),
        [b'-', _, ..] => (&bytes[..2], Some(&bytes[2..])),
        _ => return None,
    };
    Some((OsStr::from_bytes(spelled), attached.map(OsStr::from_bytes)))
}
