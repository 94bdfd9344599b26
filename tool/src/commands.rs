//! What the subcommands do.

use crate::cover::{self, Covered};
use crate::failure::{complain, Failure};
use crate::fish::{self, Fish};
use crate::input::{self, Form, Reader};
use crate::join::{self, Typing};
use crate::layout::{Layout, Lines, Table};
use crate::matrix::Matrix;
use crate::output::{self, Output};
use crate::pairs::Sides;
use crate::ranking::Ranking;
use crate::usage::Arguments;
use crate::{curves, listing, plot, text, typing, verdict};
use sigxume::{bytes_of_words, Comparer, Refusal, Symbol, Tiling};
use std::io::{self, IsTerminal};
use std::num::NonZeroUsize;
use std::thread;

pub fn encode(arguments: Arguments) -> Result<(), Failure> {
    if arguments.output.is_none() && io::stdout().is_terminal() {
        let message = "records are not for a terminal: name a file by -o FILE";
        return Err(Failure::Usage(message.into()));
    }
    let mut bytes = Vec::new();
    for fish in read_all(&arguments, Form::Text)? {
        bytes.extend(bytes_of_words(&fish.record()?));
    }
    output::write(arguments.output.as_deref(), &bytes)
}

pub fn decode(arguments: Arguments) -> Result<(), Failure> {
    let mut text = String::new();
    for fish in read_all(&arguments, Form::Records)? {
        text::print(&mut text, &fish);
    }
    output::write(arguments.output.as_deref(), text.as_bytes())
}

/// The fish of all operands, or of standard input where there are none.
fn read_all(arguments: &Arguments, form: Form) -> Result<Vec<Fish>, Failure> {
    match &*arguments.operands {
        [] => Reader::default().fish(&["-".into()], form),
        operands => Reader::default().fish(operands, form),
    }
}

/// The fish of all operands, of either form, but those that are typed too badly.
fn read_typed(arguments: &Arguments) -> Result<Vec<Fish>, Failure> {
    let fish = read_all(arguments, Form::Either)?;
    Ok(typing::leave_out(fish, arguments.min_called))
}

pub fn join(arguments: Arguments) -> Result<(), Failure> {
    let message = if arguments.output.is_none() {
        Some("joined records go to a file: name it by -o FILE")
    } else if arguments.operands.iter().all(|operand| operand == "-") {
        // It can be read once, so the second would be empty.
        Some("standard input is named twice")
    } else {
        None
    };
    if let Some(message) = message {
        return Err(Failure::Usage(message.into()));
    }
    let typing = |operand| -> Result<Typing, Failure> {
        let fish = Reader::default().fish(std::slice::from_ref(operand), Form::Either)?;
        let name = input::shown(operand);
        Ok(Typing { name, fish })
    };
    let [first, second] = [0, 1].map(|at| typing(&arguments.operands[at]));
    let joined = join::join([&first?, &second?], arguments.typed_once)?;
    for message in &joined.once {
        complain(message);
    }
    typing::warn(&joined.fish);
    // The file takes its place last, so that it is as it was where the report cannot be written.
    let mut output = Output::open(arguments.output.as_deref())?;
    output.write(&joined.bytes)?;
    output::write(None, joined.report.as_bytes())?;
    output.finish()
}

pub fn compare(arguments: Arguments) -> Result<(), Failure> {
    if let Some(threshold) = arguments.at_least {
        return verdict(&arguments, threshold);
    }
    let show = if arguments.json {
        listing::json
    } else {
        listing::listing
    };
    tiles(&arguments, show)
}

pub fn plot(arguments: Arguments) -> Result<(), Failure> {
    tiles(&arguments, plot::plot)
}

/// One pair's tiles, as they are shown.
fn tiles(
    arguments: &Arguments,
    show: fn([&Fish; 2], u32, Tiling) -> String,
) -> Result<(), Failure> {
    one_pair(arguments, |comparer, pair| {
        let [first, second] = pair.map(|fish| &fish.sequence);
        let tiling = comparer.compare(first, second, arguments.minimum)?;
        Ok(show(pair, arguments.minimum, tiling))
    })
}

/// Whether one pair reaches a threshold.
fn verdict(arguments: &Arguments, threshold: u32) -> Result<(), Failure> {
    one_pair(arguments, |comparer, pair| {
        let [first, second] = pair.map(|fish| &fish.sequence);
        let verdict = comparer.at_least(first, second, arguments.minimum, threshold)?;
        Ok(if arguments.json {
            verdict::json(pair, arguments.minimum, threshold, verdict)
        } else {
            verdict::lines(threshold, verdict)
        })
    })
}

fn one_pair(
    arguments: &Arguments,
    text: impl FnOnce(&mut Comparer, [&Fish; 2]) -> Result<String, Refusal>,
) -> Result<(), Failure> {
    let fish = read_typed(arguments)?;
    let pair = fish::pair(&fish, arguments.fish.first().copied())?;
    let text = text(&mut Comparer::new(), pair)?;
    typing::warn(pair);
    output::write(arguments.output.as_deref(), text.as_bytes())
}

pub fn cover(arguments: Arguments) -> Result<(), Failure> {
    let fish = read_typed(&arguments)?;
    let named = fish::pairs(&fish, &arguments.fish)?;
    let mut comparer = Comparer::new();
    let pairs = named.iter().map(|pair| Covered::new(&mut comparer, *pair));
    let pairs = pairs.collect::<Result<Vec<_>, Refusal>>()?;
    typing::warn(named.into_iter().flatten());
    let text = if arguments.json {
        cover::json(&pairs)
    } else if arguments.plot {
        curves::plot(&pairs)
    } else {
        cover::table(&pairs, arguments.all)
    };
    output::write(arguments.output.as_deref(), text.as_bytes())
}

pub fn matrix(arguments: Arguments) -> Result<(), Failure> {
    let mut reader = Reader {
        folders: true,
        keep_going: arguments.keep_going,
        left_out: false,
    };
    let fish = reader.fish(&arguments.operands, Form::Either)?;
    let others = reader.fish(arguments.against.as_slice(), Form::Either)?;
    let [fish, others] = [fish, others].map(|fish| typing::leave_out(fish, arguments.min_called));
    // The core has to refuse a minimum, and a threshold, even where there is no pair.
    let threshold = arguments.at_least;
    Comparer::new().at_least(&[], &[], arguments.minimum, threshold.unwrap_or(0))?;

    let sides = Sides {
        rows: &fish,
        against: arguments.against.is_some().then_some(&others),
    };
    let pairs = sides.count();
    let cores = || thread::available_parallelism().map_or(1, NonZeroUsize::get);
    let matrix = Matrix {
        sides,
        minimum: arguments.minimum,
        threshold,
        pairs: arguments.part.map_or(0..pairs, |part| part.of(pairs)),
        threads: arguments.threads.map_or_else(cores, NonZeroUsize::get),
    };
    let mut layout: Box<dyn Layout> = if arguments.pairs {
        Box::new(Lines { sides })
    } else if threshold.is_some() {
        let most = arguments.top.map_or(usize::MAX, NonZeroUsize::get);
        Box::new(Ranking::new(sides, most))
    } else {
        Box::new(Table::new(sides))
    };
    if fish.iter().chain(&others).any(typing::is_bad) {
        typing::warn(sides.compared(matrix.pairs.clone()));
    }
    let mut output = Output::open(arguments.output.as_deref())?;
    if arguments.part.is_none_or(|part| part.number == 1) {
        output.write(layout.head().as_bytes())?;
    }
    matrix.write(&mut *layout, &mut output)?;
    layout.tail(&mut output)?;
    output.finish()?;
    if reader.left_out {
        return Err(Failure::Quiet);
    }
    Ok(())
}

pub fn codes(arguments: Arguments) -> Result<(), Failure> {
    let mut text = String::new();
    // The core alone knows which codes are retired, so it is asked about every one.
    for code in 0..=u16::MAX {
        match Symbol::Call(code).replaced() {
            Symbol::Call(new) if new != code => text += &format!("{code} {new}\n"),
            _ => (),
        }
    }
    output::write(arguments.output.as_deref(), text.as_bytes())
}
