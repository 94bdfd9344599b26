//! The text form: a line a fish, its number and then its codes. It is strict, so a file that is accepted
//! comes back byte for byte.

use crate::fish::Fish;
use sigxume::{Symbol, MAX_WORDS};

/// What is wrong in a line, at a column counted from 1.
pub struct Fault {
    pub column: usize,
    pub message: String,
}

/// The fish of each line, or the first fault from the left.
pub fn parse(text: &[u8]) -> impl Iterator<Item = Result<Fish, Fault>> + '_ {
    text.split_inclusive(|byte| *byte == b'\n').map(parse_line)
}

fn parse_line(line: &[u8]) -> Result<Fish, Fault> {
    let mut line = Line { bytes: line, at: 0 };
    let id = line.number("a fish's number is wanted, 0 to 65535")?;
    let mut sequence = Vec::new();
    let mut last = 0;
    // The core refuses a word too many; what stands right of it does not matter then.
    while sequence.len() <= MAX_WORDS && line.goes_on()? {
        last = line.at;
        sequence.push(line.symbol()?.word());
    }
    let fish = Fish::new(id, sequence);
    match fish.record() {
        Ok(_) => Ok(fish),
        Err(refusal) => Err(fault(last, &refusal.to_string())),
    }
}

/// A line with its newline, where it has one, and how far it is read.
struct Line<'a> {
    bytes: &'a [u8],
    at: usize,
}

impl Line<'_> {
    fn peek(&self) -> Option<u8> {
        self.bytes.get(self.at).copied()
    }

    /// Reads what stands after a number: a space, so that there is a word more, or the line's end.
    fn goes_on(&mut self) -> Result<bool, Fault> {
        let message = match self.peek() {
            Some(b' ') => {
                self.at += 1;
                return Ok(true);
            }
            Some(b'\n') => return Ok(false),
            Some(b'\r') => "a carriage return; a line ends in a newline alone",
            Some(_) => "a space or the end of the line is wanted",
            None => "a newline is wanted at the end of the last line",
        };
        Err(fault(self.at, message))
    }

    fn symbol(&mut self) -> Result<Symbol, Fault> {
        if self.peek() == Some(b'?') {
            self.at += 1;
            return Ok(Symbol::NoCall);
        }
        let code = self.number("a code is wanted, 0 to 65535, or ?")?;
        Ok(Symbol::Call(code))
    }

    fn number(&mut self, wanted: &str) -> Result<u16, Fault> {
        let start = self.at;
        let mut value = 0_u32;
        while let Some(digit @ b'0'..=b'9') = self.peek() {
            let digit = u32::from(digit - b'0');
            value = value.saturating_mul(10).saturating_add(digit);
            self.at += 1;
        }
        let message = match (&self.bytes[start..self.at], u16::try_from(value)) {
            ([], _) => wanted,
            ([b'0', _, ..], _) => "a number has no leading zero",
            (_, Err(_)) => "a number is at most 65535",
            (_, Ok(value)) => return Ok(value),
        };
        Err(fault(start, message))
    }
}

fn fault(at: usize, message: &str) -> Fault {
    Fault {
        column: at + 1,
        message: message.into(),
    }
}

/// Adds a fish's line.
pub fn print(text: &mut String, fish: &Fish) {
    text.push_str(&fish.id.to_string());
    for word in &fish.sequence {
        text.push(' ');
        match Symbol::from_word(*word).expect("the core has accepted this word") {
            Symbol::Call(code) => text.push_str(&code.to_string()),
            Symbol::NoCall => text.push('?'),
        }
    }
    text.push('\n');
}
