//! What is wrong in a file, and where: text by its own rules, records by the reference's reading.

use super::expected::Line;
use super::fish::Fish;
use crate::reference::{self, CUT, MAX_WORDS, TOO_LONG};
use crate::samples::{call, NO_CALL};
use sigxume::Refusal;

/// The first thing wrong in a line or a record, with its place.
#[derive(Clone, Copy, Debug, PartialEq, Eq)]
pub enum Fault {
    Text {
        line: usize,
        column: usize,
    },
    /// The line's word 2,049 is at this place.
    TooMany {
        line: usize,
        column: usize,
    },
    Record {
        record: usize,
        word: usize,
        refusal: u32,
    },
}

/// A refusal's words and number.
pub fn refusal(number: u32) -> String {
    Refusal::ALL[number as usize - 1].to_string()
}

impl Fault {
    /// The line about it that standard error has, after the tool's name and what else comes first.
    pub fn line_after(self, start: &str, file: &str) -> Line {
        match self {
            Self::Text { line, column } => Line::Begins(format!(
                "sigxume: {start}{file}, line {line}, column {column}: "
            )),
            Self::TooMany { line, column } => Line::Is(format!(
                "sigxume: {start}{file}, line {line}, column {column}: {}",
                refusal(TOO_LONG)
            )),
            Self::Record {
                record,
                word,
                refusal: number,
            } => Line::Is(format!(
                "sigxume: {start}{file}, record {record} (word {word}): {}",
                refusal(number)
            )),
        }
    }

    /// The line about it where it ends the run.
    pub fn line(self, file: &str) -> Line {
        self.line_after("", file)
    }
}

/// The number that these digits are, if they are a number as the text form wants it.
fn number(digits: &[u8]) -> Option<u16> {
    let digits = std::str::from_utf8(digits).ok()?;
    let number: u16 = digits.parse().ok()?;
    (number.to_string() == digits).then_some(number)
}

/// The fish of a line, which has its newline if it has one; or the column of what is wrong, and whether
/// it is a word too many.
fn fish(line: &[u8]) -> Result<Fish, (usize, bool)> {
    let mut numbers = Vec::new();
    let mut at = 0;
    loop {
        // A number begins here, or the no-call after the fish's number.
        let rest = &line[at..];
        let no_call = !numbers.is_empty() && rest.starts_with(b"?");
        let size = match no_call {
            true => 1,
            false => rest.iter().take_while(|byte| byte.is_ascii_digit()).count(),
        };
        let word = match no_call {
            true => NO_CALL,
            false => call(number(&rest[..size]).ok_or((at + 1, false))?),
        };
        if numbers.len() > MAX_WORDS {
            return Err((at + 1, true));
        }
        numbers.push(word);
        at += size;
        match line.get(at) {
            Some(b' ') => at += 1,
            Some(b'\n') => return Ok(Fish::new(numbers[0] as u16, &numbers[1..])),
            _ => return Err((at + 1, false)),
        }
    }
}

/// The fish or the fault of each line of a text.
pub fn lines(text: &[u8]) -> Vec<Result<Fish, Fault>> {
    let numbered = text.split_inclusive(|&byte| byte == b'\n').zip(1..);
    numbered
        .map(|(bytes, line)| {
            fish(bytes).map_err(|(column, too_many)| match too_many {
                true => Fault::TooMany { line, column },
                false => Fault::Text { line, column },
            })
        })
        .collect()
}

/// The fish of a file of records, up to the first that is refused.
pub fn records(bytes: &[u8]) -> Vec<Result<Fish, Fault>> {
    let whole = bytes.chunks_exact(4);
    let left_over = !whole.remainder().is_empty();
    let words: Vec<u32> = whole
        .map(|word| u32::from_le_bytes([word[0], word[1], word[2], word[3]]))
        .collect();
    let mut all = Vec::new();
    let mut word = 0;
    let mut buffer = vec![0; MAX_WORDS];
    loop {
        let answer = match words.len() - word {
            0 if left_over => CUT,
            0 => return all,
            _ => {
                let answer = reference::read(&words[word..], &mut buffer);
                if answer.refusal == 0 {
                    let sequence = &buffer[..answer.count as usize];
                    all.push(Ok(Fish::new(answer.id as u16, sequence)));
                    word += answer.used as usize;
                    continue;
                }
                answer.refusal
            }
        };
        all.push(Err(Fault::Record {
            record: all.len() + 1,
            word,
            refusal: answer,
        }));
        return all;
    }
}

/// "Text, if it is valid UTF-8 without control characters other than tab, newline and carriage return."
pub fn is_text(bytes: &[u8]) -> bool {
    let control = |c: char| c.is_control() && !matches!(c, '\t' | '\n' | '\r');
    std::str::from_utf8(bytes).is_ok_and(|text| !text.contains(control))
}

/// The fish and the faults of a file of either form.
pub fn either(bytes: &[u8]) -> Vec<Result<Fish, Fault>> {
    if is_text(bytes) {
        lines(bytes)
    } else {
        records(bytes)
    }
}

/// The first fault of what was read.
pub fn first(read: &[Result<Fish, Fault>]) -> Option<Fault> {
    read.iter().find_map(|fish| fish.as_ref().err().copied())
}
