//! Sequences as short text: codes, `-` for a no-call, `x` and a number after what is repeated, and
//! parentheses. `1x40 2 (3 -)x5` has 40 calls of code 1, one of code 2, and code 3 and a no-call five times.

use crate::samples::{call, NO_CALL};
use std::iter::Peekable;
use std::str::Chars;

/// The longest repeated block that is looked for in words.
const LONGEST: usize = 64;

/// The number that comes next.
fn number(text: &mut Peekable<Chars>) -> Result<u32, String> {
    let mut digits = String::new();
    while let Some(digit) = text.next_if(char::is_ascii_digit) {
        digits.push(digit);
    }
    digits
        .parse()
        .map_err(|_| "a number is missing".to_string())
}

/// The words up to the end or to a parenthesis that closes.
fn words_of(text: &mut Peekable<Chars>) -> Result<Vec<u32>, String> {
    let mut words = Vec::new();
    while let Some(&next) = text.peek() {
        let item = match next {
            ')' => break,
            '(' => {
                text.next();
                let inner = words_of(text)?;
                text.next_if_eq(&')').ok_or("a parenthesis is open")?;
                inner
            }
            '-' => {
                text.next();
                vec![NO_CALL]
            }
            '0'..='9' => {
                let code = u16::try_from(number(text)?).map_err(|error| error.to_string())?;
                vec![call(code)]
            }
            _ if next.is_whitespace() => {
                text.next();
                continue;
            }
            _ => return Err(format!("{next:?} stands for nothing")),
        };
        let times = match text.next_if_eq(&'x') {
            Some(_) => number(text)?,
            None => 1,
        };
        words.extend(item.repeat(times as usize));
    }
    Ok(words)
}

/// The words of a text.
pub fn parse(text: &str) -> Result<Vec<u32>, String> {
    let mut rest = text.chars().peekable();
    let words = words_of(&mut rest)?;
    match rest.next() {
        None => Ok(words),
        Some(_) => Err("a parenthesis closes nothing".to_string()),
    }
}

/// How often the first `period` words stand at the start, one time after another.
fn repeats(words: &[u32], period: usize) -> usize {
    let again = words.iter().zip(&words[period..]);
    1 + again.take_while(|(a, b)| a == b).count() / period
}

/// A text of which these are the words.
pub fn shown(words: &[u32]) -> String {
    let mut items = Vec::new();
    let mut rest = words;
    while let Some(&word) = rest.first() {
        let periods = 1..=LONGEST.min(rest.len());
        let repeated = periods.map(|period| (period, repeats(rest, period)));
        // Of those that go equally far the shortest is the last.
        let farthest = repeated
            .filter(|&(period, times)| times > if period == 1 { 1 } else { 2 })
            .rev()
            .max_by_key(|(period, times)| period * times);
        let (period, times) = farthest.unwrap_or((1, 1));
        let mut item = match word {
            _ if period > 1 => format!("({})", shown(&rest[..period])),
            NO_CALL => "-".to_string(),
            _ => (word & 0xFFFF).to_string(),
        };
        if times > 1 {
            item += &format!("x{times}");
        }
        items.push(item);
        rest = &rest[period * times..];
    }
    items.join(" ")
}
