//! Fish that were typed twice, and what `join` must make of them, written from its description over words one by one.

use super::expected::Line;
use super::fish::Fish;
use super::typing::warning;
use crate::pairs::shuffled;
use crate::random::Random;
use crate::reference::merging::merged_words;
use crate::reference::{is_no_call, matches, RETIRED};
use crate::samples::{call, NO_CALL};
use std::collections::HashMap;

/// The report begins with this line.
pub const HEADING: &str = "fish,words,agreed,filled,conflict,uncalled\n";

/// What comes of two files: the fish in order, the report and the lines on standard error.
pub struct Joined {
    pub fish: Vec<Fish>,
    pub report: String,
    pub said: Vec<Line>,
}

/// The column of the report in which two words are counted: agreed, filled in, in conflict, called in neither.
fn column(a: u32, b: u32) -> usize {
    match [a, b].map(is_no_call) {
        [true, true] => 3,
        [false, false] if matches(a, b) => 0,
        [false, false] => 2,
        _ => 1,
    }
}

/// What comes of two files by their names, each fish being there once and having equally many words in both.
pub fn joined([first, second]: [(&str, &[Fish]); 2], keep: bool) -> Joined {
    let [in_first, in_second] = [first, second].map(|(_, all)| {
        let numbered = all.iter().map(|fish| (fish.id, fish));
        numbered.collect::<HashMap<u16, &Fish>>()
    });
    let mut due = Joined {
        fish: Vec::new(),
        report: HEADING.into(),
        said: Vec::new(),
    };
    let mut warned = Vec::new();
    let done = if keep { "kept" } else { "left out" };
    let mut once = |fish: &Fish, name: &str, all: &mut Vec<Fish>| {
        let line = format!("sigxume: {done}: fish {} is in {name} only", fish.id);
        due.said.push(Line::Is(line));
        if keep {
            all.push(fish.clone());
        }
    };
    for fish in first.1 {
        let Some(other) = in_second.get(&fish.id) else {
            once(fish, first.0, &mut due.fish);
            continue;
        };
        let words = merged_words(&fish.words, &other.words);
        let pairs = fish.words.iter().zip(&other.words);
        let columns = Vec::from_iter(pairs.map(|(&a, &b)| column(a, b)));
        due.report += &format!("{},{}", fish.id, fish.words.len());
        for column in 0..4 {
            let count = columns.iter().filter(|&&found| found == column).count();
            due.report += &format!(",{count}");
        }
        due.report += "\n";
        let joined = Fish::new(fish.id, &words);
        warned.extend(warning(&joined));
        due.fish.push(joined);
    }
    for fish in second.1 {
        if !in_first.contains_key(&fish.id) {
            once(fish, second.0, &mut due.fish);
        }
    }
    due.said.extend(warned.into_iter().map(Line::Is));
    due
}

/// Two files of typings of the same fish, each fish at most once in each.
pub struct Typings {
    pub first: Vec<Fish>,
    pub second: Vec<Fish>,
}

impl Typings {
    /// Up to so many fish of up to so many words, some in one file only, in any order.
    pub fn any(random: &mut Random, most: usize, longest: usize) -> Self {
        let count = 1 + random.below(most);
        let lengths: Vec<usize> = (0..count).map(|_| random.below(longest + 1)).collect();
        let Self { first, second } = Self::of_lengths(random, &lengths);
        let mut some = |all: Vec<Fish>| {
            let order = shuffled(random, all.len());
            let kept = order.into_iter().filter(|_| !random.one_in(4));
            let kept: Vec<usize> = kept.collect();
            kept.into_iter().map(|at| all[at].clone()).collect()
        };
        Self {
            first: some(first),
            second: some(second),
        }
    }

    /// Fish of these numbers of words, each in both files.
    pub fn of_lengths(random: &mut Random, lengths: &[usize]) -> Self {
        // A step that has no divisor in common with 65,536, so that no number comes twice.
        let start = usize::from(random.half());
        let fish = |(at, &length): (usize, &usize)| {
            let id = (start + at * 4_801) as u16;
            let badly = random.pick(&[2, 5, 20]);
            let words = (0..length).map(|_| two_words(random, badly));
            let (first, second): (Vec<u32>, Vec<u32>) = words.unzip();
            (Fish::new(id, &first), Fish::new(id, &second))
        };
        let (first, second) = lengths.iter().enumerate().map(fish).unzip();
        Self { first, second }
    }
}

/// Two typings of one word: one in so many is a no-call; calls agree, often by retired codes, or differ.
fn two_words(random: &mut Random, badly: usize) -> (u32, u32) {
    let (retired, new) = random.pick(&RETIRED);
    let (other, _) = random.pick(&RETIRED);
    let code = random.below(5) as u16;
    let (a, b) = match random.below(6) {
        0 => (retired, new),
        1 => (new, retired),
        2 => (retired, other),
        3 => (code, random.below(5) as u16),
        _ => (code, code),
    };
    let mut typed = |code| match random.one_in(badly) {
        true => NO_CALL,
        false => call(code),
    };
    (typed(a), typed(b))
}
