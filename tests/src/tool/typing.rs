//! How well fish were typed, by their words one by one: the no-calls, and what is said of a fish with few calls.

use super::expected::Line;
use super::fish::Fish;
use crate::samples::NO_CALL;

pub fn no_calls(fish: &Fish) -> usize {
    fish.words.iter().filter(|&&word| word == NO_CALL).count()
}

/// How much of a fish is called, as messages have it.
pub fn called(fish: &Fish) -> String {
    let words = fish.words.len();
    let calls = words - no_calls(fish);
    format!("fish {} has {calls} of {words} words called", fish.id)
}

/// What is said of a fish that is compared, if it has more no-calls than calls.
pub fn warning(fish: &Fish) -> Option<String> {
    let bad = no_calls(fish) > fish.words.len() - no_calls(fish);
    let called = called(fish);
    bad.then(|| {
        format!("sigxume: warning: {called}: a fish typed so badly looks unrelated to every other")
    })
}

/// Lines of standard error of which each is said once.
pub fn said(lines: impl IntoIterator<Item = String>) -> Vec<Line> {
    let mut once: Vec<String> = Vec::new();
    for line in lines {
        if !once.contains(&line) {
            once.push(line);
        }
    }
    once.into_iter().map(Line::Is).collect()
}

/// What is said of these fish, which are compared.
pub fn warnings<'a>(compared: impl IntoIterator<Item = &'a Fish>) -> Vec<Line> {
    said(compared.into_iter().filter_map(warning))
}
