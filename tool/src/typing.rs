//! How well fish were typed: what is said of those with few calls, and which are left out.

use crate::failure::complain;
use crate::fish::Fish;
use std::collections::HashSet;

/// Says of each fish that is compared, once, if less than half of its words are called. A fish without words is not badly
/// typed.
pub fn warn<'a>(compared: impl IntoIterator<Item = &'a Fish>) {
    let mut said = HashSet::new();
    for fish in compared.into_iter().filter(|fish| is_bad(fish)) {
        let called = called(fish);
        if said.insert(called.clone()) {
            complain(&format!(
                "warning: {called}: a fish typed so badly looks unrelated to every other"
            ));
        }
    }
}

/// Whether less than half of the words are called.
pub fn is_bad(fish: &Fish) -> bool {
    2 * fish.calls() < fish.sequence.len()
}

/// The fish of which at least so many per cent of the words are called; the others are named. A fish without words stays.
pub fn leave_out(mut fish: Vec<Fish>, percent: usize) -> Vec<Fish> {
    fish.retain(|fish| {
        let stays = 100 * fish.calls() >= percent * fish.sequence.len();
        if !stays {
            complain(&format!("left out: {}", called(fish)));
        }
        stays
    });
    fish
}

fn called(fish: &Fish) -> String {
    let Fish { id, sequence, .. } = fish;
    let (calls, words) = (fish.calls(), sequence.len());
    format!("fish {id} has {calls} of {words} words called")
}
