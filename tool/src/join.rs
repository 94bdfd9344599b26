//! Two typings of the same fish made one record each, and what became of their words.

use crate::failure::{complain, Failure};
use crate::fish::Fish;
use sigxume::{bytes_of_words, merge, read, record_words, words_match, Refusal, Symbol};
use std::collections::{HashMap, HashSet};

/// What is done with a fish that is in one file only.
#[derive(Clone, Copy, Default)]
pub enum TypedOnce {
    #[default]
    Keep,
    LeaveOut,
}

/// A file's name in messages, and its fish.
pub struct Typing {
    pub name: String,
    pub fish: Vec<Fish>,
}

/// What comes of two files.
#[derive(Default)]
pub struct Joined {
    /// The records, one after another.
    pub bytes: Vec<u8>,
    /// How many words of each fish agreed, were filled in, were in conflict, or were called by neither: as CSV.
    pub report: String,
    /// The fish that were joined, as they are now.
    pub fish: Vec<Fish>,
    /// What is said of the fish that are in one file only.
    pub once: Vec<String>,
}

/// Joins every fish of the first file with that of the second which has the same number: first those of the first, in
/// their order, then those that only the second has. Where some cannot be joined, each is named and nothing comes of it.
pub fn join([first, second]: [&Typing; 2], typed_once: TypedOnce) -> Result<Joined, Failure> {
    let [by_first, by_second] = [by_number(first), by_number(second)];
    let (by_first, by_second) = (by_first?, by_second?);
    let mut joined = Joined {
        report: "fish,words,agreed,filled,conflict,uncalled\n".into(),
        ..Joined::default()
    };
    let mut refused = false;
    for fish in &first.fish {
        let Some(other) = by_second.get(&fish.id) else {
            joined.once(fish, &first.name, typed_once)?;
            continue;
        };
        if let Err(refusal) = joined.both(fish, other) {
            let [n, m] = [fish, other].map(|fish| fish.sequence.len());
            let (id, [first, second]) = (fish.id, [first, second].map(|typing| &typing.name));
            complain(&format!(
                "fish {id}: {refusal}: {n} in {first}, {m} in {second}"
            ));
            refused = true;
        }
    }
    for fish in &second.fish {
        if !by_first.contains_key(&fish.id) {
            joined.once(fish, &second.name, typed_once)?;
        }
    }
    if refused {
        return Err(Failure::Quiet);
    }
    Ok(joined)
}

/// The fish of a file by their numbers, if no two have the same; otherwise each such number is named.
fn by_number(typing: &Typing) -> Result<HashMap<u16, &Fish>, Failure> {
    let mut found = HashMap::new();
    let mut again = HashSet::new();
    for fish in &typing.fish {
        if found.insert(fish.id, fish).is_some() && again.insert(fish.id) {
            complain(&format!(
                "{}: fish {} is there more than once",
                typing.name, fish.id
            ));
        }
    }
    if again.is_empty() {
        Ok(found)
    } else {
        Err(Failure::Quiet)
    }
}

impl Joined {
    /// Adds a fish that is in one file only, or leaves it out.
    fn once(&mut self, fish: &Fish, name: &str, typed_once: TypedOnce) -> Result<(), Refusal> {
        let done = match typed_once {
            TypedOnce::Keep => {
                self.bytes.extend(bytes_of_words(&fish.record()?));
                "kept"
            }
            TypedOnce::LeaveOut => "left out",
        };
        self.once
            .push(format!("{done}: fish {} is in {name} only", fish.id));
        Ok(())
    }

    /// Adds two typings of one fish, as the core joins them.
    fn both(&mut self, first: &Fish, second: &Fish) -> Result<(), Refusal> {
        let mut record = vec![0; record_words(first.sequence.len())];
        merge(&first.record()?, &second.record()?, &mut record)?;
        let mut sequence = vec![0; first.sequence.len()];
        read(&record, &mut sequence)?;
        self.bytes.extend(bytes_of_words(&record));
        self.fish.push(Fish::new(first.id, sequence));
        let [agreed, filled, conflict, uncalled] = tally(first, second);
        let (id, words) = (first.id, first.sequence.len());
        self.report += &format!("{id},{words},{agreed},{filled},{conflict},{uncalled}\n");
        Ok(())
    }
}

/// How many words agree, are called by one alone, are called by both but differ, and are called by neither.
fn tally(first: &Fish, second: &Fish) -> [usize; 4] {
    let no_call = Symbol::NoCall.word();
    let mut counts = [0; 4];
    for (&a, &b) in first.sequence.iter().zip(&second.sequence) {
        let kind = match [a, b].map(|word| word == no_call) {
            _ if words_match(a, b) => 0,
            [true, true] => 3,
            [false, false] => 2,
            _ => 1,
        };
        counts[kind] += 1;
    }
    counts
}
