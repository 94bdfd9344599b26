//! Two typings of a fish, and what may follow a record.

use crate::pairs::Pair;
use crate::random::Random;
use crate::reference::{record, replaced};
use crate::retired::{self, spelling};
use crate::samples::{call, sequence, sound_word, NO_CALL};

/// Another typing of a fish: each word as it was, spelled otherwise, not called, or called otherwise.
pub fn retyped(random: &mut Random, words: &[u32]) -> Vec<u32> {
    let retype = |&word: &u32| match random.below(8) {
        0 | 1 => NO_CALL,
        2 => sound_word(random),
        3 | 4 if word != NO_CALL => call(spelling(random, replaced(word) as u16)),
        _ => word,
    };
    words.iter().map(retype).collect()
}

/// Two typings of a fish as sequences, with retired codes in one of two.
pub fn typings(random: &mut Random, length: usize) -> Pair {
    let first = if random.one_in(2) {
        retired::scattered(random, length)
    } else {
        sequence(random, length)
    };
    let second = retyped(random, &first);
    [first, second]
}

/// Two typings of a fish as records.
pub fn typed_twice(random: &mut Random, length: usize) -> Pair {
    let id = random.half();
    typings(random, length).map(|words| record(id, &words))
}

/// Words that may follow a record: none, sound and unsound ones, whole records of the same fish and of another.
pub fn tails(random: &mut Random, id: u16, length: usize) -> Vec<Vec<u32>> {
    let same = typings(random, length).map(|words| record(id, &words));
    vec![
        Vec::new(),
        vec![NO_CALL],
        vec![0],
        sequence(random, 40),
        random.words(3),
        random.words(3_000),
        same.concat(),
        record(id ^ 1, &sequence(random, length)),
        // The same record but for its trailer.
        same[0][..=length].to_vec(),
    ]
}
