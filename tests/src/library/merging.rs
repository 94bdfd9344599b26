//! The library's merging, and its count of no-calls.

use super::{expected, lent, numbered};
use crate::group::Group;
use crate::merge::typings::typed_twice;
use crate::records::faults::mutated;
use crate::reference::merging;
use crate::samples::{any_length, call, sequence, unsound_word, NO_CALL};
use sigxume::{merge, no_calls, record_words, records};

/// Merging, accepted and refused, with buffers around the size that the library names; what is accepted reads as one
/// record.
pub fn merges(g: &mut Group) {
    for number in 0..6_000 {
        let random = &mut g.random;
        let length = any_length(random);
        let mut pair = typed_twice(random, length);
        if random.one_in(4) {
            pair = pair.map(|words| mutated(random, words));
        }
        if random.one_in(8) {
            let other = any_length(random);
            let at = random.below(2);
            pair[at] = typed_twice(random, other)[0].clone();
        }
        let [first, second] = pair;
        let mut buffer = lent(random, record_words(length));
        let mut left = buffer.clone();
        let answer = merging::merge(&first, &second, &mut left);
        let case = format_args!("typings {number}, {length} words");
        let result = numbered(merge(&first, &second, &mut buffer));
        let due = expected(answer.refusal, answer.count as usize);
        g.equal(case, result, due);
        if let Ok(count) = due {
            let rows = records(&buffer[..count]).map(|entry| entry.map(|it| it.sequence.len()));
            g.equal(case, Vec::from_iter(rows), vec![Ok(count - 2)]);
        }
        g.equal(case, &buffer, &left);
    }
}

/// How many words are no-calls: as many as were put in, whatever the other words are.
pub fn counted(g: &mut Group) {
    for number in 0..3_000 {
        let random = &mut g.random;
        let length = any_length(random);
        let mut words = sequence(random, length);
        let mut due = 0;
        for word in &mut words {
            let none = random.one_in(3);
            due += usize::from(none);
            *word = match none {
                true => NO_CALL,
                false if random.one_in(9) => unsound_word(random),
                false => call(*word as u16),
            };
        }
        let case = format_args!("sequence {number}, {length} words");
        g.equal(case, no_calls(&words), due);
    }
}
