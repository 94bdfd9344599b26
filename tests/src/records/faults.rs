//! Records with something wrong, for reading and for merging.

use crate::random::Random;
use crate::reference::{header, record, sealed, trailer, CUT, HEADER, MAX_WORDS, TRAILER, UNSOUND};
use crate::samples::{sequence, sound_word, unsound_word};

/// A random record of a length.
pub fn random_record(random: &mut Random, length: usize) -> Vec<u32> {
    let id = random.half();
    record(id, &sequence(random, length))
}

/// A damaged record with the trailer that it had, and with the right one of its words.
pub fn both_trailers(damaged: Vec<u32>) -> [Vec<u32>; 2] {
    let words = damaged[..damaged.len() - 1].to_vec();
    [damaged, sealed(words)]
}

/// Words that are not the right trailer: sums off by one, other kinds, a bit flipped.
pub fn wrong_trailers(right: u32) -> Vec<u32> {
    let of_kind = |kind: u32, sum: u32| kind << 30 | (sum & 0x3FFF_FFFF);
    let (above, below) = (right.wrapping_add(1), right.wrapping_sub(1));
    let mut wrong = vec![of_kind(3, above), of_kind(3, below), above, below];
    wrong.extend((0..3).map(|kind| of_kind(kind, right)));
    wrong.extend((0..32).map(|bit| right ^ 1 << bit));
    wrong
}

/// What is due for each fault of a record, in the order of checks: kind and count of the first word, cut, unsound,
/// trailer.
pub const RECORD_FAULTS: [u32; 5] = [HEADER, HEADER, CUT, UNSOUND, TRAILER];

/// A record with these faults; its header has the count, unless that is a fault.
pub fn faulty_record(random: &mut Random, id: u16, count: usize, faults: [bool; 5]) -> Vec<u32> {
    let [kind, large, cut, unsound, wrong] = faults;
    let count = if large {
        random.pick(&[MAX_WORDS + 1, MAX_WORDS + 2, 16_383])
    } else {
        count
    };
    let kept = if cut {
        2 + random.below(count)
    } else {
        count + 2
    };
    let mut words = vec![header(id, count)];
    words.extend(sequence(random, count));
    if kind {
        words[0] |= (1 + random.below(3) as u32) << 30;
    }
    if unsound {
        words[1 + random.below(kept.min(count + 1) - 1)] = unsound_word(random);
    }
    let mut src = sealed(words);
    if wrong {
        src[count + 1] ^= random.bit();
    }
    src.truncate(kept);
    src
}

/// Changes words in one of many ways.
fn mutate(random: &mut Random, words: &mut Vec<u32>) {
    if words.is_empty() {
        words.push(random.word());
    }
    let (at, other) = (random.below(words.len()), random.below(words.len()));
    match random.below(9) {
        0 => words[at] ^= random.bit(),
        1 => words[at] = random.word(),
        2 => words[at] = unsound_word(random),
        3 => words[at] = sound_word(random),
        4 => words[at] = header(random.half(), random.below(64)),
        5 => words.swap(at, other),
        6 => words.insert(at, words[other]),
        7 => drop(words.remove(at)),
        _ => words.truncate(at),
    }
}

/// A right record after up to three such changes; half of them get the trailer of their new words.
pub fn mutated(random: &mut Random, mut words: Vec<u32>) -> Vec<u32> {
    for _ in 0..random.below(4) {
        mutate(random, &mut words);
    }
    let end = words.first().map_or(0, |&h| (h & 0x3FFF) as usize + 1);
    if random.one_in(2) && end < words.len() {
        words[end] = trailer(&words[..end]);
    }
    words
}
