//! Retired codes: the replacement of a word, matches, hashes and records of words that carry them, and sequences to
//! compare. 02, U4: "Codes 65,000 to 65,015 stand, in that order, for 11, 14, 14, 27, 30, 52, 52, 52, 101, 118, 240, 241,
//! 300, 512, 777 and 1,024."

use crate::engine::MULTIPLIERS;
use crate::group::Group;
use crate::pairs::{any_pair, related, Pair};
use crate::random::Random;
use crate::reference::{self, record, replaced_words, window_hashes, RETIRED};
use crate::samples::{any_length, call, sequence, unsound_word, NO_CALL};
use sigxume::raw;

/// The codes on either side of the retired ones.
const NEIGHBOURS: [u16; 2] = [64_999, 65_016];

/// The codes that retired ones stand for, each once.
const REPLACEMENTS: [u16; 13] = [11, 14, 27, 30, 52, 101, 118, 240, 241, 300, 512, 777, 1_024];

/// Codes that stand for the same.
const ALIKE: [&[u16]; 2] = [&[65_001, 65_002, 14], &[65_005, 65_006, 65_007, 52]];

/// Every code that a replacement has to do with, those next to it, and two that have nothing to do with it.
pub fn codes() -> Vec<u16> {
    let retired = RETIRED.map(|(retired, _)| retired);
    let near = REPLACEMENTS.iter().flat_map(|&new| [new - 1, new, new + 1]);
    let mut codes: Vec<u16> = near.chain(retired).chain(NEIGHBOURS).collect();
    codes.extend([0, 65_535]);
    codes.sort_unstable();
    codes.dedup();
    codes
}

/// Words with the lower 16 bits of a call that are none: of other kinds, and with each of bits 16 to 29.
fn disguised(code: u16) -> Vec<u32> {
    let low = u32::from(code);
    let kinds = [0, 2, 3].map(|kind| kind << 30 | low);
    let bits = (16..30).map(|bit| call(code) | 1 << bit);
    kinds.into_iter().chain(bits).collect()
}

/// The replacement of a word is the reference's, and its own replacement.
fn compare_replaced(g: &mut Group, word: u32) {
    let found = raw::replaced(word);
    g.equal(
        format_args!("{word:#x}"),
        (found, raw::replaced(found)),
        (reference::replaced(word), found),
    );
}

/// The table by itself; every call, words that only look like retired ones, and random words.
pub fn replaced(g: &mut Group) {
    for (retired, new) in RETIRED {
        let case = format_args!("{retired}");
        g.equal(case, raw::replaced(call(retired)), call(new));
        for word in disguised(retired) {
            g.equal(format_args!("{word:#x}"), raw::replaced(word), word);
        }
    }
    for code in NEIGHBOURS {
        g.equal(
            format_args!("{code}"),
            raw::replaced(call(code)),
            call(code),
        );
    }
    for code in 0..=u16::MAX {
        compare_replaced(g, call(code));
    }
    for _ in 0..200_000 {
        let word = match g.random.below(3) {
            0 => unsound_word(&mut g.random),
            1 => call(65_000 + g.random.below(16) as u16) ^ g.random.bit(),
            _ => g.random.word(),
        };
        compare_replaced(g, word);
    }
    compare_replaced(g, NO_CALL);
}

/// Each retired code against each replacement, each other one and their neighbours; those that share a replacement;
/// and words with their lower bits that are no calls.
pub fn matches(g: &mut Group) {
    for (at, (retired, _)) in RETIRED.into_iter().enumerate() {
        for new in REPLACEMENTS {
            let due = RETIRED[at].1 == new;
            let case = format_args!("{retired} and {new}");
            let [a, b] = [retired, new].map(call);
            g.equal(case, [raw::matches(a, b), raw::matches(b, a)], [due; 2]);
        }
        for code in NEIGHBOURS {
            let case = format_args!("{retired} and {code}");
            g.equal(case, raw::matches(call(retired), call(code)), false);
        }
    }
    for codes in ALIKE {
        for &a in codes {
            for &b in codes {
                let case = format_args!("{a} and {b}");
                g.equal(case, raw::matches(call(a), call(b)), true);
            }
        }
    }
    let codes = codes();
    for &a in &codes {
        for &b in &codes {
            let due = reference::matches(call(a), call(b));
            let case = format_args!("codes {a} and {b}");
            g.equal(case, raw::matches(call(a), call(b)), due);
        }
        for word in disguised(a) {
            for &b in &codes {
                let (a, b) = (word, call(b));
                let case = format_args!("{a:#x} and {b:#x}");
                g.equal(case, [raw::matches(a, b), raw::matches(b, a)], [false; 2]);
            }
            g.equal(format_args!("{word:#x}"), raw::matches(word, word), false);
        }
    }
}

/// A sequence of which a third of the words are calls of retired codes and of those that they stand for.
pub fn scattered(random: &mut Random, length: usize) -> Vec<u32> {
    let mut words = sequence(random, length);
    for word in &mut words {
        if random.one_in(3) {
            let (_, new) = random.pick(&RETIRED);
            *word = call(spelling(random, new));
        }
    }
    words
}

/// A code that is not retired as it may stand in a file: itself, and each retired one that stands for it.
pub fn spellings(new: u16) -> Vec<u16> {
    let mut all = vec![new];
    all.extend(RETIRED.iter().filter(|row| row.1 == new).map(|row| row.0));
    all
}

/// One of them.
pub fn spelling(random: &mut Random, new: u16) -> u16 {
    random.pick(&spellings(new))
}

/// The same words with a third of their codes exchanged for those that retired ones stand for, each spelled one way or
/// another. Words that matched still do.
fn aged(random: &mut Random, words: &[u32]) -> Vec<u32> {
    let age = |&word: &u32| {
        let code = word as u16;
        if word == NO_CALL || code % 3 != 1 {
            word
        } else {
            let (_, new) = RETIRED[usize::from(code) * 5 % RETIRED.len()];
            call(spelling(random, new))
        }
    };
    words.iter().map(age).collect()
}

/// A pair over few codes with retired ones among them, of up to `longest` words a side.
pub fn any_retired(random: &mut Random, longest: usize) -> Pair {
    let codes = random.pick(&[1, 2, 3, 4, 7, 10]);
    let pair = any_pair(random, longest, codes);
    pair.map(|words| aged(random, &words))
}

/// A pair as `any_pair` has it, every fourth with retired codes.
pub fn mixed_pair(random: &mut Random, longest: usize, codes: u16) -> Pair {
    if random.one_in(4) {
        any_retired(random, longest)
    } else {
        any_pair(random, longest, codes)
    }
}

/// A related pair with retired codes.
pub fn related_retired(random: &mut Random, length: usize, codes: u16) -> Pair {
    let pair = related(random, length, codes);
    pair.map(|words| aged(random, &words))
}

/// The list of hashes of words with retired codes: that of the replaced words, whichever way it is asked for.
pub fn hashes(g: &mut Group) {
    let known = [65_000, 11, 64_999, 65_005].map(call);
    // By hand: 10 w0 + w1, modulo 2^32, of the calls of 11, 11, 64,999 and 52.
    let mut buffer = [0; 3];
    raw::hash_list(&known, 10, 2, &mut buffer);
    g.equal(
        format_args!("65000 11 64999 65005"),
        buffer,
        [3_221_225_593, 3_221_290_581, 3_221_875_514],
    );
    for number in 0..2_000 {
        let length = any_length(&mut g.random);
        let words = scattered(&mut g.random, length);
        let window = 1 + g.random.below(20);
        let multiplier = match g.random.below(2) {
            0 => g.random.pick(&MULTIPLIERS),
            _ => g.random.word(),
        };
        let list = |words: &[u32]| {
            let mut buffer = vec![0; (length + 1).saturating_sub(window)];
            raw::hash_list(words, multiplier, window as u32, &mut buffer);
            buffer
        };
        let found = [list(&words), list(&replaced_words(&words))];
        let due = window_hashes(&words, multiplier, window);
        let case =
            format_args!("{number}: {length} words, multiplier {multiplier}, window {window}");
        g.equal(case, found, [due.clone(), due]);
    }
}

/// "Strips are still read and written unreplaced": a record of words with retired codes keeps every one of them.
pub fn records(g: &mut Group) {
    for number in 0..500 {
        let length = any_length(&mut g.random);
        let words = scattered(&mut g.random, length);
        let id = g.random.half();
        let mut written = vec![0; length + 2];
        raw::write(id, &words, &mut written);
        let case = format_args!("{number}: write {length} words");
        g.equal(case, &written, &record(id, &words));
        let mut read = vec![0; length];
        raw::read(&written, &mut read);
        g.equal(format_args!("{number}: read {length} words"), read, words);
    }
}
