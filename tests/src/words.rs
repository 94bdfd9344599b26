//! The match of two words, and sound sequences.

use crate::group::Group;
use crate::random::Random;
use crate::reference;
use crate::samples::{
    call, damages, sequence, sound_word, unsound_word, with, NO_CALL, UNSOUND_WORDS,
};
use sigxume::raw;

/// The first and the last word of each kind, of the calls and of what is next to them.
const ENDS: [u32; 11] = [
    0,
    0x3FFF_FFFF,
    0x4000_0000,
    0x4000_FFFF,
    0x4001_0000,
    0x4001_FFFF,
    0x7FFF_FFFF,
    0x8000_0000,
    0x8000_0001,
    0xC000_0000,
    0xFFFF_FFFF,
];

/// Words around each boundary of a kind and of a field, with these ends and the unsound words of the samples.
fn boundary_words() -> Vec<u32> {
    let boundaries: [u32; 13] = [
        0,
        1 << 14,
        1 << 16,
        1 << 29,
        1 << 30,
        (1 << 30) + (1 << 16),
        (1 << 30) + (1 << 17),
        (1 << 30) + (1 << 29),
        1 << 31,
        (1 << 31) + (1 << 16),
        (1 << 31) + (1 << 29),
        3 << 30,
        (3 << 30) + (1 << 16),
    ];
    let around = |at: u32| [at.wrapping_sub(1), at, at + 1];
    let mut words: Vec<u32> = boundaries.into_iter().flat_map(around).collect();
    words.extend(ENDS);
    words.extend(UNSOUND_WORDS);
    words.sort_unstable();
    words.dedup();
    words
}

/// Compares the match of two words, in both orders.
fn compare_match(g: &mut Group, a: u32, b: u32) {
    for (a, b) in [(a, b), (b, a)] {
        g.equal(
            format_args!("{a:#x} and {b:#x}"),
            raw::matches(a, b),
            reference::matches(a, b),
        );
    }
}

/// Every pair of boundary words.
pub fn match_boundaries(g: &mut Group) {
    let words = boundary_words();
    for &a in &words {
        for &b in &words {
            compare_match(g, a, b);
        }
    }
}

/// Every code: a call matches itself, not the next code, and nothing that differs from it in a bit.
pub fn match_codes(g: &mut Group) {
    for code in 0..=u16::MAX {
        let word = call(code);
        g.equal(format_args!("code {code}"), raw::matches(word, word), true);
        compare_match(g, word, call(code.wrapping_add(1)));
        compare_match(g, word, NO_CALL);
        for bit in 0..32 {
            compare_match(g, word, word ^ 1 << bit);
        }
    }
}

/// A word for a random pair: sound, unsound or of few codes.
fn any_word(random: &mut Random) -> u32 {
    match random.below(4) {
        0 => unsound_word(random),
        1 => sound_word(random),
        _ => call(random.below(3) as u16),
    }
}

/// Random pairs, half of them equal words and a quarter a bit apart.
pub fn match_random(g: &mut Group) {
    for _ in 0..500_000 {
        let a = any_word(&mut g.random);
        let b = match g.random.below(4) {
            0 => any_word(&mut g.random),
            1 => a ^ g.random.bit(),
            _ => a,
        };
        compare_match(g, a, b);
    }
}

/// Millions of pairs that differ in up to three bits, so that many match and the others nearly do.
pub fn match_few_bits(g: &mut Group) {
    for _ in 0..3_000_000 {
        let random = &mut g.random;
        let a = match random.below(4) {
            0 => random.word(),
            1 => random.pick(&ENDS),
            _ => any_word(random),
        };
        let b = (0..random.below(4)).fold(a, |word, _| word ^ random.bit());
        compare_match(g, a, b);
    }
}

/// Single words: the boundary words, every call, and random words.
pub fn sound_words(g: &mut Group) {
    let mut words = boundary_words();
    words.extend((0..=u16::MAX).map(call));
    words.extend((0..100_000).map(|_| any_word(&mut g.random)));
    words.extend(g.random.words(100_000));
    for word in words {
        g.equal(
            format_args!("{word:#x}"),
            raw::all_sound(&[word]),
            reference::is_sound(word),
        );
    }
    for word in UNSOUND_WORDS {
        g.equal(format_args!("{word:#x}"), raw::all_sound(&[word]), false);
    }
}

/// Whole sequences, sound or with one unsound word at each position.
pub fn sound_sequences(g: &mut Group) {
    let both = |words: &[u32]| [raw::all_sound(words), reference::all_sound(words)];
    for length in [0, 1, 2, 20, 2_047, 2_048, 2_049, 10_000] {
        let sound = sequence(&mut g.random, length);
        g.equal(format_args!("{length} words"), both(&sound), [true; 2]);
        for (at, bad) in damages(&mut g.random, length) {
            let case = format_args!("{length} words, {bad:#x} at {at}");
            g.equal(case, both(&with(&sound, at, bad)), [false; 2]);
        }
    }
}
