//! Words, sequences, buffer sizes and combinations of faults that several groups use.

use crate::pairs::Pair;
use crate::random::Random;
use crate::reference;

/// The no-call.
pub const NO_CALL: u32 = 2 << 30;

/// Words that are neither call nor no-call: kind 0, calls and no-calls with a further bit, kind 3.
pub const UNSOUND_WORDS: [u32; 14] = [
    0,
    1,
    0x3FFF_FFFF,
    0x4001_0000,
    0x4001_0001,
    0x6000_0000,
    0x7FFF_FFFF,
    0x8000_0001,
    0x8001_0000,
    0xA000_0000,
    0xBFFF_FFFF,
    0xC000_0000,
    0xC000_0001,
    0xFFFF_FFFF,
];

/// Ids at their ends, and two others.
pub fn ids(random: &mut Random) -> [u16; 5] {
    [0, 1, 65_535, random.half(), random.half()]
}

/// The call of a code.
pub fn call(code: u16) -> u32 {
    1 << 30 | u32::from(code)
}

/// A call or a no-call.
pub fn sound_word(random: &mut Random) -> u32 {
    if random.one_in(8) {
        NO_CALL
    } else {
        call(random.half())
    }
}

/// A word that is neither.
pub fn unsound_word(random: &mut Random) -> u32 {
    loop {
        let word = match random.below(3) {
            0 => random.pick(&UNSOUND_WORDS),
            1 => sound_word(random) ^ random.bit(),
            _ => random.word(),
        };
        if !reference::is_sound(word) {
            return word;
        }
    }
}

/// A sound sequence of any length.
pub fn sequence(random: &mut Random, length: usize) -> Vec<u32> {
    (0..length).map(|_| sound_word(random)).collect()
}

/// A sequence of a length, or one past the limit, with or without an unsound word.
pub fn faulty(random: &mut Random, length: usize, long: bool, unsound: bool) -> Vec<u32> {
    let length = if long {
        reference::MAX_WORDS + 1 + random.below(20)
    } else {
        length
    };
    let mut words = sequence(random, length);
    if unsound {
        words[random.below(length)] = unsound_word(random);
    }
    words
}

/// A pair of which the first side, the second or both are too long, and one or both have an unsound
/// word; or neither. The first has the length, where it is not too long.
pub fn faulty_pair(random: &mut Random, length: usize, long: bool, unsound: bool) -> Pair {
    let sides = [[true, false], [false, true], [true, true]];
    let (of_long, of_unsound) = (random.pick(&sides), random.pick(&sides));
    let lengths = [length, 2 + random.below(60)];
    [0, 1].map(|i| {
        let (long, unsound) = (long && of_long[i], unsound && of_unsound[i]);
        faulty(random, lengths[i], long, unsound)
    })
}

/// Positions of a sequence, each with unsound words to put there: a random one, and in a short
/// sequence every one of the table.
pub fn damages(random: &mut Random, length: usize) -> Vec<(usize, u32)> {
    let table: &[u32] = if length <= 20 { &UNSOUND_WORDS } else { &[] };
    let mut damages = Vec::new();
    for at in 0..length {
        damages.extend(table.iter().map(|&word| (at, word)));
        damages.push((at, unsound_word(random)));
    }
    damages
}

/// A copy with one word replaced.
pub fn with(words: &[u32], at: usize, word: u32) -> Vec<u32> {
    let mut words = words.to_vec();
    words[at] = word;
    words
}

/// A length that is mostly short and seldom up to 2,048.
pub fn any_length(random: &mut Random) -> usize {
    let limit = random.pick(&[4, 16, 16, 64, 64, 64, 300, reference::MAX_WORDS + 1]);
    random.below(limit)
}

/// Buffer sizes around what is needed: empty, one short, exact, longer.
pub fn rooms(needed: usize) -> Vec<usize> {
    let mut rooms = vec![
        0,
        needed.saturating_sub(1),
        needed,
        needed + 1,
        needed + 100,
    ];
    rooms.dedup();
    rooms
}

/// A buffer size for a number of words, of which there is at least one: too short, or exact or longer.
pub fn some_room(random: &mut Random, needed: usize, short: bool) -> usize {
    if short {
        random.pick(&[0, needed / 2, needed - 1])
    } else {
        needed + random.below(3)
    }
}

/// What buffers may have held before, other than random words: these words over and over, each list
/// with its name. None is empty, the pair itself having a no-call after it.
pub fn fills(pair: &Pair) -> [(&'static str, Vec<u32>); 8] {
    [
        ("zeros", vec![0]),
        ("ones", vec![1]),
        ("the largest number", vec![u32::MAX]),
        ("2,048", vec![2_048]),
        ("small numbers", vec![0, 1, 2, 3, 5, 8, 13, 21, 34]),
        ("calls", [1, 2, 3].map(call).to_vec()),
        ("no-calls", vec![NO_CALL]),
        ("the pair", [&pair.concat()[..], &[NO_CALL]].concat()),
    ]
}

/// The orders of three.
pub const ORDERS: [[usize; 3]; 6] = [
    [0, 1, 2],
    [0, 2, 1],
    [1, 0, 2],
    [1, 2, 0],
    [2, 0, 1],
    [2, 1, 0],
];

/// The number that is due: that of the first cause that holds, or 0 where none does.
pub fn due(causes: impl IntoIterator<Item = (bool, u32)>) -> u32 {
    let first = causes.into_iter().find(|&(holds, _)| holds);
    first.map_or(0, |(_, number)| number)
}

/// Every set of causes at once, with the number that is due; `numbers` are in the order of checks.
pub fn fault_sets<const N: usize>(numbers: [u32; N]) -> impl Iterator<Item = ([bool; N], u32)> {
    (0..1_usize << N).map(move |set| {
        let faults = std::array::from_fn(|i| set >> i & 1 == 1);
        (faults, due(faults.into_iter().zip(numbers)))
    })
}
