//! The benchmark's baselines against the reference, and the text in which it writes sequences.

use crate::benchmark::{merging, runs};
use crate::group::Group;
use crate::known::Letters;
use crate::merge::typings::typed_twice;
use crate::pairs::any_pair;
use crate::records::faults::mutated;
use crate::reference::{self, tiling};
use crate::samples::{any_length, call, NO_CALL};
use crate::tuned;
use crate::wise;

/// The port of Wise's program lays the tiles of the literal tiling, in the same order, whatever its
/// first search length.
pub fn wise_random(g: &mut Group) {
    for _ in 0..10_000 {
        let codes = g.random.pick(&[1, 2, 2, 3, 4, 10]);
        let longest = g.random.pick(&[8, 20, 60]);
        let [first, second] = &any_pair(&mut g.random, longest, codes);
        let minimum = g.random.pick(&[1, 1, 2, 3, 5]);
        let start = minimum + g.random.below(30);
        let (tiles, _) = wise::tiling(first, second, minimum, start);
        g.equal(
            format_args!(
                "{} and {}, minimum {minimum}, first search length {start}",
                Letters(first),
                Letters(second)
            ),
            tiles,
            tiling(first, second, minimum),
        );
    }
}

/// The port of Wise's tuned tiling lays them too.
pub fn tuned_random(g: &mut Group) {
    for _ in 0..10_000 {
        let codes = g.random.pick(&[1, 2, 2, 3, 4, 10]);
        let longest = g.random.pick(&[8, 20, 60, 60, 150]);
        let [first, second] = &any_pair(&mut g.random, longest, codes);
        let minimum = g.random.pick(&[1, 1, 2, 3, 5, 8]);
        g.equal(
            format_args!(
                "{} and {}, minimum {minimum}",
                Letters(first),
                Letters(second)
            ),
            tuned::tiling(first, second, minimum),
            tiling(first, second, minimum),
        );
    }
}

/// The loop that merges does what the reference does, refusals included.
pub fn merging_loop(g: &mut Group) {
    for number in 0..10_000 {
        let random = &mut g.random;
        let length = any_length(random);
        let mut pair = typed_twice(random, length);
        if random.one_in(2) {
            pair = pair.map(|words| mutated(random, words));
        }
        let [first, second] = &pair;
        let room = random.pick(&[length + 1, length + 2, length + 2, length + 9]);
        g.lend(
            format_args!("typings {number}, {length} words, room {room}"),
            [room],
            None,
            |[buffer]| merging::merge(first, second, buffer),
            |[buffer]| reference::merging::merge(first, second, buffer),
        );
    }
}

/// The text of a sequence has its words, and what is no such text is refused.
pub fn texts(g: &mut Group) {
    for _ in 0..2_000 {
        let codes = g.random.pick(&[1, 2, 3, 10]);
        let [words, _] = any_pair(&mut g.random, 200, codes);
        let text = runs::shown(&words);
        g.equal(format_args!("{text:?}"), runs::parse(&text), Ok(words));
    }
    let known = runs::parse("1x3 (2 -)x2");
    let words = [
        call(1),
        call(1),
        call(1),
        call(2),
        NO_CALL,
        call(2),
        NO_CALL,
    ];
    g.equal(
        format_args!("the words of a text"),
        known,
        Ok(words.to_vec()),
    );
    for text in ["(1", "1)", "1x", "a", "65536"] {
        g.equal(format_args!("{text:?}"), runs::parse(text).is_err(), true);
    }
}
