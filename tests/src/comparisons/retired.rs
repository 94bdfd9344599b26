//! Pairs with retired codes: words match whose replaced codes are equal, and the words as handed in choose the pattern.

use super::{compare, engines, expect, listed, turned_back};
use crate::group::Group;
use crate::known::Letters;
use crate::pairs::both_orders;
use crate::random::Random;
use crate::reference::{
    exchanged, first_is_pattern, pattern_tiling, replaced_words, Tile, MAX_WORDS, RETIRED,
};
use crate::retired::{any_retired, related_retired};
use crate::samples::{call, NO_CALL};
use crate::wise;

/// Pairs whose tiles are known by hand.
pub fn known(g: &mut Group) {
    let words = |codes: &[u16]| -> Vec<u32> { codes.iter().map(|&code| call(code)).collect() };
    // [65000 12] and [12 11]: the second is the pattern, by its word as handed in; its first word is covered first.
    let rows: [(&[u16], &[u16], u32, &[[usize; 3]]); 6] = [
        (&[65_000, 12], &[12, 11], 1, &[[1, 0, 1], [0, 1, 1]]),
        (&[11, 12], &[12, 11], 1, &[[0, 1, 1], [1, 0, 1]]),
        (&[65_000], &[11], 1, &[[0, 0, 1]]),
        (&[65_001, 65_005], &[65_002, 65_007], 2, &[[0, 0, 2]]),
        (&[64_999, 65_016], &[65_000, 65_015], 1, &[]),
        (
            &[1, 65_000, 65_001, 52],
            &[11, 65_002, 65_007],
            3,
            &[[1, 0, 3]],
        ),
    ];
    for (first, second, minimum, tiles) in rows {
        let pair = [words(first), words(second)];
        let tiles = Vec::from_iter(tiles.iter().map(|&tile| Tile::from(tile)));
        let case = format_args!("{first:?} and {second:?}, minimum {minimum}");
        let [straight, crossed] = both_orders(&pair);
        expect(g, case, straight, minimum, &tiles);
        expect(g, case, crossed, minimum, &exchanged(tiles));
    }
    // Every retired code in a row against what they stand for, alone and with a no-call between.
    let old = RETIRED.map(|(retired, _)| call(retired)).to_vec();
    let new = RETIRED.map(|(_, new)| call(new)).to_vec();
    let whole = [Tile::from([0, 0, RETIRED.len()])];
    let all = RETIRED.len() as u32;
    expect(g, format_args!("all"), [&old, &new], all, &whole);
    let broken = [&old[..], &[NO_CALL], &old].concat();
    compare(g, format_args!("all, twice"), [&broken, &new], 1);
}

/// Random pairs in which a third of the words are retired codes or those that they stand for, of up to 2,048 words; and
/// the same exchanged.
pub fn random(g: &mut Group) {
    for number in 0..6_000 {
        let longest = g.random.pick(&[4, 12, 40]);
        let pair = any_retired(&mut g.random, longest);
        let minimum = g.random.pick(&[1, 1, 2, 3, 5, 9]);
        let [first, second] = pair.each_ref().map(|words| Letters(words));
        let case = format_args!("{number}: {first} and {second}, minimum {minimum}");
        for sides in both_orders(&pair) {
            compare(g, case, sides, minimum);
        }
        let [sides, _] = both_orders(&pair);
        let [one, other, _] = engines(&mut g.random, sides, minimum);
        let case = format_args!("exchange of {number}: {first} and {second}, minimum {minimum}");
        let back = turned_back(other, sides, minimum);
        g.equal(case, back, listed(one, sides, minimum));
    }
    for length in [300, 1_000, MAX_WORDS] {
        for codes in [10, 40, 500] {
            let pair = related_retired(&mut g.random, length, codes);
            let [sides, _] = both_orders(&pair);
            let case = format_args!("{length} words of {codes} codes");
            compare(g, case, sides, 8);
        }
    }
}

/// "An outside comparison runs on strands replaced beforehand, except for the choice of pattern": the tiles of the pattern
/// and the text that the words as handed in choose, by a tiling that knows no retired code.
fn outside(
    [first, second]: [&[u32]; 2],
    tiling: impl Fn(&[u32], &[u32]) -> Vec<Tile>,
) -> Vec<Tile> {
    let [one, other] = [first, second].map(replaced_words);
    if first_is_pattern(first, second) {
        tiling(&one, &other)
    } else {
        exchanged(tiling(&other, &one))
    }
}

/// Outside comparisons: the port of Wise's program, which compares whole words, and the literal tiling, each of words that
/// were replaced beforehand and so have no retired code. Each engine lists the same tiles of the words as handed in.
pub fn outside_comparison(g: &mut Group) {
    let small = |random: &mut Random| {
        let longest = random.pick(&[8, 30, 60]);
        (any_retired(random, longest), random.pick(&[1, 1, 2, 3, 5]))
    };
    let large = |random: &mut Random| {
        let length = random.pick(&[500, MAX_WORDS]);
        (related_retired(random, length, 500), 8)
    };
    for number in 0..3_000 {
        let random = &mut g.random;
        let (pair, minimum) = if number % 100 == 0 {
            large(random)
        } else {
            small(random)
        };
        let start = minimum as usize + random.below(30);
        let [sides, _] = both_orders(&pair);
        let port = |pattern: &[u32], text: &[u32]| {
            wise::pattern_tiling(pattern, text, minimum as usize, start).0
        };
        let due = outside(sides, port);
        let lengths = sides.map(<[u32]>::len);
        for engine in engines(&mut g.random, sides, minimum) {
            let case = format_args!("{number}: {engine}: {lengths:?} words, minimum {minimum}");
            let (_, tiles) = listed(engine, sides, minimum);
            g.equal(case, &tiles, &due);
        }
        if number % 100 != 0 {
            let literal =
                |pattern: &[u32], text: &[u32]| pattern_tiling(pattern, text, minimum as usize);
            let case = format_args!("{number}: literal: {lengths:?} words, minimum {minimum}");
            g.equal(case, outside(sides, literal), due);
        }
    }
}
