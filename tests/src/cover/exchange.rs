//! Covers of pairs of equal length, handed in either way.

use super::{covered, turned_back, Problem};
use crate::engine::any_settings;
use crate::equal_length::{decided, equal_pair, fronts, rising, stretches, with_themselves};
use crate::group::Group;
use crate::known::Letters;
use crate::reference::{exchanged, MAX_WORDS};

/// Random pairs over few codes: the same answer, tiles with the sides exchanged and the same entries, with
/// other settings.
fn random(g: &mut Group) {
    let mut lengths = vec![MAX_WORDS; 20];
    lengths.extend((0..2_000).map(|_| {
        let longest = g.random.pick(&[4, 12, 40, 300]);
        g.random.below(longest + 1)
    }));
    for length in lengths {
        let codes = g.random.pick(&[2, 3, 4]);
        let [first, second] = &equal_pair(&mut g.random, length, codes);
        let [one, other] = [(); 2].map(|()| any_settings(&mut g.random, 1, length));
        let case = format_args!("{} and {}", Letters(first), Letters(second));
        let pair = [&first[..], second];
        g.equal(case, turned_back(other, pair), covered(one, pair));
    }
}

/// Pairs of equal length: any, those in which one word decides which is the pattern, sequences with themselves.
pub fn exchange(g: &mut Group) {
    random(g);
    for front in fronts() {
        for words in rising() {
            for ([pattern, text], tiles) in decided(&front, words) {
                let case = format_args!("{words:x?} after {} words", front.len());
                Problem::known([&pattern, &text], tiles.clone()).cover(g, case);
                Problem::known([&text, &pattern], exchanged(tiles)).cover(g, case);
            }
        }
    }
    for words in with_themselves(&mut g.random) {
        let case = format_args!("{} with itself", Letters(&words));
        Problem::known([&words, &words], stretches(&words)).cover(g, case);
        Problem::known([&words, &words.clone()], stretches(&words)).cover(g, case);
    }
}
