//! Pairs of equal length, handed in either way: which of the two is the pattern decides whose stretches are counted.

use super::told;
use crate::comparisons::Problem;
use crate::engine::any_settings;
use crate::equal_length::{decided, equal_pair, fronts, rising, stretches, with_themselves};
use crate::group::Group;
use crate::known::Letters;
use crate::pairs::{both_orders, Sides};
use crate::reference::{exchanged, within, MAX_THRESHOLD, MAX_WORDS};

/// Random pairs over few codes: as the reference has it either way.
fn defined(g: &mut Group) {
    let mut otherwise = 0;
    for number in 0..3_000 {
        let longest = g.random.pick(&[4, 12, 40]);
        let length = g.random.below(longest + 1);
        let codes = g.random.pick(&[2, 3, 4]);
        let pair = equal_pair(&mut g.random, length, codes);
        let minimum = g.random.pick(&[2, 2, 3, 5]);
        for sides in both_orders(&pair) {
            let [first, second] = sides.map(Letters);
            let problem = Problem::new(sides, minimum);
            problem.ask_telling(g, format_args!("pair {number}: {first} and {second}"));
            otherwise += usize::from(on_the_text(&problem));
        }
    }
    let case =
        format_args!("{otherwise} pairs that would come out otherwise with the text's stretches");
    g.equal(case, otherwise > 1_000, true);
}

/// Whether the free stretches of the text come to something else than those of the pattern after some tile.
fn on_the_text(problem: &Problem) -> bool {
    let Problem { pair, minimum, .. } = *problem;
    let minimum = minimum as usize;
    let laid = problem.laid();
    let turned = exchanged(laid.to_vec());
    (0..=laid.len()).any(|count| {
        within(pair, minimum, &laid[..count]) != within(pair, minimum, &turned[..count])
    })
}

/// Random pairs over few codes, of up to 2,048 words: the same answer either way, with other settings.
fn random(g: &mut Group) {
    let mut lengths = vec![MAX_WORDS; 20];
    lengths.extend((0..1_000).map(|_| {
        let longest = g.random.pick(&[4, 12, 40, 300]);
        g.random.below(longest + 1)
    }));
    for length in lengths {
        let codes = g.random.pick(&[2, 3, 4]);
        let [first, second] = &equal_pair(&mut g.random, length, codes);
        let minimum = g.random.pick(&[1, 2, 3, 8]);
        for _ in 0..5 {
            let [one, other] = [(); 2].map(|()| any_settings(&mut g.random, minimum, length));
            let threshold = g.random.below(MAX_THRESHOLD as usize + 1) as u32;
            let case = format_args!(
                "{} and {}, minimum {minimum}, threshold {threshold}",
                Letters(first),
                Letters(second)
            );
            let [straight, crossed]: [Sides; 2] = [[first, second], [second, first]];
            g.equal(
                case,
                told(other, crossed, minimum, threshold),
                told(one, straight, minimum, threshold),
            );
        }
    }
}

/// Pairs of equal length: any, those in which one word decides which is the pattern, sequences with themselves.
pub fn exchange(g: &mut Group) {
    defined(g);
    random(g);
    for front in fronts() {
        for words in rising() {
            for ([pattern, text], mut tiles) in decided(&front, words) {
                let minimum = 2;
                tiles.retain(|tile| tile.length >= minimum as usize);
                let case = format_args!("{words:x?} after {} words", front.len());
                Problem::known([&pattern, &text], minimum, tiles.clone()).ask_telling(g, case);
                Problem::known([&text, &pattern], minimum, exchanged(tiles)).ask_telling(g, case);
            }
        }
    }
    for words in with_themselves(&mut g.random) {
        let minimum = g.random.pick(&[1, 2, 3, 8]);
        let mut tiles = stretches(&words);
        tiles.retain(|tile| tile.length >= minimum as usize);
        let case = format_args!("{} with itself", Letters(&words));
        for sides in [[&words[..], &words], [&words, &words.clone()]] {
            Problem::known(sides, minimum, tiles.clone()).ask_telling(g, case);
        }
    }
}
