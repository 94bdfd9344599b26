//! Stretches of every length up to a few dozen words, broken at every position. The core measures a run several
//! words at a time, so each place of a break matters, and so does each number of words that are left before an end.

use super::compare;
use crate::group::Group;
use crate::pairs::{calls, distinct};
use crate::samples::{call, with, NO_CALL};

/// The longest stretch.
const LONGEST: usize = 36;

/// One stretch, whole or with one break, after up to eight words that differ and before up to eight more, so that it
/// ends with a sequence now and then.
pub fn breaks(g: &mut Group) {
    // What stands on both sides where the stretch is broken.
    let [one, other] = [call(60_000), call(60_001)];
    let pairs = [[one, other], [NO_CALL, one], [one, NO_CALL], [NO_CALL; 2]];
    for length in 1..=LONGEST {
        let stretch = distinct(100, length);
        for at in 0..=length {
            for [left, right] in pairs {
                let broken = |word| match at < length {
                    true => with(&stretch, at, word),
                    false => stretch.clone(),
                };
                let mut around = |from| [(); 2].map(|()| distinct(from, g.random.below(9)));
                let [[a, b], [c, d]] = [around(1_000), around(2_000)];
                let pair = [
                    [a, broken(left), b].concat(),
                    [c, broken(right), d].concat(),
                ];
                let minimum = g.random.pick(&[1, 2, 7, 8, 9, 16, 17]);
                let case = format_args!(
                    "{length} words, {left:#x} and {right:#x} at {at}, minimum {minimum}"
                );
                compare(g, case, [&pair[0], &pair[1]], minimum);
            }
        }
    }
}

/// A short sequence whose first and last words stand often in a longer one, side by side or each alone.
pub fn ends_of_a_run(g: &mut Group) {
    for length in 1..=LONGEST {
        for codes in [1, 2, 3, 4, 5] {
            let random = &mut g.random;
            let inside = calls(random, length, 40);
            let run = [&[call(1)], &inside[..], &[call(2)]].concat();
            let mut other = calls(random, 4 * LONGEST, codes);
            for _ in 0..3 {
                let at = random.below(other.len() - run.len());
                let kept = random.below(run.len() + 1);
                other[at..at + kept].copy_from_slice(&run[..kept]);
            }
            for minimum in [1, 3, length as u32, length as u32 + 2] {
                let case = format_args!("{length} words between, {codes} codes, minimum {minimum}");
                compare(g, case, [&run, &other], minimum);
            }
        }
    }
}
