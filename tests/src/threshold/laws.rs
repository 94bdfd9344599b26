//! Laws of the answer about a threshold, tested on the core's own comparisons; the reference's tiling has no part in
//! it.

use super::told;
use crate::comparisons::laws::larger_pairs;
use crate::comparisons::listed;
use crate::engine::{any_settings, Engine};
use crate::group::Group;
use crate::pairs::{pattern_words, Sides};
use crate::reference::{covered, score, Tile, MAX_THRESHOLD};
use crate::retired::mixed_pair;
use sigxume::raw::Told;

/// Whether the first so many tiles score at least a threshold.
fn reached(pair: Sides, tiles: &[Tile], count: u32, threshold: u32) -> bool {
    let [n, m] = pair.map(<[u32]>::len);
    score(covered(&tiles[..count as usize]), n, m) as u32 >= threshold
}

/// Tries every law on a pair, with the comparison by both engines, and with the sides exchanged.
fn hold(g: &mut Group, name: &str, pair: Sides, minimum: u32, thresholds: &[u32]) {
    let [n, m] = pair.map(<[u32]>::len);
    let name = format!("{name}, {n} and {m} words, minimum {minimum}");
    let any = |g: &mut Group| any_settings(&mut g.random, minimum, pattern_words(pair));
    let engines = [Engine::Plain, Engine::Fast(any(g))];
    let [(plain, tiles), (fast, _)] = engines.map(|engine| listed(engine, pair, minimum));
    let mut before: [Option<Told>; 2] = [None; 2];
    for &threshold in thresholds {
        let [one, other] = [(); 2].map(|()| any(g));
        let answer = told(one, pair, minimum, threshold);
        let case = format!("{}: {name}, threshold {threshold}", Engine::Fast(one));
        let yes = u32::from(plain.score >= threshold);
        g.equal(
            format_args!(
                "{case}: yes exactly where the score of {plain:?} and of {fast:?} reaches it"
            ),
            [
                answer.refusal,
                answer.reached,
                u32::from(fast.score >= threshold),
            ],
            [0, yes, yes],
        );
        g.equal(
            format_args!("{case}: no more tiles than there are"),
            answer.tiles <= plain.tiles,
            true,
        );
        let count = answer.tiles.min(plain.tiles);
        g.equal(
            format_args!("{case}: the tiles laid reach it, and without the last they do not"),
            [
                reached(pair, &tiles, count, threshold),
                count > 0 && reached(pair, &tiles, count - 1, threshold),
            ],
            [answer.reached == 1, false],
        );
        let last = before[answer.reached as usize].replace(answer);
        let tiles = |told: Option<Told>| told.map_or(answer.tiles, |told| told.tiles);
        let rises = match answer.reached {
            1 => tiles(last) <= answer.tiles,
            _ => tiles(last) >= answer.tiles,
        };
        g.equal(
            format_args!("{case}: with the threshold the tiles of a yes never fall, those of a no never rise"),
            rises,
            true,
        );
        let [first, second] = pair;
        g.equal(
            format_args!(
                "{case}: the same with the sides exchanged, by {}",
                Engine::Fast(other)
            ),
            told(other, [second, first], minimum, threshold),
            answer,
        );
    }
}

/// Random pairs, every fourth with retired codes, and larger ones, up to 2,048 words.
pub fn laws(g: &mut Group) {
    for number in 0..60 {
        let codes = g.random.pick(&[1, 2, 3, 4, 6, 20]);
        let [first, second] = &mixed_pair(&mut g.random, 60, codes);
        let minimum = g.random.pick(&[1, 2, 2, 3, 5]);
        let every = Vec::from_iter(0..=MAX_THRESHOLD);
        hold(
            g,
            &format!("pair {number}"),
            [first, second],
            minimum,
            &every,
        );
    }
    for (number, [first, second]) in larger_pairs(&mut g.random).iter().enumerate() {
        let pair = [&first[..], second];
        for minimum in [1, 3, 8, 256] {
            let (answer, _) = listed(Engine::Plain, pair, minimum);
            let around = [
                answer.score.saturating_sub(1),
                answer.score,
                answer.score + 1,
            ];
            let mut thresholds = Vec::from_iter((0..=MAX_THRESHOLD).step_by(100));
            thresholds.extend(around.map(|threshold| threshold.min(MAX_THRESHOLD)));
            thresholds.sort_unstable();
            hold(
                g,
                &format!("larger pair {number}"),
                pair,
                minimum,
                &thresholds,
            );
        }
    }
}
