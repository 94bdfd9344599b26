//! Laws of the cover, tested on the core's own answers; the reference's tiling has no part in it.

use super::{covered, turned_back};
use crate::comparisons::listed;
use crate::engine::{any_settings, Engine};
use crate::group::Group;
use crate::pairs::{any_pair, calls, pattern_words, related, unrelated, Sides};
use crate::random::Random;
use crate::reference::{Tile, MAX_MINIMUM, MAX_WORDS};
use sigxume::Settings;

/// The first tiles, down to the last that has at least the minimum.
fn down_to(tiles: &[Tile], minimum: u32) -> &[Tile] {
    let last = tiles
        .iter()
        .rposition(|tile| tile.length >= minimum as usize);
    &tiles[..last.map_or(0, |last| last + 1)]
}

/// Tries every law on a pair: with the comparisons by these engines at each minimum, and with the
/// sides exchanged.
fn hold(g: &mut Group, name: &str, pair: Sides, engines: impl Fn(&mut Random, u32) -> Vec<Engine>) {
    let [one, other] = [(); 2].map(|()| any_settings(&mut g.random, 1, pattern_words(pair)));
    let (answer, tiles, words) = covered(one, pair);
    let name = format!("{}: {name}", Engine::Fast(one));
    g.equal(
        format_args!("{name}: the entries never rise, and the first is covered"),
        (words.is_sorted_by(|a, b| a >= b), words[0]),
        (true, answer.covered),
    );
    for (minimum, &entry) in (1..=MAX_MINIMUM).zip(&words) {
        for engine in engines(&mut g.random, minimum) {
            let (compared, laid) = listed(engine, pair, minimum);
            g.equal(
                format_args!("{name}: covered by {engine} at minimum {minimum}"),
                (compared.refusal, entry),
                (0, compared.covered),
            );
            g.equal(
                format_args!("{name}: the first tiles are those of {engine} at minimum {minimum}"),
                down_to(&tiles, minimum),
                &laid[..],
            );
        }
    }
    g.equal(
        format_args!("{name}: exchanging the sides exchanges the starts alone"),
        turned_back(other, pair),
        (answer, tiles, words),
    );
}

/// Small pairs with both engines at every minimum, and larger ones, with the plain engine at some.
pub fn laws(g: &mut Group) {
    for number in 0..150 {
        let codes = g.random.pick(&[1, 2, 3, 4, 6, 20]);
        let longest = g.random.pick(&[20, 60, 300]);
        let [first, second] = &any_pair(&mut g.random, longest, codes);
        let pattern = pattern_words([first, second]);
        hold(
            g,
            &format!("pair {number}"),
            [first, second],
            |random, minimum| vec![Engine::Plain, Engine::any_fast(random, minimum, pattern)],
        );
    }
    let random = &mut g.random;
    let longer = calls(random, MAX_MINIMUM as usize + 1, 40);
    let mut pairs = vec![
        [longer.clone(), longer],
        related(random, MAX_WORDS, 40),
        related(random, MAX_WORDS, 4),
        unrelated(random, MAX_WORDS, 40),
    ];
    pairs.extend((0..3).map(|_| any_pair(random, MAX_WORDS, 10)));
    for (number, [first, second]) in pairs.iter().enumerate() {
        hold(
            g,
            &format!("larger pair {number}"),
            [first, second],
            |_, minimum| {
                let mut engines = vec![Engine::Fast(Settings::for_minimum(minimum))];
                if [1, 2, 8, 255, 256].contains(&minimum) {
                    engines.push(Engine::Plain);
                }
                engines
            },
        );
    }
}
