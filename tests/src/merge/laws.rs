//! Laws of merging, tested on what the core makes; the reference's merging has no part in it.

use super::merged;
use super::typings::{retyped, typings};
use crate::group::Group;
use crate::pairs::Sides;
use crate::records::LENGTHS;
use crate::reference::{matches, read, record, replaced_words, score, tiling};
use crate::samples::{any_length, call, NO_CALL, ORDERS};
use sigxume::raw::{self, ReadAnswer};
use sigxume::Comparer;

/// The sequence of a whole record.
fn inside(record: &[u32]) -> &[u32] {
    &record[1..record.len() - 1]
}

/// The core's merging of two sequences of one length.
fn joined(id: u16, first: &[u32], second: &[u32]) -> Vec<u32> {
    let pair = [first, second].map(|words| record(id, words));
    let whole = merged([&pair[0], &pair[1]]);
    inside(&whole).to_vec()
}

/// The answer counts the words of the result, which reads without refusal, by the core and by the reference, with that
/// id and count.
fn reads(g: &mut Group, name: &str, id: u16, [first, second]: Sides) {
    let mut whole = vec![0; first.len()];
    let answer = raw::merge(first, second, &mut whole);
    let count = whole.len() - 2;
    g.equal(
        format_args!("{name}: it is accepted"),
        [answer.refusal, answer.count],
        [0, count as u32 + 2],
    );
    let expected = ReadAnswer {
        refusal: 0,
        id: id.into(),
        count: count as u32,
        used: count as u32 + 2,
    };
    let mut buffers = [vec![0; count], vec![0; count]];
    let answers = [
        raw::read(&whole, &mut buffers[0]),
        read(&whole, &mut buffers[1]),
    ];
    let case = format_args!("{name}: it reads");
    g.equal(case, answers, [expected; 2]);
    let words = inside(&whole).to_vec();
    g.equal(case, buffers, [words.clone(), words]);
}

/// Both ways round: equal once replaced; where the words are not equal as they stand both typings are calls that
/// match, and each way keeps its first's.
fn crossed(g: &mut Group, name: &str, [a, b]: Sides, straight: &[u32], turned: &[u32]) {
    g.equal(
        format_args!("{name}: the same either way once replaced"),
        replaced_words(straight),
        replaced_words(turned),
    );
    for at in 0..a.len() {
        let due = match matches(a[at], b[at]) {
            true => [a[at], b[at]],
            false => [straight[at]; 2],
        };
        g.equal(
            format_args!("{name}: word {at} either way"),
            [straight[at], turned[at]],
            due,
        );
    }
}

/// Every word is one of the two or a no-call, and no call is lost but where two do not match.
fn each_word(g: &mut Group, name: &str, [a, b]: Sides, words: &[u32]) {
    for (at, &word) in words.iter().enumerate() {
        let (a, b) = (a[at], b[at]);
        let case = format_args!("{name}: word {at} of {a:#x} and {b:#x} is {word:#x}");
        g.equal(case, [a, b, NO_CALL].contains(&word), true);
        let nothing =
            (a == NO_CALL && b == NO_CALL) || (a != NO_CALL && b != NO_CALL && !matches(a, b));
        g.equal(case, word == NO_CALL, nothing);
    }
}

/// The second typing twice: what it called stands where the two did not match if it is merged in one by one, and
/// nothing does if its two are merged first.
fn twice(g: &mut Group, name: &str, id: u16, [a, b]: Sides) -> usize {
    let one_by_one = joined(id, &joined(id, a, b), b);
    let together = joined(id, a, &joined(id, b, b));
    let mut apart = 0;
    for at in 0..a.len() {
        let (a, b) = (a[at], b[at]);
        let conflict = a != NO_CALL && b != NO_CALL && !matches(a, b);
        let due = match conflict {
            true => [b, NO_CALL],
            false if a == NO_CALL => [b; 2],
            false => [a; 2],
        };
        apart += usize::from(conflict);
        g.equal(
            format_args!("{name}: word {at} of {a:#x}, {b:#x} and {b:#x}"),
            [one_by_one[at], together[at]],
            due,
        );
    }
    apart
}

/// A record with itself, as one slice and as two, is given back.
fn itself(g: &mut Group, name: &str, id: u16, words: &[u32]) {
    let whole = record(id, words);
    let copy = whole.clone();
    let case = format_args!("{name}: with itself");
    g.equal(case, merged([&whole, &whole]), copy.clone());
    g.equal(case, merged([&whole, &copy]), copy.clone());
}

/// Tries every law on two typings of a fish.
pub fn laws(g: &mut Group) {
    let (mut spelled, mut apart) = (0, 0);
    let lengths = Vec::from_iter((0..1_500).map(|_| any_length(&mut g.random)));
    for (number, length) in lengths.into_iter().chain(LENGTHS).enumerate() {
        let id = g.random.half();
        let [a, b] = typings(&mut g.random, length);
        let pair = [&a[..], &b];
        let name = format!("typings {number}, {length} words");
        let records = pair.map(|words| record(id, words));
        let straight = merged([&records[0], &records[1]]);
        let turned = merged([&records[1], &records[0]]);
        reads(g, &name, id, [&records[0], &records[1]]);
        for words in pair {
            itself(g, &name, id, words);
        }
        itself(g, &name, id, inside(&straight));
        crossed(g, &name, pair, inside(&straight), inside(&turned));
        each_word(g, &name, pair, inside(&straight));
        apart += twice(g, &name, id, pair);
        spelled += usize::from(straight != turned);
    }
    let case = format_args!("{spelled} typings whose spelling differs, {apart} words in conflict");
    g.equal(case, spelled > 300 && apart > 5_000, true);
}

/// Three typings of a fish, in every order and both ways of merging: what one typing alone called is always kept,
/// and so is what no two dispute; only of disputed words the order decides.
pub fn three(g: &mut Group) {
    let mut by_order = 0;
    for number in 0..1_500 {
        let length = any_length(&mut g.random);
        let id = g.random.half();
        let [a, b] = typings(&mut g.random, length);
        let c = retyped(&mut g.random, &a);
        let typed = [&a[..], &b, &c];
        let all = ORDERS.into_iter().flat_map(|order| {
            let [x, y, z] = order.map(|at| typed[at]);
            let left = joined(id, &joined(id, x, y), z);
            let right = joined(id, x, &joined(id, y, z));
            [left, right].map(|words| replaced_words(&words))
        });
        let all = Vec::from_iter(all);
        let typed = typed.map(replaced_words);
        for at in 0..length {
            let mut called = typed.iter().map(|words| words[at]);
            let first = called.clone().find(|&word| word != NO_CALL);
            let disputed = called.any(|word| word != NO_CALL && Some(word) != first);
            let found = all.iter().map(|words| words[at]);
            let case = format_args!("typings {number}, word {at}");
            if disputed {
                let given = typed.iter().map(|words| words[at]);
                let given = Vec::from_iter(given.chain([NO_CALL]));
                g.equal(case, found.clone().all(|word| given.contains(&word)), true);
                let mut words = Vec::from_iter(found);
                words.dedup();
                by_order += usize::from(words.len() > 1);
            } else {
                let due = first.unwrap_or(NO_CALL);
                g.equal(case, Vec::from_iter(found), vec![due; 12]);
            }
        }
    }
    let case = format_args!("{by_order} words that depend on the order");
    g.equal(case, by_order > 5_000, true);
}

/// Either way round the words match the same words, but of two sequences of equal length their spelling may choose the
/// pattern: then the score with a third sequence is another.
pub fn spelling(g: &mut Group) {
    let words = |codes: [u16; 5]| codes.map(call);
    let typings = [[12, 65_000, 11, 12, 12], [12, 11, 11, 12, 12]].map(words);
    let third = words([12, 12, 11, 12, 11]);
    for (at, due) in [(0, 800), (1, 400)] {
        let whole = joined(7, &typings[at], &typings[1 - at]);
        let tiles = tiling(&whole, &third, 2);
        let covered = tiles.iter().map(|tile| tile.length).sum();
        let literal = score(covered, whole.len(), third.len());
        let mut comparer = Comparer::new();
        let compared = comparer.compare(&whole, &third, 2);
        let scored = compared.map(|tiling| tiling.score() as usize);
        let case = format_args!("typing {at} first");
        g.equal(case, (scored, literal), (Ok(due), due));
    }
}
