//! Merging two records of one fish, beside a loop of the same meaning in Rust, and beside reading both and writing one.

use super::table::{Everywhere, Measure, Rows, Table, USUAL};
use super::timing::{kinds, CODES, PAIRS};
use super::{all_agree, Column, Heeds, Job, Promises, START};
use crate::pairs::{calls, Pair};
use crate::random::Random;
use crate::reference::{
    record, COUNT, CUT, FISH, HEADER, MAX_WORDS, RETIRED, ROOM, TRAILER, UNSOUND,
};
use crate::samples::{call, NO_CALL};
use sigxume::raw::{self, Compared, Counted};

const SEED: u64 = 3;

/// Of so many words one is a no-call in the first typing, one in the second, and one was called otherwise.
const ONE_IN: usize = 20;

/// What two typings mostly look like.
const ALIKE: &str = "alike";
const USUALLY: &str = "1 in 20 not called, 1 in conflict";

/// The fish of all records.
const ID: u16 = 12;

/// An answer in the fields of a comparison's.
fn answered(Counted { refusal, count }: Counted) -> Compared {
    Compared {
        refusal,
        tiles: 0,
        covered: count,
        score: 0,
    }
}

/// The tile buffer of a job is long enough for a record.
static MERGE: Column = Column {
    name: "merge",
    run: |job| {
        let [first, second] = &job.pairs[job.at];
        answered(raw::merge(first, second, &mut job.tiles))
    },
    heeds: Heeds::Nothing,
};

static LOOP: Column = Column {
    name: "Rust loop",
    run: |job| {
        let [first, second] = &job.pairs[job.at];
        answered(merge(first, second, &mut job.tiles))
    },
    heeds: Heeds::Nothing,
};

/// The core reads both records into the workspace and writes the first to the tile buffer: every word is checked,
/// copied and summed as for a merge, and none is compared with another.
static READ_WRITE: Column = Column {
    name: "read, read, write",
    run: |job| {
        let (first, second) = job.workspace.split_at_mut(MAX_WORDS);
        let [one, other] = &job.pairs[job.at];
        let read = [raw::read(one, first), raw::read(other, second)];
        let sequence = &first[..read[0].count as usize];
        let mut answer = answered(raw::write(ID, sequence, &mut job.tiles));
        answer.refusal |= read[0].refusal | read[1].refusal;
        answer
    },
    heeds: Heeds::Nothing,
};

// The limits are set against the loop, which does the same work; reading and writing do less.
static TABLE: Table = Table {
    name: "merging",
    about: &[],
    columns: &[&MERGE, &LOOP, &READ_WRITE],
    ratios: &[(&MERGE, &LOOP), (&MERGE, &READ_WRITE)],
    promises: &[],
    everywhere: &[Everywhere {
        measure: Measure::Ratio(&MERGE, &LOOP),
        most: 1.5,
        rows: Rows::All,
        others: &[(ALIKE, 1.0), (USUALLY, 1.0)],
        exceptions: &[],
    }],
    least: USUAL,
};

/// The header and the sequence of the record that words start with, as one would write it without thinking of a proof.
fn checked(src: &[u32]) -> Result<(u32, &[u32]), u32> {
    let &header = src.first().ok_or(CUT)?;
    let count = (header & 0x3FFF) as usize;
    if header >> 30 != 0 || count > MAX_WORDS {
        return Err(HEADER);
    }
    let whole = src.get(..count + 2).ok_or(CUT)?;
    let mut sum = header;
    for &word in &whole[1..=count] {
        if word >> 16 != 1 << 14 && word != NO_CALL {
            return Err(UNSOUND);
        }
        sum = sum.wrapping_add(word);
    }
    if whole[count + 1] != sum | 3 << 30 {
        return Err(TRAILER);
    }
    Ok((header, &whole[1..=count]))
}

/// The code of a call as it is compared.
fn replaced(word: u32) -> u16 {
    let code = word as u16;
    match code.checked_sub(RETIRED[0].0) {
        Some(at) if usize::from(at) < RETIRED.len() => RETIRED[usize::from(at)].1,
        _ => code,
    }
}

/// Merges two records by a plain loop.
pub fn merge(first: &[u32], second: &[u32], buffer: &mut [u32]) -> Counted {
    let done = || -> Result<u32, u32> {
        let (header, first) = checked(first)?;
        let (other, second) = checked(second)?;
        if header >> 14 != other >> 14 {
            return Err(FISH);
        } else if header != other {
            return Err(COUNT);
        }
        let count = first.len();
        let buffer = buffer.get_mut(..count + 2).ok_or(ROOM)?;
        buffer[0] = header;
        let mut sum = header;
        let pairs = first.iter().zip(second);
        for (word, (&a, &b)) in buffer[1..=count].iter_mut().zip(pairs) {
            *word = if a == b || b == NO_CALL {
                a
            } else if a == NO_CALL {
                b
            } else if replaced(a) == replaced(b) {
                a
            } else {
                NO_CALL
            };
            sum = sum.wrapping_add(*word);
        }
        buffer[count + 1] = sum | 3 << 30;
        Ok(count as u32 + 2)
    };
    match { done }() {
        Ok(count) => Counted { refusal: 0, count },
        Err(refusal) => Counted { refusal, count: 0 },
    }
}

/// A typing with another word in one of so many places, chosen at random.
fn changed(random: &mut Random, words: &[u32], change: impl Fn(u32) -> u32) -> Vec<u32> {
    let change = |&word: &u32| match random.one_in(ONE_IN) {
        true => change(word),
        false => word,
    };
    words.iter().map(change).collect()
}

/// Two typings of a fish in several ways.
fn typings(random: &mut Random) -> Vec<(&'static str, Pair)> {
    let words = calls(random, MAX_WORDS, CODES);
    let otherwise = |word| call(word as u16 + CODES);
    let first = changed(random, &words, |_| NO_CALL);
    let second = changed(random, &words, |_| NO_CALL);
    let second = changed(random, &second, |word| match word {
        NO_CALL => NO_CALL,
        _ => otherwise(word),
    });
    let apart = words.iter().map(|&word| otherwise(word)).collect();
    let rows = [(); MAX_WORDS].map(|()| random.pick(&RETIRED));
    let retired = rows.map(|(retired, _)| call(retired)).to_vec();
    let new = rows.map(|(_, new)| call(new)).to_vec();
    let all = [
        (ALIKE, [words.clone(), words.clone()]),
        (USUALLY, [first, second]),
        ("all in conflict", [words, apart]),
        ("retired codes against their own", [retired, new]),
    ];
    let records = |pair: Pair| pair.map(|words| record(ID, &words));
    all.map(|(name, pair)| (name, records(pair))).to_vec()
}

fn jobs() -> Vec<Job> {
    let kinds = kinds(SEED, typings).into_iter();
    kinds
        .map(|(name, pairs)| Job::new(&name, pairs, 1, START))
        .collect()
}

/// Whether the core and the loop merge alike, word for word, and the other column accepts the records.
pub fn agree() -> bool {
    let accepted = jobs()
        .iter_mut()
        .all(|job| job.run(&READ_WRITE).refusal == 0);
    accepted & all_agree(&mut jobs(), &[&MERGE, &LOOP])
}

/// Prints the time of merging two records.
pub fn compare_merging(promises: &mut Promises) {
    println!(
        "\nMerging. Time in microseconds of merging two records of {MAX_WORDS} words, of a loop of the same \
         meaning in Rust, and of reading both and writing one by the core; {PAIRS} pairs in turn (seed {SEED}).\n"
    );
    TABLE.print(&mut jobs(), promises);
}
