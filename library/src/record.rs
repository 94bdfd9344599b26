//! Records: a sequence with a fish's number, as it is stored.

use crate::{raw, Refusal, MAX_WORDS};
use std::iter::FusedIterator;

/// What was read of a record.
#[derive(Clone, Copy, Debug, PartialEq, Eq, Hash)]
#[non_exhaustive]
pub struct Record {
    /// The fish's number.
    pub id: u16,
    /// The sequence has so many words; they are at the start of the buffer.
    pub count: usize,
    /// The record has so many words: the next one, where there is one, begins after them.
    pub used: usize,
}

/// The words of a record whose sequence has so many: a header and a trailer more.
pub const fn record_words(count: usize) -> usize {
    count.saturating_add(2)
}

/// Reads the record that `src` starts with, and copies its sequence to the start of `buffer`, which
/// is long enough with [`MAX_WORDS`] words. What follows the record is not looked at, and the rest
/// of the buffer keeps its values.
///
/// Refused, in this order: [`Cut`](Refusal::Cut) where `src` is empty, [`Header`](Refusal::Header),
/// [`Cut`](Refusal::Cut), [`Unsound`](Refusal::Unsound), [`Trailer`](Refusal::Trailer),
/// [`Room`](Refusal::Room). The buffer is then as it was.
///
/// ```
/// use sigxume::{read, Refusal, Symbol, MAX_WORDS};
///
/// // Fish 12 with the calls of codes 3 and 1.
/// let record = [0x0003_0002, 0x4000_0003, 0x4000_0001, 0xC003_0006];
/// let mut buffer = [0; MAX_WORDS];
/// let read_record = read(&record, &mut buffer)?;
/// assert_eq!((read_record.id, read_record.count, read_record.used), (12, 2, 4));
/// assert_eq!(buffer[..2], [3, 1].map(|code| Symbol::Call(code).word()));
///
/// assert_eq!(read(&record[..3], &mut buffer), Err(Refusal::Cut));
/// # Ok::<(), Refusal>(())
/// ```
pub fn read(src: &[u32], buffer: &mut [u32]) -> Result<Record, Refusal> {
    let answer = raw::read(src, buffer);
    Refusal::check(answer.refusal)?;
    Ok(Record {
        id: u16::try_from(answer.id).expect("a header has 16 bits for the number"),
        count: answer.count as usize,
        used: answer.used as usize,
    })
}

/// Writes the record of a fish's number and a sequence to the start of `buffer`, which must have
/// [`record_words`], and answers how many words that were. The rest of the buffer keeps its values.
///
/// Refused, in this order: [`TooLong`](Refusal::TooLong), [`Unsound`](Refusal::Unsound),
/// [`Room`](Refusal::Room). The buffer is then as it was.
///
/// ```
/// use sigxume::{record_words, write, Symbol};
///
/// let sequence = [3, 1].map(|code| Symbol::Call(code).word());
/// let mut buffer = vec![0; record_words(sequence.len())];
/// assert_eq!(write(12, &sequence, &mut buffer)?, 4);
/// assert_eq!(buffer, [0x0003_0002, 0x4000_0003, 0x4000_0001, 0xC003_0006]);
/// # Ok::<(), sigxume::Refusal>(())
/// ```
pub fn write(id: u16, sequence: &[u32], buffer: &mut [u32]) -> Result<usize, Refusal> {
    let answer = raw::write(id, sequence, buffer);
    Refusal::check(answer.refusal)?;
    Ok(answer.count as usize)
}

/// A record of several in a row.
#[derive(Clone, Debug, PartialEq, Eq, Hash)]
#[non_exhaustive]
pub struct Entry {
    /// The word at which it begins, counted from 0.
    pub at: usize,
    /// The fish's number.
    pub id: u16,
    /// Its words.
    pub sequence: Vec<u32>,
}

/// Reads records that follow one another until nothing is left. After a refusal there is no next
/// one: where it would begin cannot be known.
///
/// ```
/// use sigxume::{records, Refusal};
///
/// // Fish 1 and fish 2, both with nothing called, and a header with nothing after it.
/// let words = [0x0000_4000, 0xC000_4000, 0x0000_8000, 0xC000_8000, 0x0000_C000];
/// let mut rows = records(&words);
/// assert_eq!(rows.next().unwrap()?.id, 1);
/// assert_eq!(rows.next().unwrap()?.at, 2);
/// assert_eq!(rows.next(), Some(Err(Refusal::Cut)));
/// assert_eq!(rows.next(), None);
/// # Ok::<(), Refusal>(())
/// ```
pub fn records(words: &[u32]) -> Records<'_> {
    Records {
        words,
        at: 0,
        over: false,
    }
}

/// The records of [`records`].
#[derive(Clone, Debug)]
pub struct Records<'a> {
    words: &'a [u32],
    at: usize,
    over: bool,
}

impl Records<'_> {
    /// The word at which the next record begins, or at which the one begins that was refused.
    pub fn at(&self) -> usize {
        self.at
    }

    fn step(&mut self) -> Result<Entry, Refusal> {
        let at = self.at;
        let mut sequence = vec![0; MAX_WORDS];
        let record = read(&self.words[at..], &mut sequence)?;
        sequence.truncate(record.count);
        sequence.shrink_to_fit();
        self.at += record.used;
        Ok(Entry {
            at,
            id: record.id,
            sequence,
        })
    }
}

impl Iterator for Records<'_> {
    type Item = Result<Entry, Refusal>;

    fn next(&mut self) -> Option<Self::Item> {
        if self.over || self.at == self.words.len() {
            return None;
        }
        let step = self.step();
        self.over = step.is_err();
        Some(step)
    }
}

impl FusedIterator for Records<'_> {}
