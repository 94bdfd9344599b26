//! Two records of one fish made one.

use crate::{raw, Refusal};

/// Merges two records of one fish, those that `first` and `second` start with, into one of the same
/// id and count. The record goes to the start of `buffer`, which must have
/// [`record_words`](crate::record_words) of that count, and the answer is how many words that were.
/// What follows either record is not looked at, and the rest of the buffer keeps its values.
///
/// At each position of the sequence the word is
///
/// - the first's, as it stands, where the two [match](crate::words_match): of a retired code and
///   another spelling of it the first's is kept;
/// - the other's, where one is the no-call; so the no-call, where both are;
/// - the no-call, where both are calls that do not match.
///
/// The result is a record with its own trailer, which reads without refusal. A record merged with
/// itself is given back. Exchanging the two changes no word once retired codes are
/// [replaced](crate::replaced). Three records may come out otherwise in another order: where a and b
/// are calls that do not match, a with b, then with b again, is b; but b with b, then a with that, is
/// the no-call.
///
/// Refused, in this order: what reading the first refuses, [`Cut`](Refusal::Cut) where it is empty,
/// [`Header`](Refusal::Header), [`Cut`](Refusal::Cut), [`Unsound`](Refusal::Unsound),
/// [`Trailer`](Refusal::Trailer); the same of the second; then [`Fish`](Refusal::Fish),
/// [`Count`](Refusal::Count), [`Room`](Refusal::Room). The buffer is then as it was.
///
/// ```
/// use sigxume::{merge, record_words, records, write, Refusal, Symbol};
///
/// let none = Symbol::NoCall.word();
/// let [a, b, c, d] = [1, 2, 3, 4].map(|code| Symbol::Call(code).word());
/// let record = |id, sequence: &[u32]| {
///     let mut record = vec![0; record_words(sequence.len())];
///     write(id, sequence, &mut record).map(|_| record)
/// };
///
/// // Fish 12, typed twice. They agree on the first word; the second and the third are called in one
/// // of them; on the fourth they do not agree; the last was called in neither.
/// let first = record(12, &[a, none, c, d, none])?;
/// let second = record(12, &[a, b, none, a, none])?;
/// let mut buffer = vec![0; first.len()];
/// assert_eq!(merge(&first, &second, &mut buffer)?, 7);
/// assert_eq!(buffer, record(12, &[a, b, c, none, none])?);
/// assert_eq!(records(&buffer).next().unwrap()?.id, 12);
///
/// let other = record(13, &[a, b, none, a, none])?;
/// assert_eq!(merge(&first, &other, &mut buffer), Err(Refusal::Fish));
/// # Ok::<(), Refusal>(())
/// ```
pub fn merge(first: &[u32], second: &[u32], buffer: &mut [u32]) -> Result<usize, Refusal> {
    let answer = raw::merge(first, second, buffer);
    Refusal::check(answer.refusal)?;
    Ok(answer.count as usize)
}
