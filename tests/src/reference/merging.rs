//! Two records of one fish made one (02, U6), which calls it joining two strips.

use super::{deliver, is_no_call, matches, parse, record, refuse, COUNT, FISH};
use crate::samples::NO_CALL;
use sigxume::raw::Counted;

/// The word of two at one position: "where both match under U4 take the first's word; where one is a no-call take the
/// other's; otherwise write a no-call".
pub fn merged_word(first: u32, second: u32) -> u32 {
    if matches(first, second) {
        first
    } else if is_no_call(first) {
        second
    } else if is_no_call(second) {
        first
    } else {
        NO_CALL
    }
}

/// The words of two sequences of equal length, position by position.
pub fn merged_words(first: &[u32], second: &[u32]) -> Vec<u32> {
    assert_eq!(first.len(), second.len(), "one fish has one length");
    let pairs = first.iter().zip(second);
    pairs.map(|(&a, &b)| merged_word(a, b)).collect()
}

/// "The first strip's own checks, then the second's, then different fish numbers 13, different counts 14": a strip's own
/// are those of reading it, but for its destination.
fn made(first: &[u32], second: &[u32]) -> Result<Vec<u32>, u32> {
    let (id, first) = parse(first, usize::MAX)?;
    let (other, second) = parse(second, usize::MAX)?;
    refuse(id != other, FISH)?;
    refuse(first.len() != second.len(), COUNT)?;
    Ok(record(id as u16, &merged_words(first, second)))
}

/// Merges two records: "join two strips of the same fish word by word"; then "destination 11"; "the reply is the count of
/// words written".
pub fn merge(first: &[u32], second: &[u32], buffer: &mut [u32]) -> Counted {
    deliver(made(first, second), buffer)
}
