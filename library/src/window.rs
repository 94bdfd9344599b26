//! The hashes of windows.

use crate::{raw, Refusal};

/// The positions of a sequence of so many words at which a window fits, so the words that
/// [`hash_list`] writes. For a window of 0 words, which is refused, this is 0.
pub const fn hash_words(words: usize, window: u32) -> usize {
    match words.checked_sub(window as usize) {
        Some(later) if window > 0 => later + 1,
        _ => 0,
    }
}

/// Fills the start of `buffer` with the hash of each window of so many words, and answers how many
/// there are; none where the window is longer than the sequence. The rest of the buffer keeps its
/// values. The hash of w0 .. w(s-1) is w0 × B^(s-1) + .. + w(s-1) modulo 2^32, B being the
/// multiplier and each word the [replaced](crate::replaced) one.
///
/// Refused, in this order: [`TooLong`](Refusal::TooLong), [`Unsound`](Refusal::Unsound),
/// [`SearchLength`](Refusal::SearchLength), [`Room`](Refusal::Room). The buffer is then as it was.
///
/// ```
/// use sigxume::{hash_list, hash_words, Symbol};
///
/// let words = [3, 1, 1].map(|code| Symbol::Call(code).word());
/// let mut buffer = vec![0; hash_words(words.len(), 2)];
/// assert_eq!(hash_list(&words, 257, 2, &mut buffer)?, 2);
/// let hash = |a: u32, b: u32| a.wrapping_mul(257).wrapping_add(b);
/// assert_eq!(buffer, [hash(words[0], words[1]), hash(words[1], words[2])]);
/// # Ok::<(), sigxume::Refusal>(())
/// ```
pub fn hash_list(
    words: &[u32],
    multiplier: u32,
    window: u32,
    buffer: &mut [u32],
) -> Result<usize, Refusal> {
    let answer = raw::hash_list(words, multiplier, window, buffer);
    Refusal::check(answer.refusal)?;
    Ok(answer.count as usize)
}
