//! Words in a file: four bytes each, lowest byte first.

/// The words of a file's bytes, and the bytes of a last part that is no whole word.
///
/// ```
/// use sigxume::words_of_bytes;
///
/// let (words, rest) = words_of_bytes(&[7, 0, 3, 0, 20, 0]);
/// assert_eq!(words, [0x0003_0007]);
/// assert_eq!(rest, [20, 0]);
/// ```
pub fn words_of_bytes(bytes: &[u8]) -> (Vec<u32>, &[u8]) {
    let (words, rest) = bytes.as_chunks();
    let words = words.iter().copied().map(u32::from_le_bytes).collect();
    (words, rest)
}

/// The bytes of words.
///
/// ```
/// use sigxume::bytes_of_words;
///
/// assert_eq!(bytes_of_words(&[0x0003_0007]), [7, 0, 3, 0]);
/// ```
pub fn bytes_of_words(words: &[u32]) -> Vec<u8> {
    words.iter().flat_map(|word| word.to_le_bytes()).collect()
}
