//! Words and the bytes of a file.

/// Which byte of a word comes first in a file. Image files of the tool have the high one first,
/// whatever the machine; the words of a [`Unit`](crate::Unit) are plain `u16`.
#[derive(Clone, Copy, PartialEq, Eq, Hash, Debug, Default)]
pub enum ByteOrder {
    /// The high byte first, as the tool has it.
    #[default]
    HighFirst,
    /// The low byte first.
    LowFirst,
}

/// The words of a file's bytes, two bytes each; none if their number is odd.
///
/// ```
/// use ruzkemp::{bytes_from_words, words_from_bytes, ByteOrder};
///
/// let bytes = *b"PASS";
/// let words = words_from_bytes(&bytes, ByteOrder::HighFirst);
/// assert_eq!(words, Some(vec![0x5041, 0x5353]));
/// assert_eq!(bytes_from_words(&[0x5041, 0x5353], ByteOrder::HighFirst), bytes);
/// assert_eq!(words_from_bytes(&bytes[1..], ByteOrder::HighFirst), None);
/// ```
pub fn words_from_bytes(bytes: &[u8], order: ByteOrder) -> Option<Vec<u16>> {
    let pairs = bytes.chunks_exact(2);
    let whole = pairs.remainder().is_empty();
    let word = |pair: &[u8]| match order {
        ByteOrder::HighFirst => u16::from_be_bytes([pair[0], pair[1]]),
        ByteOrder::LowFirst => u16::from_le_bytes([pair[0], pair[1]]),
    };
    whole.then(|| pairs.map(word).collect())
}

/// The bytes of words, as a file has them.
pub fn bytes_from_words(words: &[u16], order: ByteOrder) -> Vec<u8> {
    let bytes = |word: &u16| match order {
        ByteOrder::HighFirst => word.to_be_bytes(),
        ByteOrder::LowFirst => word.to_le_bytes(),
    };
    words.iter().flat_map(bytes).collect()
}
