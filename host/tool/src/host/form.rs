//! How an image lies in its file: the order of a word's bytes, and where the unit begins.

use ruzkemp::{bytes_from_words, words_from_bytes, ByteOrder};

use super::SECTOR_BYTES;

/// How an image lies in its file.
#[derive(Clone, Copy, PartialEq, Eq, Debug, Default)]
pub struct Form {
    /// The order of a word's bytes.
    pub order: ByteOrder,
    /// The sector of the file, a pack, at which the unit begins; none if the file is the unit.
    pub offset: Option<u64>,
}

impl Form {
    /// The words of whole sectors.
    pub fn words(self, bytes: &[u8]) -> Vec<u16> {
        words_from_bytes(bytes, self.order).unwrap_or_default()
    }

    /// The bytes of words.
    pub fn bytes(self, words: &[u16]) -> Vec<u8> {
        bytes_from_words(words, self.order)
    }

    /// Where a word of a sector of the unit is: the sector counts in the unit, the byte in the file.
    pub fn place(self, sector: usize, word: usize) -> String {
        let byte = self.byte(sector, word);
        match self.offset {
            Some(_) => format!("sector {sector} of the unit, byte {byte} of the file"),
            None => format!("sector {sector}, byte {byte}"),
        }
    }

    /// The byte of the file at which a word of a sector of the unit begins.
    pub fn byte(self, sector: usize, word: usize) -> u64 {
        let before = self.offset.unwrap_or(0) + sector as u64;
        SECTOR_BYTES as u64 * before + 2 * word as u64
    }
}
