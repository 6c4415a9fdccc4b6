//! Words of an image: where entries and indexes stand, and how a word is changed.

use crate::layout::{bit_word, stretches, Kit, ENTRY, SECTOR};
use crate::random::Random;
use crate::sound::Entry;

/// Another value for a word, often a close one.
pub(super) fn alter(random: &mut Random, word: u16) -> u16 {
    match random.below(8) {
        0 => word.wrapping_add(1),
        1 => word.wrapping_sub(1),
        2 => word ^ bit_word(random.below(16)),
        3 => 0,
        4 => 0xFFFF,
        5 => random.below(130) as u16,
        6 => word.wrapping_add(random.between(2, 12) as u16),
        _ => random.word(),
    }
}

/// Where the words of an entry begin.
pub(super) fn first_word(entry: &Entry) -> usize {
    entry.sector * SECTOR + entry.place * ENTRY
}

/// Writes count and pairs of an index; the words behind keep what stood there.
pub(super) fn write_pairs(image: &mut [u16], kit: &Kit, sector: usize, slices: &[usize]) {
    let block = &mut image[sector * SECTOR..(sector + 1) * SECTOR];
    let stretches = stretches(slices);
    block[0] = stretches.len() as u16;
    for (pair, (first, number)) in stretches.into_iter().enumerate() {
        block[1 + 2 * pair] = (number * kit.s) as u16;
        block[2 + 2 * pair] = kit.first_sector(first) as u16;
    }
}
