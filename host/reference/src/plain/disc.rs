//! An image looked at by the layout's formulas.

use std::collections::BTreeSet;

use super::names::text;
use super::Block;

/// The map's words when these slices are free.
pub(super) fn map_of(free: &BTreeSet<usize>) -> Block {
    let mut map = [0; 256];
    for slice in free {
        map[(slice - 1) / 16] += 1 << (15 - (slice - 1) % 16);
    }
    map
}

/// The text of an entry's name, if it is legal.
pub(super) fn name_in(entry: &[u16; 16]) -> Option<String> {
    text([entry[0], entry[1], entry[2]])
}

/// An image looked at by the layout's formulas.
pub(super) struct Disc<'a> {
    image: &'a [u16],
    pub(super) h: usize,
    pub(super) s: usize,
    pub(super) n: usize,
    pub(super) f: usize,
}

impl<'a> Disc<'a> {
    pub(super) fn new(image: &'a [u16]) -> Disc<'a> {
        let kit = &image[2048..];
        Disc {
            image,
            h: kit[0] as usize,
            s: kit[1] as usize,
            n: kit[2] as usize,
            f: kit[4] as usize,
        }
    }

    pub(super) fn sector(&self, number: usize) -> &'a Block {
        let words = &self.image[256 * number..256 * number + 256];
        words.try_into().expect("256 words")
    }

    /// The slices that the index in a sector gives.
    pub(super) fn slices(&self, sector: usize) -> Vec<usize> {
        let block = self.sector(sector);
        let mut slices = vec![];
        for pair in 0..(block[0] as usize).min(127) {
            let (length, start) = (block[2 * pair + 1] as usize, block[2 * pair + 2] as usize);
            for offset in (0..length).step_by(self.s) {
                slices.push((start + offset).saturating_sub(self.f) / self.s + 1);
            }
        }
        slices
    }

    /// The sector at a place in the joined stretches.
    pub(super) fn joined(&self, slices: &[usize], place: usize) -> usize {
        self.f + (slices[place / self.s] - 1) * self.s + place % self.s
    }

    /// The used entries of SYS: sector, place and words.
    pub(super) fn entries(&self, sys: &[usize], sectors: usize) -> Vec<(usize, usize, [u16; 16])> {
        let mut entries = vec![];
        for block in 0..sectors {
            let number = self.joined(sys, block);
            for (place, words) in self.sector(number).chunks(16).enumerate() {
                let entry: [u16; 16] = words.try_into().expect("16 words");
                if entry.iter().any(|&word| word != 0) {
                    entries.push((number, place, entry));
                }
            }
        }
        entries
    }
}
