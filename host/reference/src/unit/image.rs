//! Words of the image.

use crate::layout::*;

pub(super) fn zero_sector(image: &mut [u16], sector: usize) {
    image[sector * SECTOR..(sector + 1) * SECTOR].fill(0);
}

pub(crate) fn mark(image: &mut [u16], slice: usize, free: bool) {
    let word = &mut image[MAP_SECTOR * SECTOR + (slice - 1) / 16];
    let bit = bit_word((slice - 1) % 16);
    if free {
        *word |= bit;
    } else {
        *word &= !bit;
    }
}

/// Sets the kit's free sectors to s times the ones in the map.
pub(crate) fn count_free(image: &mut [u16], kit: &Kit) {
    image[KIT * SECTOR + 3] = (kit.s * ones_in_map(image)) as u16;
}

/// Writes an index block whole.
pub(crate) fn write_index(image: &mut [u16], kit: &Kit, sector: usize, slices: &[usize]) {
    zero_sector(image, sector);
    let block = &mut image[sector * SECTOR..(sector + 1) * SECTOR];
    let stretches = stretches(slices);
    block[0] = stretches.len() as u16;
    for (pair, (first, number)) in stretches.into_iter().enumerate() {
        block[1 + 2 * pair] = (number * kit.s) as u16;
        block[2 + 2 * pair] = kit.first_sector(first) as u16;
    }
}

/// The first unused place for a key: sector and place.
pub(super) fn unused_place(
    image: &[u16],
    kit: &Kit,
    sys: &[usize],
    layers: usize,
    key: usize,
    counted_unused: Option<(usize, usize)>,
) -> Option<(usize, usize)> {
    for layer in 0..layers {
        let sector = kit.sys_sector(sys, key + layer * kit.h);
        for place in 0..PLACES {
            let from = sector * SECTOR + place * ENTRY;
            let unused = image[from..from + ENTRY].iter().all(|&word| word == 0);
            if unused || counted_unused == Some((sector, place)) {
                return Some((sector, place));
            }
        }
    }
    None
}

/// Writes an entry into the first unused place of its key, which there is.
pub(crate) fn enter(
    image: &mut [u16],
    kit: &Kit,
    sys: &[usize],
    layers: usize,
    entry: &[u16; ENTRY],
) {
    let key = key([entry[0], entry[1], entry[2]], kit.h);
    let (sector, place) =
        unused_place(image, kit, sys, layers, key, None).expect("a place was made");
    write_entry(image, sector, place, entry);
}

pub(super) fn write_entry(image: &mut [u16], sector: usize, place: usize, entry: &[u16; ENTRY]) {
    image[sector * SECTOR + place * ENTRY..][..ENTRY].copy_from_slice(entry);
}

/// Entry words 7 to 9 for a file of so many sectors and these slices.
pub(crate) fn book(entry: &mut [u16; ENTRY], kit: &Kit, length: u16, slices: &[usize]) {
    entry[7] = length;
    entry[8] = slices
        .first()
        .map_or(0, |&first| kit.first_sector(first) as u16);
    entry[9] = (kit.s * slices.len()) as u16;
}
