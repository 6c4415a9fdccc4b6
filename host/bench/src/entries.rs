//! The used entries of a sound unit, as a Rust program reads them.

use std::cmp::Ordering;
use std::ops::Range;

use reference::layout::{key, Kit, ENTRY, SECTOR, SYS, SYS_INDEX};
use reference::Name;

/// The words of an entry.
pub type Words = [u16; ENTRY];

/// The name in an entry.
pub fn name_in(entry: &Words) -> Name {
    [entry[0], entry[1], entry[2]]
}

/// The used entries of a sound unit, place by place.
pub fn gathered(image: &[u16]) -> Vec<Words> {
    let mut entries = Vec::new();
    gather(image, &mut entries);
    entries
}

/// Gathers the used entries of a sound unit, place by place; the room for them is used again.
pub fn gather(image: &[u16], entries: &mut Vec<Words>) {
    entries.clear();
    let mut left = sys_length(image);
    for stretch in sys_stretches(image) {
        // Beyond SYS's length its slices may have any words.
        let sectors = left.min(stretch.len());
        let words = &image[stretch.start * SECTOR..][..sectors * SECTOR];
        let (places, _) = words.as_chunks::<ENTRY>();
        entries.extend(places.iter().filter(|place| place[0] != 0));
        left -= sectors;
    }
}

/// The listing: gathers the entries and sorts them by name.
pub fn gather_and_sort(
    image: &[u16],
    entries: &mut Vec<Words>,
    compare: impl Fn(&Words, &Words) -> Ordering,
) {
    gather(image, entries);
    entries.sort_unstable_by(compare);
}

/// Compares names word by word: faster where there are few.
pub fn by_words(one: &Words, other: &Words) -> Ordering {
    one[..3].cmp(&other[..3])
}

/// Compares names as numbers of 48 bits: faster where there are many.
pub fn by_number(one: &Words, other: &Words) -> Ordering {
    let number = |[first, second, third]: Name| {
        u64::from(first) << 32 | u64::from(second) << 16 | u64::from(third)
    };
    number(name_in(one)).cmp(&number(name_in(other)))
}

/// The sectors of SYS's stretches.
fn sys_stretches(image: &[u16]) -> impl Iterator<Item = Range<usize>> + '_ {
    let index = &image[SYS_INDEX * SECTOR..][..SECTOR];
    let (pairs, _) = index[1..=2 * index[0] as usize].as_chunks();
    pairs.iter().map(|&[length, first]| {
        let first = first as usize;
        first..first + length as usize
    })
}

/// SYS's length, which stands in its own entry.
fn sys_length(image: &[u16]) -> usize {
    let h = Kit::read(image).h;
    let sectors = sys_stretches(image).flatten();
    let of_key = sectors.skip(key(SYS, h)).step_by(h);
    let mut places = of_key.flat_map(|sector| {
        let (places, _) = image[sector * SECTOR..][..SECTOR].as_chunks::<ENTRY>();
        places
    });
    let entry = places.find(|place| name_in(place) == SYS);
    entry.expect("a sound unit")[7].into()
}

#[cfg(test)]
mod tests {
    use super::*;
    use crate::shapes::FEW;
    use reference::generate::{shaped, Shape};
    use reference::random::Random;
    use reference::{perform, Message};

    /// The words that the second implementation lists.
    fn listed(image: &[u16]) -> Vec<u16> {
        let mut state = reference::State::new(0);
        let mut lent = vec![0; image.len()];
        let image = &mut image.to_vec();
        perform(image, &mut state, &Message::Init { unit: 0 }, &mut []);
        let answer = perform(image, &mut state, &Message::Listing { unit: 0 }, &mut lent);
        assert_eq!(answer.result, 0);
        lent.truncate(answer.entries as usize * ENTRY);
        lent
    }

    #[test]
    fn rust_lists_what_the_second_implementation_lists() {
        let stretched = Shape {
            h: 64,
            sys_stretches: 10,
            ..FEW
        };
        // Eight sectors of a slice of 64 are SYS, the others have any words.
        let slack = Shape {
            s: 64,
            slices: 400,
            held: (0, 4),
            ..FEW
        };
        for (seed, shape) in (1..).zip([FEW, stretched, slack]) {
            let unit = shaped(&mut Random::new(seed), &shape);
            let mut entries = gathered(&unit.image);
            assert_eq!(entries.len(), 102);
            let places = entries.clone();
            let listed = listed(&unit.image);
            for compare in [by_words, by_number] {
                gather_and_sort(&unit.image, &mut entries, compare);
                assert_ne!(entries, places, "the places are in no order");
                assert_eq!(entries.as_flattened(), listed);
            }
        }
    }
}
