//! Records of Format, and units just formatted.

use super::builder::Builder;
use super::Unit;
use crate::layout::SECTOR;
use crate::random::Random;
use crate::types::{Message, State};
use crate::unit::{format, perform};

/// The record of a legal Format of a small unit.
pub fn record(random: &mut Random, unit: u16) -> [u16; 9] {
    let h = random.between(1, 8);
    let s = slice_size(random);
    let least = h.div_ceil(s);
    let slices = match random.below(20) {
        0..=4 => random.between(least, least + 8),
        5..=15 => random.between(least, 40),
        16..=18 => random.between(least, 90),
        _ => random.between(least, 250),
    };
    record_of(random, unit, h, s, slices)
}

/// A small slice size, the smallest ones most often.
pub(super) fn slice_size(random: &mut Random) -> usize {
    random.pick(&[2, 2, 2, 2, 3, 3, 3, 4, 5, 6, 7, 8])
}

/// The record of a legal Format of a unit of any size, up to the limits.
pub fn large_record(random: &mut Random, unit: u16) -> [u16; 9] {
    let h = random.between(1, 64);
    let s = random.between(2, 64);
    let most = ((32_767 - 16) / s).min(4_096);
    let slices = random.between(most / 2, most);
    record_of(random, unit, h, s, slices.max(h.div_ceil(s)))
}

/// The record of a Format with these sizes, its other words legal or free.
fn record_of(random: &mut Random, unit: u16, h: usize, s: usize, slices: usize) -> [u16; 9] {
    let f = random.between(10, 16);
    let sectors = slices * s;
    let n = f + sectors;
    [
        unit,
        h as u16,
        s as u16,
        n as u16,
        sectors as u16,
        f as u16,
        n as u16,
        random.word(),
        random.word(),
    ]
}

/// A unit of random words, big enough for a Format record, with nothing open.
pub fn unformatted(random: &mut Random, record: &[u16]) -> Unit {
    Unit {
        image: random.words(SECTOR * record[3] as usize),
        state: State::new(record[0]),
    }
}

/// A unit just formatted and initialized, with whatever words stood there before.
pub fn formatted(random: &mut Random, record: &[u16]) -> Unit {
    let mut unit = unformatted(random, record);
    let result = format(&mut unit.image, &mut unit.state, 18, record);
    assert_eq!(result, 0, "a legal record is accepted");
    initialize(&mut unit);
    unit
}

/// Puts Init to a sound unit.
pub(super) fn initialize(unit: &mut Unit) {
    let message = Message::Init {
        unit: unit.state.unit,
    };
    let answer = perform(&mut unit.image, &mut unit.state, &message, &mut []);
    assert_eq!(answer.result, 0, "a sound unit is accepted");
}

/// A small unit just formatted and initialized, at times with entry-only files written into it.
pub fn fresh(random: &mut Random) -> Unit {
    let number = random.below(4) as u16;
    let record = record(random, number);
    let unit = formatted(random, &record);
    if random.chance(50) {
        with_entries_only(random, unit)
    } else {
        unit
    }
}

/// A sound unit that has nothing open, with up to four entry-only files written into it: no call
/// makes them (02, R-9).
pub fn with_entries_only(random: &mut Random, unit: Unit) -> Unit {
    let number = unit.state.unit;
    let mut builder = Builder::over(unit);
    builder.entries_only(random, 4);
    builder.finish(number)
}

#[cfg(test)]
mod tests {
    use std::collections::BTreeSet;

    use super::*;
    use crate::generate::{aged, crowded};
    use crate::layout::ENTRY_ONLY;
    use crate::straight::entries;

    /// The attributes of the entry-only files of a unit.
    fn entries_only(unit: &Unit) -> Vec<u16> {
        let attributes = entries(&unit.image).into_iter().map(|entry| entry[6]);
        attributes.filter(|word| word & ENTRY_ONLY != 0).collect()
    }

    #[test]
    fn units_of_each_kind_have_entry_only_files() {
        let random = &mut Random::new(13);
        for kind in [fresh, aged, crowded] {
            let units: Vec<Vec<u16>> = (0..60).map(|_| entries_only(&kind(random))).collect();
            assert!(units.iter().any(Vec::is_empty));
            assert!(units.iter().any(|found| found.len() > 1));
            let all: BTreeSet<u16> = units.concat().into_iter().collect();
            let expected = [0x0004, 0x000C, 0x0014, 0x4004, 0x401C];
            assert_eq!(all, BTreeSet::from(expected));
        }
    }

    #[test]
    fn what_is_formatted_has_none() {
        let random = &mut Random::new(14);
        let record = record(random, 0);
        let unit = formatted(random, &record);
        assert_eq!(entries_only(&unit), []);
        let words = unit.image.len();
        let written = with_entries_only(random, unit.clone());
        assert_eq!(written.state, unit.state);
        let changed = (0..words).filter(|&word| written.image[word] != unit.image[word]);
        let most = 16 * entries_only(&written).len();
        assert!((1..=most).contains(&changed.count()));
    }
}
