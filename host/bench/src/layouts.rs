//! Units of 4,096 slices whose free slices lie in given stretches.

use reference::generate::{add_file, shaped, Shape, Unit};
use reference::layout::name_of;
use reference::random::Random;

use crate::shapes::MANY;

/// The unit before the files that have all slices but the free ones: SYS has slices 1 to 4.
pub const EMPTY: Shape = Shape {
    h: 8,
    layers: 1,
    files: 0,
    held: (0, 0),
    ..MANY
};
/// The most slices of such a file; each may be a stretch of its own.
const HELD: usize = 125;

/// Which slices are free: 2,000 of 4,096.
pub struct Layout {
    pub title: &'static str,
    pub is_free: fn(usize) -> bool,
    /// Whether no two of them are neighbours, so that 1,000 of them are more than 127 stretches.
    pub alone: bool,
}

pub const LAYOUTS: [Layout; 4] = [
    // From 2,001 to 4,000.
    Layout {
        title: "2,000 of 4,096 slices free in one stretch",
        is_free: |slice| (2_001..=4_000).contains(&slice),
        alone: false,
    },
    // From 101 on twenty free ones and twenty others by turns: no stretch is long enough for 60 or 1,000,
    // which 01's choice takes in 3 or 50 of them.
    Layout {
        title: "the same in 100 stretches of 20",
        is_free: |slice| (101..=4_080).contains(&slice) && (slice - 101) / 20 % 2 == 0,
        alone: false,
    },
    // From 101 on ten free ones and ten others by turns, 99 times; then 1,010, from 2,081 to 3,090. So
    // one slice is found at once, and 60 or 1,000 behind the short stretches.
    Layout {
        title: "the same in 100 stretches, the last one of 1,010",
        is_free: |slice| match slice {
            101..=2_080 => (slice - 101) / 10 % 2 == 0,
            _ => (2_081..=3_090).contains(&slice),
        },
        alone: false,
    },
    // Every second slice from 90 to 4,088: no stretch is longer than one.
    Layout {
        title: "the same in 2,000 stretches",
        is_free: |slice| (90..=4_088).contains(&slice) && slice % 2 == 0,
        alone: true,
    },
];

/// Where the only stretch of 60 slices begins that a unit of [`with_stretch_at`] has: at a quarter of
/// the map, at half and at the end.
pub const PLACES: [usize; 3] = [1_025, 2_049, 4_017];

/// A unit whose map has eight free slices and eight others in each word from the seventh on, and four
/// words of free slices from this slice on: the first of a word.
pub fn with_stretch_at(first: usize) -> Unit {
    with_free(|slice| {
        let is_first_half = slice > 96 && (slice - 1) % 16 < 8;
        is_first_half || (first..first + 64).contains(&slice)
    })
}

/// A unit of which these slices are free, none of SYS's among them; nothing open, initialized.
pub fn with_free(is_free: impl Fn(usize) -> bool) -> Unit {
    let mut unit = shaped(&mut Random::new(6), &EMPTY);
    let sys = EMPTY.h.div_ceil(EMPTY.s);
    let used: Vec<usize> = (sys + 1..=EMPTY.slices).filter(|&k| !is_free(k)).collect();
    for (number, slices) in used.chunks(HELD).enumerate() {
        let name = name_of(&format!("F{number:03}"), 0);
        let length = EMPTY.s * slices.len() - 1;
        add_file(&mut unit, name, 1, length as u16, slices);
    }
    unit
}

#[cfg(test)]
mod tests {
    use super::*;
    use reference::layout::{marked_free, stretches};
    use reference::soundness;

    /// The stretches of free slices of a unit, which is sound.
    fn free_stretches(unit: &Unit) -> Vec<(usize, usize)> {
        assert_eq!(soundness(&unit.image, &unit.state), Ok(1));
        let free = (1..=4_096).filter(|&slice| marked_free(&unit.image, slice));
        stretches(&free.collect::<Vec<usize>>())
    }

    #[test]
    fn the_free_slices_lie_as_the_titles_say() {
        let longest = [2_000, 20, 1_010, 1];
        let number = [1, 100, 100, 2_000];
        for ((layout, longest), number) in LAYOUTS.iter().zip(longest).zip(number) {
            let found = free_stretches(&with_free(layout.is_free));
            let lengths = || found.iter().map(|(_, length)| *length);
            assert_eq!(found.len(), number, "{}", layout.title);
            assert_eq!(lengths().sum::<usize>(), 2_000, "{}", layout.title);
            assert_eq!(lengths().max(), Some(longest), "{}", layout.title);
        }
    }

    #[test]
    fn the_only_long_stretch_begins_where_it_shall() {
        for first in PLACES {
            let found = free_stretches(&with_stretch_at(first));
            let mut long = found.iter().filter(|(_, length)| *length > 8);
            assert_eq!(long.next(), Some(&(first, 72)));
            assert_eq!(long.next(), None);
        }
    }
}
