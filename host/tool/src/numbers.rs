//! The numbers of a unit (N, F, s, H): those that `format` takes where none are given, and the
//! nearest legal ones where Format refuses.
//!
//! The limits are read from the second implementation's kit; the proved Format judges.

use reference::layout::{Kit, KitFault};

use crate::meaning;

/// The data sectors of a unit whose length is not given: 256 slices of 4.
const DATA: u16 = 1_024;
/// The first data sector, where it may be any.
const FIRST: u16 = 10;
/// The most sectors of a unit.
const MOST_SECTORS: u16 = 32_767;
/// The least and the most sectors of a slice.
const SLICE: [u16; 2] = [2, 64];
/// The most slices of a unit.
const MOST_SLICES: u16 = 4_096;
/// Below so many data sectors slices of 2 are better than slices of 4.
const SMALL: u16 = 64;
/// For so many slices there is a key.
const SLICES_A_KEY: u16 = 32;

/// The options that give the numbers, in the order of [`Wanted::given`].
pub const OPTIONS: [&str; 4] = ["--sectors", "--first", "--slice", "--keys"];

/// The limits that numbers past 16 bits break, whatever the others are, in the same order.
pub const PASSED: [KitFault; 4] = [
    KitFault::Sectors,
    KitFault::Sectors,
    KitFault::SliceSize,
    KitFault::SysSize,
];

/// The numbers that are given.
#[derive(Clone, Copy, PartialEq, Eq, Debug, Default)]
pub struct Wanted {
    /// N, F, s and H, where given.
    pub given: [Option<u16>; 4],
    /// The sectors of the file that is formatted as it stands, if there is one.
    pub file: Option<u16>,
}

/// The numbers of a unit.
#[derive(Clone, Copy, PartialEq, Eq, Debug)]
pub struct Numbers {
    /// N, the sectors.
    pub sectors: u16,
    /// F, the first data sector.
    pub first: u16,
    /// s, the sectors of a slice.
    pub slice: u16,
    /// H, the keys.
    pub keys: u16,
}

impl Numbers {
    /// The limit that the numbers break, if they break one.
    fn broken(&self) -> Option<KitFault> {
        let Numbers {
            sectors,
            first,
            slice,
            keys,
        } = *self;
        let free = sectors.wrapping_sub(first);
        let kit = Kit::from_words(&[keys, slice, sectors, free, first, sectors]);
        kit.limits().err()
    }
}

impl Wanted {
    /// The numbers given, and beside them those that are taken. If they are not legal, none that
    /// would be taken are, and the limit that they break is one that the numbers given break: where
    /// slices can be had, that there are too many or too few of them.
    pub fn chosen(&self) -> Numbers {
        let slice = self.given[2];
        let (best, others) = by_preference(self.data());
        let mut chosen = self.around(slice.unwrap_or(best));
        let others = others.take_while(|_| slice.is_none());
        for numbers in others.map(|slice| self.around(slice)) {
            // Another slice size does not mend any other fault.
            let whole = match chosen.broken() {
                Some(KitFault::Remainder) => false,
                Some(KitFault::TooManySlices | KitFault::TooFewSlices) => true,
                _ => break,
            };
            let fault = numbers.broken();
            if fault.is_none() || !whole && fault != Some(KitFault::Remainder) {
                chosen = numbers;
            }
        }
        chosen
    }

    /// The data sectors; where N may be any, as many as are wanted and fit.
    fn data(&self) -> u16 {
        let first = self.given[1].unwrap_or(FIRST);
        let most = MOST_SECTORS.saturating_sub(first).min(DATA);
        let sectors = self.sectors();
        sectors.map_or(most, |sectors| sectors.saturating_sub(first))
    }

    /// The chosen numbers, if they are legal and the file has so many sectors. All slice sizes are
    /// tried, but of F only the one of [`Wanted::around`]: with N 32767 and s 4 a legal F is to be
    /// had, 16383, but half of the unit would be lost by it unasked.
    fn legal(&self) -> Option<Numbers> {
        let fits = |numbers: &Numbers| self.file.is_none_or(|file| file == numbers.sectors);
        let chosen = Some(self.chosen()).filter(fits);
        chosen.filter(|numbers| numbers.broken().is_none())
    }

    /// N, where it is given or that of the file.
    fn sectors(&self) -> Option<u16> {
        self.given[0].or(self.file)
    }

    /// Numbers with a slice size: F is the first sector from which on whole slices fill the
    /// unit, N has about as many as a unit of 1,034 sectors, and there is a key for 32 slices.
    /// A slice size past its limits is taken as the limit in this.
    fn around(&self, slice: u16) -> Numbers {
        let [_, first, _, keys] = self.given;
        let size = slice.clamp(SLICE[0], SLICE[1]);
        // Where there is no room for a slice, all that there is.
        let unfilled = |room: u16| if room < size { 0 } else { room % size };
        let (sectors, first) = match (self.sectors(), first) {
            (Some(sectors), Some(first)) => (sectors, first),
            (Some(sectors), None) => (sectors, FIRST + unfilled(sectors.saturating_sub(FIRST))),
            (None, first) => {
                let (first, room) = (first.unwrap_or(FIRST), self.data());
                let sectors = first + room - unfilled(room);
                (sectors.min(MOST_SECTORS), first)
            }
        };
        let slices = sectors.saturating_sub(first) / size;
        let keys = keys.unwrap_or(slices.div_ceil(SLICES_A_KEY).clamp(1, 64));
        Numbers {
            sectors,
            first,
            slice,
            keys,
        }
    }

    /// The limit that the chosen numbers break, in words. A number that is not given is no reason,
    /// because another would have been chosen.
    pub fn broken(&self) -> Option<String> {
        use KitFault::{Remainder, Sectors};
        let numbers = self.chosen();
        let fault = numbers.broken()?;
        let [_, first, slice, _] = self.given;
        let least = if slice.is_none() { "at least " } else { "" };
        let no_room = format!("no room for a slice of {least}{} sectors", numbers.slice);
        Some(match (fault, self.sectors(), first) {
            (Sectors | Remainder, Some(..=MOST_SECTORS), None) => format!(
                "N (--sectors) is too small: {no_room} from F on, which is at least {FIRST}"
            ),
            (Sectors | Remainder, None, Some(_)) => format!(
                "F (--first) is too large: {no_room} before N, which is at most {MOST_SECTORS}"
            ),
            (Remainder, ..) if slice.is_none() => {
                let [least, most] = SLICE;
                format!(
                    "no s (--slice) of {least} to {most} divides N - F (--sectors less --first)"
                )
            }
            _ => meaning::of_limit(fault).into(),
        })
    }

    /// For each number given, the nearest below and above it with which the others given are
    /// legal, as options. Where one number alone is not enough, several that are legal together.
    pub fn nearest(&self) -> Vec<String> {
        let mut nearest = Vec::new();
        for (number, option) in OPTIONS.iter().enumerate() {
            let Some(given) = self.given[number] else {
                continue;
            };
            let is_legal = |value: &u16| self.with(number, Some(*value)).legal().is_some();
            let below = (0..given).rev().find(is_legal);
            let above = (given..=u16::MAX).skip(1).find(is_legal);
            let values = below.into_iter().chain(above);
            nearest.extend(values.map(|value| format!("{option} {value}")));
        }
        match nearest.is_empty() {
            true => self.together().into_iter().collect(),
            false => nearest,
        }
    }

    /// As few of the numbers given as possible that have to be others, with legal ones: one after
    /// the other the nearest with which there are legal ones for the rest.
    fn together(&self) -> Option<String> {
        let given = |number: &usize| self.given[*number].is_some();
        let mut sets: Vec<Vec<usize>> = (1..16).map(numbers_of).collect();
        sets.retain(|set| set.iter().all(given));
        sets.sort_by_key(Vec::len);
        let set = sets.into_iter().find(|set| self.can_be_legal(set))?;
        let mut wanted = *self;
        let mut options = Vec::new();
        for (place, number) in set.iter().enumerate() {
            let is_possible = |value: &u16| {
                let others = wanted.with(*number, Some(*value));
                others.can_be_legal(&set[place + 1..])
            };
            let value = by_distance(self.given[*number]?).find(is_possible)?;
            wanted = wanted.with(*number, Some(value));
            options.push(format!("{} {value}", OPTIONS[*number]));
        }
        Some(options.join(" with "))
    }

    /// Whether there are legal numbers if these may be any. An F that may be any may also leave
    /// sectors unused, so that there are no more than 4,096 slices.
    fn can_be_legal(&self, any: &[usize]) -> bool {
        let freed = any
            .iter()
            .fold(*self, |wanted, number| wanted.with(*number, None));
        let chosen = freed.chosen();
        let slices = chosen.slice.saturating_mul(MOST_SLICES);
        let last = any.contains(&1).then(|| chosen.sectors.checked_sub(slices));
        let with_last = last.flatten().map(|first| freed.with(1, Some(first)));
        freed.legal().is_some() || with_last.is_some_and(|wanted| wanted.legal().is_some())
    }

    fn with(mut self, number: usize, value: Option<u16>) -> Wanted {
        self.given[number] = value;
        self
    }
}

/// The numbers of a set, which has a bit for each.
fn numbers_of(set: u8) -> Vec<usize> {
    let all = 0..OPTIONS.len();
    all.filter(|number| set & 1 << number != 0).collect()
}

/// All words, the nearest to one first; of two as near, the lower.
fn by_distance(word: u16) -> impl Iterator<Item = u16> {
    let pairs = (0..=u16::MAX).map(move |by| [word.checked_sub(by), word.checked_add(by)]);
    pairs.flatten().flatten()
}

/// The slice sizes, the better ones first: 4, or 2 on a small unit, then the powers of 2.
fn by_preference(data: u16) -> (u16, impl Iterator<Item = u16>) {
    let (best, powers) = match data < SMALL {
        true => (2, [4, 8, 16, 32, 64]),
        false => (4, [8, 2, 16, 32, 64]),
    };
    let others = (3..64).filter(|slice: &u16| !slice.is_power_of_two());
    (best, powers.into_iter().chain(others))
}

#[cfg(test)]
mod tests {
    use super::*;

    fn chosen(given: [Option<u16>; 4]) -> [u16; 4] {
        let wanted = Wanted { given, file: None };
        let Numbers {
            sectors,
            first,
            slice,
            keys,
        } = wanted.chosen();
        [sectors, first, slice, keys]
    }

    #[test]
    fn numbers_that_are_not_given_suit_those_that_are() {
        // N, F, s, H; the keys are the slices by 32, rounded up.
        assert_eq!(chosen([None; 4]), [1_034, 10, 4, 8]);
        // 990 sectors are 247 slices of 4 and 2 sectors, which go before F.
        assert_eq!(chosen([Some(1_000), None, None, None]), [1_000, 12, 4, 8]);
        assert_eq!(chosen([Some(20), None, None, None]), [20, 10, 2, 1]);
        assert_eq!(chosen([Some(12), None, None, None]), [12, 10, 2, 1]);
        // 32,757 sectors are 4,094 slices of 8 and 5 sectors.
        let most = [32_767, 15, 8, 64];
        assert_eq!(chosen([Some(32_767), None, None, None]), most);
        // 985 = 5 times 197.
        let five = [995, 10, 5, 7];
        assert_eq!(chosen([Some(995), Some(10), None, None]), five);
        // 341 slices of 3 sectors.
        assert_eq!(chosen([None, None, Some(3), None]), [1_033, 10, 3, 11]);
        let last = [32_767, 32_765, 2, 1];
        assert_eq!(chosen([None, Some(32_765), None, None]), last);
        // There is room for 47 data sectors.
        let late = [32_766, 32_720, 2, 1];
        assert_eq!(chosen([None, Some(32_720), None, None]), late);
        assert_eq!(chosen([None, None, None, Some(64)]), [1_034, 10, 4, 64]);
    }

    #[test]
    fn every_length_from_12_on_has_legal_numbers() {
        for sectors in 0..=u16::MAX {
            let given = [Some(sectors), None, None, None];
            let numbers = Wanted { given, file: None }.chosen();
            assert_eq!(numbers.sectors, sectors);
            let legal = (12..=32_767).contains(&sectors);
            assert_eq!(numbers.broken().is_none(), legal, "{numbers:?}");
        }
    }

    /// Of F the least from which on there are whole slices is enough for that.
    #[test]
    fn on_a_small_unit_legal_numbers_are_found_if_there_are_any() {
        for sectors in 0..60 {
            for keys in [0, 1, 2, 3, 10, 31, 32, 33, 48, 64, 65] {
                let given = [Some(sectors), None, None, Some(keys)];
                let mut all = (10..sectors).flat_map(|first| (2..=64).map(move |s| (first, s)));
                let any = all.any(|(first, slice)| {
                    let numbers = Numbers {
                        sectors,
                        first,
                        slice,
                        keys,
                    };
                    numbers.broken().is_none()
                });
                let wanted = Wanted { given, file: None };
                assert_eq!(wanted.legal().is_some(), any, "{given:?}");
                assert_eq!(wanted.broken().is_none(), any, "{given:?}");
            }
        }
    }

    #[test]
    fn two_wrong_numbers_are_told_together() {
        // 10 sectors are 5 slices of 2, which are enough for 10 keys.
        let given = [Some(20), Some(10), Some(1), Some(65)];
        let nearest = Wanted { given, file: None }.nearest();
        assert_eq!(nearest, ["--slice 2 with --keys 10"]);
    }
}
