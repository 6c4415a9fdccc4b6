//! Names, sizes, attributes and lent words of calls.

use super::{names_in, open_names, Caller, Mix, Sizes};
use crate::generate::builder::{attributes, entry_only};
use crate::generate::names::{in_message, in_two_cases, other_case};
use crate::layout::{bit_word, Kit, ENTRY_ONLY, KIT, MAP, PERMANENT, SECTOR, SYS};
use crate::random::Random;
use crate::sound::{survey, Entry, Survey};
use crate::types::{Name, State};

impl Caller {
    /// A name, standing or not.
    pub(super) fn name(&self, random: &mut Random, unit: u16) -> Name {
        let name = if random.chance(2) {
            random.pick(&[SYS, MAP])
        } else {
            random.pick(&self.names)
        };
        in_message(random, name, unit)
    }

    /// A name that does not stand in the catalog, most of the time, and often differs from one that
    /// stands in case only.
    pub(super) fn unused(&self, random: &mut Random, image: &[u16], state: &State) -> Name {
        if random.chance(60) {
            if let Ok(survey) = survey(image, state) {
                if random.chance(20) {
                    let standing = random.pick(&names_in(&survey));
                    let name = other_case(random, standing);
                    return in_message(random, name, state.unit);
                }
                let mut names = self.names.clone();
                names.retain(|name| survey.find(*name).is_none());
                return self.one_of(random, &names, state.unit);
            }
        }
        self.name(random, state.unit)
    }

    /// A name that stands in the catalog, most of the time, often an entry-only file's or one beside
    /// which another stands that differs in case only; `files` leaves SYS and MAP out.
    pub(super) fn standing(
        &self,
        random: &mut Random,
        image: &[u16],
        state: &State,
        files: bool,
    ) -> Name {
        if random.chance(80) {
            if let Ok(survey) = survey(image, state) {
                let mut names = names_in(&survey);
                let entries_only = entries_only_in(&survey);
                if random.chance(25) {
                    names = in_two_cases(&names);
                } else if !entries_only.is_empty() && random.chance(25) {
                    names = entries_only;
                }
                names.retain(|name| !files || (*name != SYS && *name != MAP));
                return self.one_of(random, &names, state.unit);
            }
        }
        self.name(random, state.unit)
    }

    /// One of the names, any name if there are none.
    fn one_of(&self, random: &mut Random, names: &[Name], unit: u16) -> Name {
        if names.is_empty() {
            return self.name(random, unit);
        }
        let name = random.pick(names);
        in_message(random, name, unit)
    }

    /// A size as the mix has it.
    pub(super) fn size(&self, random: &mut Random, image: &[u16]) -> u16 {
        if self.mix == Mix::Fill && random.chance(70) {
            random.between(0, 3) as u16
        } else {
            size(random, image, self.sizes)
        }
    }
}

/// The names of the entry-only files.
fn entries_only_in(survey: &Survey) -> Vec<Name> {
    let entries = survey.entries.iter();
    let entries_only = entries.filter(|entry| entry.words[6] & ENTRY_ONLY != 0);
    entries_only.map(Entry::name).collect()
}

/// Those of the files that have no slices and may get some: neither open nor permanent.
pub(super) fn bare_in<'a>(files: &[&'a Entry], state: &State) -> Vec<&'a Entry> {
    let open = open_names(state);
    let is_bare = |file: &&&Entry| {
        let is_permanent = file.words[6] & PERMANENT != 0;
        file.slices.is_empty() && !is_permanent && !open.contains(&file.name())
    };
    files.iter().filter(is_bare).copied().collect()
}

/// A size for which several slices of `s` sectors are needed.
pub(super) fn several(random: &mut Random, s: usize) -> u16 {
    random.between(s, 5 * s - 1) as u16
}

/// A size, mostly small, at times around what is free or what an index holds.
fn size(random: &mut Random, image: &[u16], sizes: Sizes) -> u16 {
    let (s, free) = if image.len() >= (KIT + 1) * SECTOR {
        let kit = Kit::read(image);
        (kit.s.clamp(2, 64), kit.free)
    } else {
        (2, 0)
    };
    let draw = match sizes {
        Sizes::Stretches if random.chance(40) => 10,
        _ => random.below(16),
    };
    match draw {
        0..=5 => random.between(0, 3 * s) as u16,
        6..=7 => {
            let slices = random.between(1, 8);
            around(random, slices * s, s)
        }
        8 => around(random, free, s),
        9 => around(random, free / 2, s),
        10 if sizes == Sizes::Stretches => {
            let stretches = random.pick(&[127, 128, 129, 130]);
            around(random, stretches * s, s)
        }
        10 => random.between(0, free / 4) as u16,
        11 => random.pick(&[32_767, 32_766, 32_768, 65_535, 0, 1]),
        12 => random.between(0, free) as u16,
        _ => random.pick(&[0, 0, 1, 1]),
    }
}

/// A size at most one more than a slice away from another.
fn around(random: &mut Random, middle: usize, s: usize) -> u16 {
    let low = middle.saturating_sub(s + 1);
    random.between(low, middle + s + 1).min(65_535) as u16
}

/// Attributes, now and then illegal ones, many of them by bit 13: alone, with bits that a caller may
/// give, with bit 15, with any one bit.
pub(super) fn any_attributes(random: &mut Random) -> u16 {
    match random.below(21) {
        0 => entry_only(random),
        1 => 0x0005,
        2 => ENTRY_ONLY | bit_word(random.below(16)),
        3 => random.word(),
        4 => bit_word(random.below(16)),
        _ => attributes(random),
    }
}

/// The unit's number, now and then another.
pub(super) fn any_unit(random: &mut Random, unit: u16) -> u16 {
    if random.chance(90) {
        return unit;
    }
    let other = random.word();
    random.pick(&[0, 1, 2, 3, 4, unit.wrapping_add(256), other])
}

/// Lent words for a call that needs none: now and then some.
pub(super) fn needless_lent(random: &mut Random) -> Vec<u16> {
    if !random.chance(10) {
        return Vec::new();
    }
    let number = random.below(20);
    random.words(number)
}

/// A lent record of 16 random words, now and then longer or too short.
pub(super) fn entry_lent(random: &mut Random) -> Vec<u16> {
    let number = match random.below(25) {
        0 => random.below(16),
        1 => 15,
        2..=5 => 16 + random.below(5),
        _ => 16,
    };
    random.words(number)
}
