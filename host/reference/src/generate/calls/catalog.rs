//! Calls of each kind.

use super::choice::{any_attributes, any_unit, entry_lent, needless_lent};
use super::{open_names, Call, Caller, Kind, Mix};
use crate::generate::builder::attributes;
use crate::generate::names::{in_message, other_case};
use crate::random::Random;
use crate::sound::{survey, Entry};
use crate::text::differ_in_case;
use crate::types::{Area, Message, Name, State};

impl Caller {
    /// A call of a kind.
    pub(super) fn call_of(
        &self,
        random: &mut Random,
        image: &[u16],
        state: &State,
        kind: Kind,
    ) -> Call {
        let unit = any_unit(random, state.unit);
        let lent = needless_lent(random);
        let message = match kind {
            Kind::Init => Message::Init { unit },
            Kind::Set => return self.set(random, image, state),
            Kind::Create => Message::Create {
                name: self.unused(random, image, state),
                size: self.size(random, image),
                attributes: any_attributes(random),
            },
            Kind::LookUp => return self.look_up(random, image, state),
            Kind::Change => return self.change(random, image, state),
            Kind::Remove => Message::Remove {
                name: self.standing(random, image, state, true),
            },
            Kind::CreateArea => self.create_area(random, image, state),
            Kind::RemoveArea => self.remove_area(random, state),
            Kind::Area => return self.area_message(random, state),
            Kind::Description => return description(random, unit),
            Kind::Listing => return listing(random, image, state, unit),
        };
        Call { message, lent }
    }

    /// Set Entry.
    fn set(&self, random: &mut Random, image: &[u16], state: &State) -> Call {
        let mut lent = entry_lent(random);
        if lent.len() >= 10 {
            lent[6] = any_attributes(random);
            lent[9] = self.size(random, image);
        }
        let name = self.unused(random, image, state);
        let message = Message::Set { name };
        Call { message, lent }
    }

    /// Look-up Entry.
    fn look_up(&self, random: &mut Random, image: &[u16], state: &State) -> Call {
        let lent = entry_lent(random);
        let name = self.standing(random, image, state, false);
        let message = Message::LookUp { name };
        Call { message, lent }
    }

    /// Change Entry, at times of a file of length 0 that gets one.
    fn change(&self, random: &mut Random, image: &[u16], state: &State) -> Call {
        if random.chance(25) {
            if let Some(call) = self.lengthen_empty(random, image, state) {
                return call;
            }
        }
        let mut lent = entry_lent(random);
        let name = self.standing(random, image, state, true);
        if lent.len() >= 10 {
            self.fill_change(random, image, state, name, &mut lent);
        }
        let message = Message::Change { name };
        Call { message, lent }
    }

    /// Writes the name, the attributes and the length that Change Entry shall set or keep.
    fn fill_change(
        &self,
        random: &mut Random,
        image: &[u16],
        state: &State,
        name: Name,
        lent: &mut [u16],
    ) {
        let keeps = if self.mix == Mix::Fill { 20 } else { 50 };
        if random.chance(keeps) {
            lent[0] = 0;
        } else {
            let new = match random.below(10) {
                0 | 1 => other_case(random, name),
                2 => self.standing(random, image, state, false),
                _ => self.unused(random, image, state),
            };
            lent[..3].copy_from_slice(&new);
        }
        lent[6] = if random.chance(50) {
            random.pick(&[0xFFFF, 0x8000, 0x8010, 0x8004])
        } else {
            any_attributes(random)
        };
        lent[9] = if random.chance(45) {
            random.pick(&[0xFFFF, 0x8000, 0x8001])
        } else {
            self.size(random, image)
        };
        if random.chance(12) {
            // Attributes only, which a permanent file takes too.
            lent[0] = 0;
            lent[6] = attributes(random);
            lent[9] = 0xFFFF;
        }
    }

    /// Create Area Process, often for a file that has slices or whose name differs in case only from
    /// an open one.
    fn create_area(&self, random: &mut Random, image: &[u16], state: &State) -> Message {
        let entries = survey(image, state).map_or(vec![], |survey| survey.entries);
        let is_long = |entry: &&Entry| !entry.slices.is_empty();
        let long: Vec<Name> = entries.iter().filter(is_long).map(Entry::name).collect();
        let beside = beside_open(state, entries.iter().map(Entry::name));
        let name = if !beside.is_empty() && random.chance(40) {
            let name = random.pick(&beside);
            in_message(random, name, state.unit)
        } else if !long.is_empty() && random.chance(60) {
            let name = random.pick(&long);
            in_message(random, name, state.unit)
        } else {
            self.standing(random, image, state, true)
        };
        Message::CreateArea { name }
    }

    /// Remove Area Process, often of one without users.
    fn remove_area(&self, random: &mut Random, state: &State) -> Message {
        let mut open: Vec<Name> = open_names(state);
        let used = |area: &Area| area.users.iter().any(|user| !user.is_vacant());
        let idle = state.areas.iter().filter(|area| area.live && !used(area));
        let idle: Vec<Name> = idle.map(|area| area.name).collect();
        if !idle.is_empty() && random.chance(70) {
            open = idle;
        }
        let name = if !open.is_empty() && random.chance(85) {
            let name = random.pick(&open);
            in_message(random, name, state.unit)
        } else {
            self.name(random, state.unit)
        };
        Message::RemoveArea { name }
    }
}

/// Those of the names that are not open and differ from an open one in case only.
fn beside_open(state: &State, names: impl Iterator<Item = Name>) -> Vec<Name> {
    let open = open_names(state);
    let is_beside = |name: &Name| open.iter().any(|other| differ_in_case(*name, *other));
    let closed = names.filter(|name| !open.contains(name));
    closed.filter(is_beside).collect()
}

/// Get Unit Description.
fn description(random: &mut Random, unit: u16) -> Call {
    let number = random.pick(&[16, 16, 16, 17, 40, 15, 0]);
    let lent = random.words(number);
    let bytes = random.pick(&[32, 32, 32, 33, 512, 0x8000, 0xFFFF, 31, 0]);
    let message = Message::UnitDescription { unit, bytes };
    Call { message, lent }
}

/// The listing, with room for all entries most of the time.
fn listing(random: &mut Random, image: &[u16], state: &State, unit: u16) -> Call {
    let entries = survey(image, state).map_or(2, |survey| survey.entries.len());
    let number = match random.below(5) {
        0 => random.below(16 * entries),
        1 => 16 * entries - 1,
        2 => 16 * entries,
        _ => 16 * entries + random.below(40),
    };
    let lent = random.words(number);
    let message = Message::Listing { unit };
    Call { message, lent }
}
