//! The plain unit: names, slice lists and sector lists, and nothing of how they lie on a disc.
//!
//! It shares only the types of messages and answers with the rest of the crate, so that the
//! two accounts can be compared. [`Plain::read`] takes it from a sound image and state,
//! [`Plain::step`] carries out a call on its own fields, [`Plain::agrees`] says whether an
//! image and a state represent it. [`image_after`] and [`state_after`] give, from the plain
//! units before and after a step, every word of the image and the state after it.

mod agrees;
mod areas;
mod catalog;
mod disc;
mod image_after;
mod names;
mod read;
mod slices;
mod state_after;
mod transput;

use std::collections::BTreeMap;

use crate::types::{Answer, Message, Name, Role};
use names::{text, words_of};

pub use image_after::image_after;
pub use state_after::state_after;

/// One sector's words.
pub type Block = [u16; 256];

/// A user of an open area.
#[derive(Clone, PartialEq, Eq, Debug)]
pub struct Member {
    /// The sender's number.
    pub id: u16,
    /// The role.
    pub role: Role,
    /// The open count.
    pub opens: u32,
    /// The position.
    pub position: usize,
}

/// What the plain unit holds for a name other than SYS and MAP.
#[derive(Clone, PartialEq, Eq, Debug)]
pub struct File {
    /// The attributes.
    pub attributes: u16,
    /// Entry words 3 to 5.
    pub optional: [u16; 3],
    /// Entry words 10 to 15.
    pub tail: [u16; 6],
    /// The booked length.
    pub booked_length: usize,
    /// The booked number of slices.
    pub booked_slices: usize,
    /// The slice list.
    pub slices: Vec<usize>,
    /// The list of sectors; its length is the live length.
    pub sectors: Vec<Block>,
}

/// The plain unit, initialized.
#[derive(Clone, PartialEq, Eq, Debug)]
pub struct Plain {
    /// The unit number.
    pub unit: u16,
    /// H.
    pub h: usize,
    /// s.
    pub s: usize,
    /// F.
    pub f: usize,
    /// N.
    pub n: usize,
    /// L.
    pub layers: usize,
    /// SYS's slices.
    pub sys: Vec<usize>,
    /// The files by name, SYS and MAP not among them.
    pub files: BTreeMap<String, File>,
    /// The open areas by name, with their users in no particular order.
    pub areas: BTreeMap<String, Vec<Member>>,
}
/// Why a step is refused: the result word and the block handed back.
struct Refused(u16, usize);

type Outcome = Result<Answer, Refused>;

fn ask(yes: bool, word: u16) -> Result<(), Refused> {
    if yes {
        Ok(())
    } else {
        Err(Refused(word, 0))
    }
}

fn accepted() -> Outcome {
    Ok(Answer::default())
}

impl Plain {
    /// Carries out a call on the plain unit. Nothing but `lent` and `self` is looked at.
    pub fn step(&mut self, message: &Message, lent: &mut [u16]) -> Answer {
        let done = match *message {
            Message::Init { unit } => self.init(unit),
            Message::Set { name } => self.set(name, lent),
            Message::Create {
                name,
                size,
                attributes,
            } => self.create(name, size, attributes),
            Message::LookUp { name } => self.look_up(name, lent),
            Message::Change { name } => self.change(name, lent),
            Message::Remove { name } => self.remove(name),
            Message::CreateArea { name } => self.create_area(name),
            Message::RemoveArea { name } => self.remove_area(name),
            Message::AreaMessage {
                name,
                sender,
                operation,
            } => self.area_message(name, sender, operation, lent),
            Message::UnitDescription { unit, bytes } => self.describe(unit, bytes, lent),
            Message::Listing { unit } => self.list(unit, lent),
        };
        match done {
            Ok(answer) => answer,
            Err(Refused(result, block)) => Answer {
                result,
                bytes: 0,
                block: block as u16,
                entries: 0,
            },
        }
    }

    /// The unit is this one, 0 to 3.
    fn knows(&self, unit: u16) -> bool {
        self.unit == unit && unit < 4
    }

    fn key_of(&self, name: &str) -> usize {
        let total: u32 = words_of(name).iter().map(|&word| word as u32).sum();
        (total % 65_536) as usize % self.h
    }

    /// Whether a name stands in the catalog.
    fn stands(&self, name: &str) -> bool {
        name == "SYS" || name == "MAP" || self.files.contains_key(name)
    }

    /// The text of a name that stands in the catalog, or the refusal with this word.
    fn standing(&self, name: Name, word: u16) -> Result<String, Refused> {
        let found = text(name).filter(|name| self.stands(name));
        found.ok_or(Refused(word, 0))
    }

    /// All names in the order of the listing, SYS and MAP in their places: that of the numbers
    /// which the three words are, written one after the other.
    pub fn names(&self) -> Vec<String> {
        let mut names: Vec<String> = self.files.keys().cloned().collect();
        names.push("SYS".into());
        names.push("MAP".into());
        names.sort_by_key(|name| {
            let [first, second, third] = words_of(name).map(u64::from);
            (first * 65_536 + second) * 65_536 + third
        });
        names
    }

    /// The booked entry of a name that stands.
    pub fn booked(&self, name: &str) -> [u16; 16] {
        let mut entry = [0; 16];
        entry[..3].copy_from_slice(&words_of(name));
        match name {
            "SYS" => {
                let length = self.h * self.layers;
                let slices = length.div_ceil(self.s);
                entry[6..10].copy_from_slice(&[0x8010, length as u16, 6, (slices * self.s) as u16]);
            }
            "MAP" => entry[6..10].copy_from_slice(&[0x8010, 1, 7, 1]),
            _ => {
                let file = &self.files[name];
                entry[3..6].copy_from_slice(&file.optional);
                entry[6] = file.attributes;
                entry[7] = file.booked_length as u16;
                if file.booked_slices > 0 {
                    entry[8] = self.index_sector(&file.slices) as u16;
                }
                entry[9] = (file.booked_slices * self.s) as u16;
                entry[10..].copy_from_slice(&file.tail);
            }
        }
        entry
    }
}
