//! The catalog messages, the unit description and the listing.
//!
//! The questions are asked from the top; question 2 was answered when the unit was read.

use super::names::{text, unit_in};
use super::{accepted, ask, File, Outcome, Plain, Refused};
use crate::types::{Answer, Name};

/// Entry words 3 to 5 of a lent entry.
fn optional_in(lent: &[u16]) -> [u16; 3] {
    [lent[3], lent[4], lent[5]]
}

/// Entry words 10 to 15 of a lent entry.
fn tail_in(lent: &[u16]) -> [u16; 6] {
    [lent[10], lent[11], lent[12], lent[13], lent[14], lent[15]]
}

/// Whether a caller may give these attributes: bit 13 is withdrawn (02, R-9).
fn may_give(attributes: u16) -> bool {
    let bit = |number: u32| attributes & (1 << (15 - number)) != 0;
    let others = (0..16).filter(|number| ![1, 11, 12, 15].contains(number));
    !others.into_iter().any(bit)
}

/// What a Change asks for: the file as it would stand after the message.
struct Changed {
    name: String,
    attributes: u16,
    length: usize,
    /// Whether the length is another one.
    resized: bool,
    /// How many slices the file shall have.
    wanted: usize,
}

impl File {
    fn is_permanent(&self) -> bool {
        self.attributes & 16 != 0
    }

    /// The step of Change; `list` are the slices for the new length.
    fn change(&mut self, new: &Changed, list: Vec<usize>, lent: &[u16]) {
        if !self.is_permanent() {
            self.optional = optional_in(lent);
            self.tail = tail_in(lent);
        }
        self.attributes = new.attributes;
        if new.resized {
            self.booked_length = new.length;
            self.booked_slices = list.len();
            self.slices = list;
            self.sectors.resize(new.length, [0; 256]);
        }
    }
}

impl Plain {
    pub(super) fn init(&mut self, unit: u16) -> Outcome {
        ask(self.knows(unit) && self.areas.is_empty(), 0x1200)?;
        accepted()
    }

    pub(super) fn set(&mut self, name: Name, lent: &[u16]) -> Outcome {
        ask(self.knows(unit_in(name)), 0x1200)?;
        ask(lent.len() >= 16, 0x1200)?;
        let file = File {
            attributes: lent[6],
            optional: optional_in(lent),
            tail: tail_in(lent),
            booked_length: lent[9] as usize,
            booked_slices: 0,
            slices: vec![],
            sectors: vec![],
        };
        self.add(name, file)
    }

    pub(super) fn create(&mut self, name: Name, size: u16, attributes: u16) -> Outcome {
        ask(self.knows(unit_in(name)), 0x1200)?;
        let file = File {
            attributes,
            optional: [0; 3],
            tail: [0; 6],
            booked_length: size as usize,
            booked_slices: 0,
            slices: vec![],
            sectors: vec![],
        };
        self.add(name, file)
    }

    /// Adds a file whose booked length is its size; the rest of its lists is made here.
    fn add(&mut self, name: Name, mut file: File) -> Outcome {
        let size = file.booked_length;
        ask(size < 32_768, 0x1200)?;
        let name = text(name).ok_or(Refused(0x1200, 0))?;
        ask(may_give(file.attributes), 0x1200)?;
        ask(!self.stands(&name), 0x1010)?;
        let grows = self.crowded(&name, None);
        let (sys, list) = self.lists_after(grows, &[], self.slices_for(size))?;
        self.sys = sys;
        self.layers += usize::from(grows);
        file.booked_slices = list.len();
        file.slices = list;
        file.sectors = vec![[0; 256]; size];
        self.files.insert(name, file);
        accepted()
    }

    /// Whether one more name of this key makes SYS grow; `leaving` is a name that goes.
    fn crowded(&self, name: &str, leaving: Option<&str>) -> bool {
        let key = self.key_of(name);
        let of_key = self
            .names()
            .into_iter()
            .filter(|other| self.key_of(other) == key && Some(other.as_str()) != leaving);
        of_key.count() >= 16 * self.layers
    }

    pub(super) fn look_up(&mut self, name: Name, lent: &mut [u16]) -> Outcome {
        ask(self.knows(unit_in(name)), 0x1200)?;
        let name = self.standing(name, 0x5000)?;
        ask(lent.len() >= 16, 0x1200)?;
        lent[..16].copy_from_slice(&self.booked(&name));
        accepted()
    }

    pub(super) fn change(&mut self, name: Name, lent: &[u16]) -> Outcome {
        ask(self.knows(unit_in(name)), 0x1200)?;
        let old = self.standing(name, 0x5000)?;
        let new = self.changed(&old, lent)?;
        // Question 5.
        let file = &self.files[&old];
        ask(!self.areas.contains_key(&old), 0x1200)?;
        let kept = old == new.name && !new.resized;
        ask(!file.is_permanent() || kept, 0x1200)?;
        // Question 6.
        ask(old == new.name || !self.stands(&new.name), 0x1010)?;
        // Questions 7 and 8.
        let grows = old != new.name && self.crowded(&new.name, Some(&old));
        let (sys, list) = self.lists_after(grows, &file.slices, new.wanted)?;
        // The step.
        self.sys = sys;
        self.layers += usize::from(grows);
        let mut file = self.files.remove(&old).expect("the file stands");
        file.change(&new, list, lent);
        self.files.insert(new.name, file);
        accepted()
    }

    /// Question 4 for Change: the file as it would stand after the message. SYS and MAP are
    /// refused here already: question 5 gives the same word.
    fn changed(&self, old: &str, lent: &[u16]) -> Result<Changed, Refused> {
        ask(lent.len() >= 16, 0x1200)?;
        let file = self.files.get(old).ok_or(Refused(0x1200, 0))?;
        let name = match lent[0] {
            0 => old.to_string(),
            _ => text([lent[0], lent[1], lent[2]]).ok_or(Refused(0x1200, 0))?,
        };
        let given = (lent[6] < 32_768).then_some(lent[6]);
        ask(given.is_none_or(may_give), 0x1200)?;
        let length = match lent[9] {
            0..=32_767 => lent[9] as usize,
            _ => file.booked_length,
        };
        let resized = length != file.booked_length;
        let wanted = if resized {
            self.slices_for(length)
        } else {
            file.slices.len()
        };
        // A file that keeps bit 13 gets no slices.
        let attributes = given.unwrap_or(file.attributes);
        ask(attributes & 4 == 0 || wanted == 0, 0x1200)?;
        Ok(Changed {
            name,
            attributes,
            length,
            resized,
            wanted,
        })
    }

    pub(super) fn remove(&mut self, name: Name) -> Outcome {
        ask(self.knows(unit_in(name)), 0x1200)?;
        let name = self.standing(name, 0x5000)?;
        let file = self.files.get(&name).ok_or(Refused(0x1200, 0))?;
        ask(!self.areas.contains_key(&name), 0x1200)?;
        ask(!file.is_permanent(), 0x1200)?;
        self.files.remove(&name);
        accepted()
    }

    pub(super) fn describe(&mut self, unit: u16, bytes: u16, lent: &mut [u16]) -> Outcome {
        ask(self.knows(unit), 0x1200)?;
        ask(bytes >= 32 && lent.len() >= 16, 0x1200)?;
        let free = self.free().len() * self.s;
        let described = [
            0,
            unit,
            0,
            20,
            0x554E,
            0x4954,
            unit * 256,
            0,
            0,
            0,
            0,
            0,
            self.h as u16,
            self.s as u16,
            self.n as u16,
            free as u16,
        ];
        lent[..16].copy_from_slice(&described);
        Ok(Answer {
            bytes: 32,
            ..Answer::default()
        })
    }

    pub(super) fn list(&mut self, unit: u16, lent: &mut [u16]) -> Outcome {
        ask(self.knows(unit), 0x1200)?;
        let names = self.names();
        ask(lent.len() >= 16 * names.len(), 0x1200)?;
        for (number, name) in names.iter().enumerate() {
            lent[16 * number..16 * number + 16].copy_from_slice(&self.booked(name));
        }
        Ok(Answer {
            entries: names.len() as u32,
            ..Answer::default()
        })
    }
}
