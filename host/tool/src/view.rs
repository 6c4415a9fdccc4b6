//! Which slices the files of a sound unit have.

use std::fmt;

use reference::layout::{stretches, Kit};
use reference::plain::Plain;
use ruzkemp::{Entry, Name};

use crate::failure::{Failure, Outcome};
use crate::session::Session;

/// A longest stretch of neighbouring slices.
#[derive(Clone, Copy, PartialEq, Eq, Debug)]
pub struct Stretch {
    /// Its first slice.
    pub first: usize,
    /// How many slices it has.
    pub slices: usize,
}

impl Stretch {
    /// Its last slice.
    pub fn last(&self) -> usize {
        self.first + self.slices - 1
    }
}

/// Its slices as first-last, or the only one.
impl fmt::Display for Stretch {
    fn fmt(&self, to: &mut fmt::Formatter) -> fmt::Result {
        match self.slices {
            1 => write!(to, "{}", self.first),
            _ => write!(to, "{}-{}", self.first, self.last()),
        }
    }
}

/// Stretches one behind the other, with something between them.
pub fn joined(stretches: &[Stretch], between: &str) -> String {
    let parts: Vec<String> = stretches.iter().map(ToString::to_string).collect();
    parts.join(between)
}

/// A file and its slices.
pub struct Holder {
    /// The name.
    pub name: Name,
    /// The booked entry.
    pub entry: Entry,
    /// The stretches, in file order.
    pub stretches: Vec<Stretch>,
}

impl Holder {
    /// How many slices the file has.
    pub fn slices(&self) -> usize {
        self.stretches.iter().map(|stretch| stretch.slices).sum()
    }
}

/// A unit's slices.
pub struct View {
    /// The unit's number.
    pub unit: u16,
    /// The kit.
    pub kit: Kit,
    /// All files in the listing's order, by name, SYS and MAP among them; MAP has no slices.
    pub files: Vec<Holder>,
    /// The stretches of free slices.
    pub free: Vec<Stretch>,
}

impl View {
    /// The entries come from the proved library's listing, the slices from the second
    /// implementation's reading of the image.
    pub fn of(session: &mut Session) -> Outcome<View> {
        let number = session.unit.number();
        let listed = session.unit.list();
        let entries = listed.map_err(|error| {
            let what = format!("list of unit {number}");
            session.unit.refused(what, error)
        })?;
        let image = session.unit.image();
        let plain = Plain::read(image, &reference::State::new(number)).map_err(|unsound| {
            Failure::Disagreement(format!(
                "the proved library accepts the image, the second implementation does not: \
                 {unsound:?}"
            ))
        })?;
        let holders = entries.into_iter().map(|entry| holder(&plain, entry));
        let free: Vec<usize> = plain.free().into_iter().collect();
        Ok(View {
            unit: number,
            kit: Kit::read(image),
            files: holders.collect(),
            free: stretches_of(&free),
        })
    }

    /// M, the number of slices.
    pub fn slices(&self) -> usize {
        self.kit.slices()
    }

    /// How many slices are free.
    pub fn free_slices(&self) -> usize {
        self.free.iter().map(|stretch| stretch.slices).sum()
    }

    /// The files that have slices, in the order of their names, SYS first.
    pub fn holders(&self) -> Vec<&Holder> {
        let held = self.files.iter().filter(|file| !file.stretches.is_empty());
        let mut holders: Vec<&Holder> = held.collect();
        holders.sort_by_key(|holder| holder.name != Name::SYS);
        holders
    }

    /// The unit in a line.
    pub fn headline(&self) -> String {
        format!(
            "unit {}: {} slices of {} sectors, {} of them free",
            self.unit,
            self.slices(),
            self.kit.s,
            self.free_slices()
        )
    }

    /// How much the files are broken up, in a line.
    pub fn fragmentation(&self) -> String {
        let holders = self.holders();
        let whole = holders.iter().filter(|holder| holder.stretches.len() == 1);
        let stretches: usize = holders.iter().map(|holder| holder.stretches.len()).sum();
        let longest = self.free.iter().map(|stretch| stretch.slices).max();
        format!(
            "{} of {} files with slices are in one stretch, all in {stretches} stretches; \
             longest free stretch: {} slices",
            whole.count(),
            holders.len(),
            longest.unwrap_or(0)
        )
    }

    /// A stretch's first and last sector.
    pub fn sectors(&self, stretch: &Stretch) -> (usize, usize) {
        let first = self.kit.first_sector(stretch.first);
        (first, first + stretch.slices * self.kit.s - 1)
    }
}

fn holder(plain: &Plain, entry: Entry) -> Holder {
    let name = entry.name();
    let none = Vec::new();
    let slices = match name {
        Name::SYS => &plain.sys,
        _ => plain
            .files
            .get(&name.to_string())
            .map_or(&none, |file| &file.slices),
    };
    Holder {
        name,
        entry,
        stretches: stretches_of(slices),
    }
}

fn stretches_of(slices: &[usize]) -> Vec<Stretch> {
    let found = stretches(slices).into_iter();
    found
        .map(|(first, slices)| Stretch { first, slices })
        .collect()
}
