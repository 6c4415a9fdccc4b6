//! The plain unit read from an image and a state that are sound together.

use std::collections::BTreeMap;

use super::disc::{name_in, Disc};
use super::names::text;
use super::{File, Member, Plain};
use crate::sound::{soundness, Unsound};
use crate::types::{Area, State};

impl Plain {
    /// Reads the plain unit from an image and a state that are sound together.
    pub fn read(image: &[u16], state: &State) -> Result<Plain, Unsound> {
        let layers = soundness(image, state)?;
        let disc = Disc::new(image);
        let sys = disc.slices(6);
        let files = files(&disc, state, &sys, disc.h * layers);
        Ok(Plain {
            unit: state.unit,
            h: disc.h,
            s: disc.s,
            f: disc.f,
            n: disc.n,
            layers,
            sys,
            files,
            areas: open_areas(state)
                .map(|area| (text(area.name).expect("sound"), members(area)))
                .collect(),
        })
    }
}

/// The descriptors in use.
pub(super) fn open_areas(state: &State) -> impl Iterator<Item = &Area> {
    state.areas.iter().filter(|area| area.live)
}

/// The users of a descriptor, by number.
pub(super) fn members(area: &Area) -> Vec<Member> {
    let mut users: Vec<Member> = area
        .users
        .iter()
        .filter(|user| !user.is_vacant())
        .map(|user| Member {
            id: user.id,
            role: user.role,
            opens: user.opens as u32,
            position: user.position as usize,
        })
        .collect();
    users.sort_by_key(|user| user.id);
    users
}

/// The files that are entered in the sectors of SYS.
fn files(disc: &Disc, state: &State, sys: &[usize], sectors: usize) -> BTreeMap<String, File> {
    let mut files = BTreeMap::new();
    for (_, _, entry) in disc.entries(sys, sectors) {
        let name = name_in(&entry).expect("sound");
        if name != "SYS" && name != "MAP" {
            let area = open_areas(state).find(|area| area.name[..] == entry[..3]);
            files.insert(name, file(disc, &entry, area));
        }
    }
    files
}

/// A file, from its entry and its area process where one is open.
fn file(disc: &Disc, entry: &[u16; 16], area: Option<&Area>) -> File {
    let (index, length) = match area {
        Some(area) => (area.index, area.length),
        None => (entry[8], entry[7]),
    };
    let slices = match index {
        0 => vec![],
        sector => disc.slices(sector as usize),
    };
    let sectors = (0..length as usize)
        .map(|block| *disc.sector(disc.joined(&slices, block + 1)))
        .collect();
    File {
        attributes: entry[6],
        optional: [entry[3], entry[4], entry[5]],
        tail: [
            entry[10], entry[11], entry[12], entry[13], entry[14], entry[15],
        ],
        booked_length: entry[7] as usize,
        booked_slices: entry[9] as usize / disc.s,
        slices,
        sectors,
    }
}
