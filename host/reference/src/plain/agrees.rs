//! Whether an image and a state represent a plain unit.

use std::collections::{BTreeMap, BTreeSet};

use super::disc::{map_of, name_in, Disc};
use super::names::{text, words_of};
use super::read::{members, open_areas};
use super::{File, Plain};
use crate::types::{Area, State};

/// Where an image and a state differ from the plain unit, if they do.
type Agrees = Result<(), String>;

impl Plain {
    /// Whether an image and a state represent this plain unit; if not, where they differ.
    pub fn agrees(&self, image: &[u16], state: &State) -> Agrees {
        if image.len() != 256 * self.n {
            return Err(format!("the image has {} words", image.len()));
        }
        let disc = Disc::new(image);
        self.kit_agrees(&disc, state)?;
        self.map_agrees(image)?;
        self.slices_add_up()?;
        if disc.slices(6) != self.sys {
            return Err(format!("SYS's index gives {:?}", disc.slices(6)));
        }
        self.entries_agree(&disc)?;
        let areas = named_areas(state)?;
        if !areas.keys().eq(self.areas.keys()) {
            return Err(format!("open are {:?}", areas.keys()));
        }
        for (name, file) in &self.files {
            match areas.get(name) {
                Some(area) => self.area_agrees(name, file, area)?,
                None => all_booked(name, file)?,
            }
            self.file_agrees(&disc, name, file)?;
        }
        Ok(())
    }

    fn kit_agrees(&self, disc: &Disc, state: &State) -> Agrees {
        let kit = (state.unit, disc.h, disc.s, disc.f, disc.n);
        if kit != (self.unit, self.h, self.s, self.f, self.n) {
            return Err(format!("unit, H, s, F, N are {kit:?}"));
        }
        Ok(())
    }

    /// The free sectors and the map.
    fn map_agrees(&self, image: &[u16]) -> Agrees {
        let free = self.free();
        if image[8 * 256 + 3] as usize != self.s * free.len() {
            return Err(format!("the free word is {}", image[8 * 256 + 3]));
        }
        let map = map_of(&free);
        if let Some(word) = (0..256).find(|&word| map[word] != image[2304 + word]) {
            return Err(format!("map word {word} is {:04X}h", image[2304 + word]));
        }
        Ok(())
    }

    /// Free and held slices add up, none is held twice.
    fn slices_add_up(&self) -> Agrees {
        let mut held: Vec<usize> = self.sys.clone();
        held.extend(self.files.values().flat_map(|file| &file.slices));
        let distinct: BTreeSet<usize> = held.iter().copied().collect();
        if distinct.len() != held.len() || held.len() + self.free().len() != self.total() {
            return Err("the slices do not add up".into());
        }
        Ok(())
    }

    /// The used entries are the booked ones.
    fn entries_agree(&self, disc: &Disc) -> Agrees {
        let mut entries = self.named_entries(disc)?;
        for name in self.names() {
            let entry = entries.remove(&name);
            let entry = entry.ok_or(format!("{name} is not entered"))?;
            if entry != self.booked(&name) {
                return Err(format!("{name} is entered as {entry:?}"));
            }
        }
        match entries.keys().next() {
            Some(name) => Err(format!("{name} is entered")),
            None => Ok(()),
        }
    }

    /// The used entries by name.
    fn named_entries(&self, disc: &Disc) -> Result<BTreeMap<String, [u16; 16]>, String> {
        let mut entries = BTreeMap::new();
        for (_, _, entry) in disc.entries(&self.sys, self.h * self.layers) {
            let name = name_in(&entry);
            let name = name.ok_or(format!("an entry has the name {:?}", &entry[..3]))?;
            if entries.insert(name.clone(), entry).is_some() {
                return Err(format!("{name} is entered twice"));
            }
        }
        Ok(entries)
    }

    /// An open area: index sector, live length and users.
    fn area_agrees(&self, name: &str, file: &File, area: &Area) -> Agrees {
        let index = self.index_sector(&file.slices);
        if area.index as usize != index || area.length as usize != file.sectors.len() {
            return Err(format!("area {name} has another index or length"));
        }
        if members(area) != self.areas[name] {
            return Err(format!("area {name} has the users {:?}", area.users));
        }
        Ok(())
    }

    /// A file's index gives its slice list, its blocks hold its list of sectors.
    fn file_agrees(&self, disc: &Disc, name: &str, file: &File) -> Agrees {
        let index = self.index_sector(&file.slices);
        if !file.slices.is_empty() && disc.slices(index) != file.slices {
            return Err(format!("the index of {name} is wrong"));
        }
        for (block, words) in file.sectors.iter().enumerate() {
            if disc.sector(disc.joined(&file.slices, block + 1)) != words {
                return Err(format!("block {block} of {name} is wrong"));
            }
        }
        Ok(())
    }
}

/// The open areas by name: legal, sixth character 0, distinct.
fn named_areas(state: &State) -> Result<BTreeMap<String, Area>, String> {
    let mut areas = BTreeMap::new();
    for area in open_areas(state) {
        let name = text(area.name).ok_or("an area's name is illegal")?;
        if words_of(&name) != area.name || areas.insert(name.clone(), *area).is_some() {
            return Err(format!("area {name} is wrongly named or open twice"));
        }
    }
    Ok(areas)
}

/// A file without area process has its live length and slices booked.
fn all_booked(name: &str, file: &File) -> Agrees {
    let length = file.booked_length == file.sectors.len();
    if !length || file.booked_slices != file.slices.len() {
        return Err(format!("{name} is closed with something not booked"));
    }
    Ok(())
}
