//! What a sector or a slice is for, as far as it can be said.

use super::claims::{Cell, Claimer};
use super::index::Pair;
use super::Rescue;
use crate::layout::{KIT, MAP_INDEX, MAP_SECTOR, SYS_INDEX};

/// What a sector is for.
#[derive(Clone, PartialEq, Eq, Debug)]
pub enum Use {
    /// It is not in the image.
    Outside,
    /// One of sectors 0 to 5, which the catalog does not use.
    System,
    /// The index block of SYS.
    SysIndex,
    /// The index block of MAP.
    MapIndex,
    /// The kit.
    Kit,
    /// The map.
    Map,
    /// Between the map and the first slice.
    BeforeSlices,
    /// Past the last slice, or past the unit.
    PastSlices,
    /// Of slices; by whom it is held.
    Data(Data),
}

/// A sector where files lie.
#[derive(Clone, PartialEq, Eq, Debug)]
pub struct Data {
    /// Its slice, if s and F are known.
    pub slice: Option<usize>,
    /// Whether the map marks the slice free, if the slice is known.
    pub marked_free: Option<bool>,
    /// What it is to the first two that claim it.
    pub held: Vec<Held>,
    /// How many more claim it.
    pub more: usize,
}

/// What a sector is to one that claims it; files have their names, with the place of the entry
/// where the name is not enough.
#[derive(Clone, PartialEq, Eq, Debug)]
pub enum Held {
    /// A block of SYS, with its number if it is known.
    Sys(Option<usize>),
    /// In a slice of SYS, and none of its blocks.
    SysSlack,
    /// The index block of a file.
    Index(String),
    /// A block of a file.
    Block(String, usize),
    /// In a slice of a file, and none of its blocks.
    Slack(String),
}

/// A slice by who claims it and how the map marks it.
#[derive(Clone, PartialEq, Eq, Debug)]
pub struct Slice {
    /// Who claims it; of many only some.
    pub claimers: Vec<Claimer>,
    /// Whether the map marks it free; none if the image has no map.
    pub marked_free: Option<bool>,
}

impl Rescue<'_> {
    /// What a sector is for.
    pub fn use_of(&self, sector: usize) -> Use {
        match sector {
            _ if sector >= self.sectors() => Use::Outside,
            0..SYS_INDEX => Use::System,
            SYS_INDEX => Use::SysIndex,
            MAP_INDEX => Use::MapIndex,
            KIT => Use::Kit,
            MAP_SECTOR => Use::Map,
            _ if self.claims.cell(sector).number > 0 => Use::Data(self.data(sector)),
            _ if sector < self.layout.begin() => Use::BeforeSlices,
            _ if self.is_past(sector) => Use::PastSlices,
            _ => Use::Data(self.data(sector)),
        }
    }

    fn is_past(&self, sector: usize) -> bool {
        let known = self.layout.slices().is_some();
        sector >= self.layout.n || known && self.layout.slice_of(sector).is_none()
    }

    fn data(&self, sector: usize) -> Data {
        let cell = self.claims.cell(sector);
        let claimers = cell.claimers.into_iter().flatten();
        let held: Vec<Held> = claimers.filter_map(|one| self.held(one, sector)).collect();
        Data {
            slice: self.layout.slice_of(sector),
            marked_free: cell.marked_free,
            more: cell.number.saturating_sub(held.len()),
            held,
        }
    }

    /// What a sector is to one that claims it.
    fn held(&self, claimer: Claimer, sector: usize) -> Option<Held> {
        let Claimer::Entry(number) = claimer else {
            let block = self.catalog.sectors.iter().find(|one| one.sector == sector);
            return Some(block.map_or(Held::SysSlack, |one| Held::Sys(one.block)));
        };
        let (file, _) = self.read_file(self.catalog.places.get(number)?);
        let name = self.claimer(claimer, [0; 3]);
        let has = |(_, pair): &(usize, Pair)| pair.sectors().contains(&sector);
        let (position, pair) = file.placed().find(has)?;
        Some(match file.block_at(position + sector - pair.start) {
            None => Held::Index(name),
            Some(block) if block < file.length() => Held::Block(name, block),
            Some(_) => Held::Slack(name),
        })
    }

    /// A slice by who claims it and how the map marks it; none if there is no such slice.
    pub fn slice(&self, slice: usize) -> Option<Slice> {
        let slices = self.layout.slices()?;
        let first = self.layout.first_sector(slice)?;
        if slice > slices {
            return None;
        }
        let cells = (first..first + self.layout.s?).map(|sector| self.claims.cell(sector));
        let cells: Vec<Cell> = cells.collect();
        let mut claimers: Vec<Claimer> = Vec::new();
        claimers.extend(
            cells
                .iter()
                .flat_map(|cell| cell.claimers.into_iter().flatten()),
        );
        claimers.sort();
        claimers.dedup();
        Some(Slice {
            claimers,
            marked_free: cells[0].marked_free,
        })
    }

    /// The stretches of slices that are marked used and that nobody claims, a line each.
    pub(super) fn unclaimed(&self) -> Vec<String> {
        let slices = 1..=self.layout.slices().unwrap_or(0);
        let lost: Vec<usize> = slices.filter(|&slice| self.is_unclaimed(slice)).collect();
        let s = self.layout.s.unwrap_or(1);
        let stretches = crate::layout::stretches(&lost).into_iter();
        stretches
            .filter_map(|(first, number)| {
                let (start, length) = (self.layout.first_sector(first)?, number * s);
                let (what, many) = self.stretch(Pair { start, length });
                let (verb, them) = if many { ("are", "them") } else { ("is", "it") };
                Some(format!("{what} {verb} marked used, and no file has {them}"))
            })
            .collect()
    }

    pub(super) fn is_unclaimed(&self, slice: usize) -> bool {
        let found = self.slice(slice);
        found.is_some_and(|slice| slice.claimers.is_empty() && slice.marked_free == Some(false))
    }
}
