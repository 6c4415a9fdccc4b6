//! Which sectors are claimed by which entries, and how the map marks them.

use std::collections::{BTreeMap, BTreeSet, HashSet};
use std::ops::Range;

use super::catalog::{Catalog, Place};
use super::index::{read_index, Index, Pair};
use super::numbers::{Layout, FIRST_POSSIBLE};
use crate::layout::{marked_free, MAP, MAP_SECTOR, SECTOR, SYS, SYS_INDEX};

/// Who claims a sector: SYS by its index or looks, or an entry by its number.
#[derive(Clone, Copy, PartialEq, Eq, PartialOrd, Ord, Debug)]
pub enum Claimer {
    /// SYS.
    Catalog,
    /// The entry of this number.
    Entry(usize),
}

/// A sector's claims and mark.
#[derive(Clone, Copy, PartialEq, Eq, Debug, Default)]
pub(super) struct Cell {
    /// The first two that claim it.
    pub claimers: [Option<Claimer>; 2],
    /// How many claim it.
    pub number: usize,
    /// Whether the map marks it free; none where no slice has it.
    pub marked_free: Option<bool>,
}

impl Cell {
    /// Another than this one who claims the sector, and how many others do.
    pub fn others(&self, me: Option<Claimer>) -> Option<(Claimer, usize)> {
        let mine = usize::from(me.is_some());
        let all = self.claimers.iter().flatten();
        let other = all.copied().find(|claimer| Some(*claimer) != me)?;
        Some((other, (self.number - mine).max(1)))
    }
}

/// The claims of all sectors that are read.
pub(super) struct Claims {
    cells: Vec<Cell>,
    /// For each sector how many from it on have equal cells.
    runs: Vec<usize>,
    /// The index sectors, 6 among them, whose pairs give a sector twice.
    twice: HashSet<usize>,
}

impl Claims {
    /// Gathers the claims of SYS and of every entry.
    pub fn gather(image: &[u16], layout: &Layout, catalog: &Catalog) -> Claims {
        let mut stretches = Stretches::new(layout);
        let sys = catalog_pairs(layout, catalog);
        stretches.add(layout, SYS_INDEX, &sys, vec![Claimer::Catalog]);
        for (index, numbers) in by_index_sector(layout, &catalog.places) {
            let pairs = followed_or_guessed(image, layout, index).pairs;
            let claimers = numbers.into_iter().map(Claimer::Entry).collect();
            stretches.add(layout, index, &pairs, claimers);
        }
        let cells = stretches.cells(marked(image, layout));
        Claims {
            runs: runs(&cells),
            cells,
            twice: stretches.twice,
        }
    }

    /// The cell of a sector that is read.
    pub fn cell(&self, sector: usize) -> Cell {
        self.cells.get(sector).copied().unwrap_or_default()
    }

    /// How many sectors from one on have its cell.
    pub fn run(&self, sector: usize) -> usize {
        self.runs.get(sector).copied().unwrap_or(1)
    }

    /// Whether an index gives a sector twice.
    pub fn repeats(&self, index: usize) -> bool {
        self.twice.contains(&index)
    }
}

/// The stretches of all that claim sectors, to be gone through from the first sector to the last:
/// an index may give the whole unit, and so may every other one.
struct Stretches {
    /// Those that claim by one index block, in the order in which they count.
    groups: Vec<Vec<Claimer>>,
    /// For each sector the groups for whom a stretch begins there, or has ended.
    changes: Vec<Vec<(u32, bool)>>,
    /// The index sectors whose pairs give a sector twice.
    twice: HashSet<usize>,
}

impl Stretches {
    fn new(layout: &Layout) -> Stretches {
        Stretches {
            groups: Vec::new(),
            changes: vec![Vec::new(); layout.most() + 1],
            twice: HashSet::new(),
        }
    }

    /// Adds those that claim the pairs of an index block.
    fn add(&mut self, layout: &Layout, index: usize, pairs: &[Pair], claimers: Vec<Claimer>) {
        let group = self.groups.len() as u32;
        self.groups.push(claimers);
        let within =
            |sector: usize| sector.clamp(FIRST_POSSIBLE, layout.most().max(FIRST_POSSIBLE));
        let all = pairs.iter().map(Pair::sectors);
        let all = all.map(|sectors| within(sectors.start)..within(sectors.end));
        let (joined, twice) = joined(all.filter(|sectors| !sectors.is_empty()).collect());
        if twice {
            self.twice.insert(index);
        }
        for sectors in joined {
            self.changes[sectors.start].push((group, true));
            self.changes[sectors.end].push((group, false));
        }
    }

    /// The cells with the claims besides their marks.
    fn cells(&self, mut cells: Vec<Cell>) -> Vec<Cell> {
        let mut now = Claiming::default();
        for (cell, changes) in cells.iter_mut().zip(&self.changes) {
            self.change(&mut now, changes);
            let groups = now.groups.iter().take(2);
            let groups = groups.map(|&group| &self.groups[group as usize]);
            let mut first = groups.flatten().copied();
            cell.claimers = [first.next(), first.next()];
            cell.number = now.number;
        }
        cells
    }

    /// Goes on to a sector with changes.
    fn change(&self, now: &mut Claiming, changes: &[(u32, bool)]) {
        for &(group, begins) in changes {
            let claimers = self.groups[group as usize].len();
            match begins {
                true => {
                    now.groups.insert(group);
                    now.number += claimers;
                }
                false => {
                    now.groups.remove(&group);
                    now.number -= claimers;
                }
            }
        }
    }
}

/// The groups that claim a sector, and how many claim it with them.
#[derive(Default)]
struct Claiming {
    groups: BTreeSet<u32>,
    number: usize,
}

/// Stretches in order, joined where they touch, and whether a sector is in two of them.
fn joined(mut all: Vec<Range<usize>>) -> (Vec<Range<usize>>, bool) {
    all.sort_unstable_by_key(|sectors| sectors.start);
    let mut joined: Vec<Range<usize>> = Vec::new();
    let mut twice = false;
    for sectors in all {
        match joined.last_mut() {
            Some(last) if sectors.start <= last.end => {
                twice |= sectors.start < last.end;
                last.end = last.end.max(sectors.end);
            }
            _ => joined.push(sectors),
        }
    }
    (joined, twice)
}

/// What SYS claims: the pairs of its index, and the slices of the sectors found by their looks.
fn catalog_pairs(layout: &Layout, catalog: &Catalog) -> Vec<Pair> {
    let mut pairs = catalog.index.pairs.clone();
    let indexed: HashSet<usize> = pairs.iter().flat_map(Pair::sectors).collect();
    let alike = catalog.sectors.iter().filter(|found| found.block.is_none());
    let alike = alike.flat_map(|found| slice_around(layout, found.sector));
    let alike: BTreeSet<usize> = alike.filter(|sector| !indexed.contains(sector)).collect();
    pairs.extend(Index::of_sectors(alike).pairs);
    pairs
}

/// A file's index with its first pair at the index sector, where a file's first slice begins.
pub(super) fn followed(image: &[u16], layout: &Layout, index: usize) -> Index {
    if !layout.holds(index) {
        return Index::default();
    }
    let mut read = read_index(image, layout, index);
    let begins = read.pairs.first().map_or(index, |first| first.start);
    if begins != index {
        read.pairs[0].start = index;
        let text = format!(
            "pair 1 begins at sector {begins}, not at the index sector, from which it is read"
        );
        read.fault(0, text);
    }
    read
}

/// A file's index; where it gives no pair, the slice that begins at the index sector, which is the
/// file's first.
pub(super) fn followed_or_guessed(image: &[u16], layout: &Layout, index: usize) -> Index {
    let mut read = followed(image, layout, index);
    let (there, start) = (layout.readable().contains(&index), index);
    let begins = there && read.pairs.is_empty() && layout.begins_slice(index);
    if let Some(length) = layout.s.filter(|_| begins) {
        let text = "only the slice that begins at the index sector is read";
        read.fault(0, text.into());
        read.pairs = vec![Pair { start, length }];
        read.guessed = true;
    }
    read
}

/// The ordinary entries by their index sectors, where these lie where files lie.
fn by_index_sector(layout: &Layout, places: &[Place]) -> BTreeMap<usize, Vec<usize>> {
    let mut found: BTreeMap<usize, Vec<usize>> = BTreeMap::new();
    for (number, place) in places.iter().enumerate() {
        let index = place.words[8] as usize;
        if place.name() != SYS && place.name() != MAP && layout.holds(index) {
            found.entry(index).or_default().push(number);
        }
    }
    found
}

/// The cells with the map's marks only.
fn marked(image: &[u16], layout: &Layout) -> Vec<Cell> {
    let has_map = image.len() >= (MAP_SECTOR + 1) * SECTOR;
    let mark = |sector| {
        let slice = layout.slice_of(sector).filter(|_| has_map);
        slice.map(|slice| marked_free(image, slice))
    };
    let cells = (0..layout.most()).map(|sector| Cell {
        marked_free: mark(sector),
        ..Cell::default()
    });
    cells.collect()
}

/// The sectors of the slice in which a sector lies, or the sector alone.
fn slice_around(layout: &Layout, sector: usize) -> Range<usize> {
    let slice = layout.slice_of(sector);
    let first = slice.and_then(|slice| layout.first_sector(slice));
    match (first, layout.s) {
        (Some(first), Some(s)) => first..first + s,
        _ => sector..sector + 1,
    }
}

/// For each cell how many from it on are equal.
fn runs(cells: &[Cell]) -> Vec<usize> {
    let mut runs = vec![1; cells.len()];
    for sector in (1..cells.len()).rev() {
        if cells[sector - 1] == cells[sector] {
            runs[sector - 1] = runs[sector] + 1;
        }
    }
    runs
}
