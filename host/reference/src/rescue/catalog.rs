//! SYS's sectors and the entries in them.

use std::collections::{BTreeSet, HashSet};

use super::claims::followed;
use super::file::Kind;
use super::index::{read_index, Index};
use super::numbers::Layout;
use crate::layout::{is_legal, ENTRY, MAP_INDEX, MAP_SECTOR, PLACES, SECTOR, SYS, SYS_INDEX};
use crate::types::Name;

/// A sector that is read as one of SYS's.
#[derive(Clone, Copy, PartialEq, Eq, Debug)]
pub(super) struct CatalogSector {
    /// The sector.
    pub sector: usize,
    /// SYS's block; none if the sector was found by its looks.
    pub block: Option<usize>,
}

/// A used place of SYS.
#[derive(Clone, PartialEq, Eq, Debug)]
pub(super) struct Place {
    /// The sector.
    pub sector: usize,
    /// The place in it, 0 to 15.
    pub place: usize,
    /// SYS's block, if it is known.
    pub block: Option<usize>,
    /// The sixteen words.
    pub words: [u16; ENTRY],
}

impl Place {
    /// The name as it stands.
    pub fn name(&self) -> Name {
        [self.words[0], self.words[1], self.words[2]]
    }
}

/// What is read of SYS.
pub(super) struct Catalog {
    /// SYS's index, if the sectors were found by it; else it is empty.
    pub index: Index,
    /// The sectors, those of the index in file order.
    pub sectors: Vec<CatalogSector>,
    /// The used places, sector by sector.
    pub places: Vec<Place>,
    /// What is doubtful, a line each.
    pub doubts: Vec<String>,
}

/// The words of a place of any sector of the image.
pub(super) fn words_at(image: &[u16], sector: usize, place: usize) -> Option<[u16; ENTRY]> {
    if place >= PLACES || sector >= image.len() / SECTOR {
        return None;
    }
    let from = sector * SECTOR + place * ENTRY;
    Some(std::array::from_fn(|word| image[from + word]))
}

/// Finds SYS's sectors, by its index if that is legal and else by their looks, and their entries.
pub(super) fn read_catalog(image: &[u16], layout: &Layout) -> Catalog {
    let index = read_index(image, layout, SYS_INDEX);
    let mut doubts: Vec<String> = Vec::new();
    for fault in &index.faults {
        doubts.push(format!("SYS: {}", fault.text));
    }
    let first = index.pairs.first().map(|pair| pair.start);
    if let (Some(first), Some(f)) = (first, layout.f) {
        if first != f {
            doubts.push(format!("SYS: it begins at sector {first}, not at F, {f}"));
        }
    }
    let usable = doubts.is_empty();
    let (index, mut sectors) = match usable {
        true => {
            let sectors = by_index(image, layout, &index, &mut doubts);
            (index, sectors)
        }
        false => {
            doubts.push("SYS: its sectors are told by their looks, from sector 10 on".into());
            (Index::default(), by_looks(image, layout))
        }
    };
    // A sector that comes twice in the index has its entries once.
    let mut seen = HashSet::new();
    sectors.retain(|found| seen.insert(found.sector));
    doubts.extend(map_index(image));
    Catalog {
        places: places(image, &sectors),
        index,
        sectors,
        doubts,
    }
}

/// The sectors that a legal index gives, as many as SYS's entry says. Without a usable length the
/// index may have lost pairs: those of its sectors that look like SYS's, and all others that do and
/// that no file has.
fn by_index(
    image: &[u16],
    layout: &Layout,
    index: &Index,
    doubts: &mut Vec<String>,
) -> Vec<CatalogSector> {
    let joined: Vec<usize> = index.pairs.iter().flat_map(|pair| pair.sectors()).collect();
    let in_block = |(block, &sector): (usize, &usize)| CatalogSector {
        sector,
        block: Some(block),
    };
    match sys_length(image, layout, &joined) {
        Ok(length) => joined[..length].iter().enumerate().map(in_block).collect(),
        Err(doubt) => {
            doubts.push(format!("SYS: {doubt}; its sectors are told by their looks"));
            let all = joined.iter().enumerate();
            let alike = all.filter(|(_, &sector)| looks_like_entries(image, layout, sector));
            let mut found: Vec<CatalogSector> = alike.map(in_block).collect();
            let indexed: HashSet<usize> = joined.into_iter().collect();
            let others = by_looks(image, layout).into_iter();
            found.extend(others.filter(|one| !indexed.contains(&one.sector)));
            without_blocks_of_files(image, layout, found)
        }
    }
}

/// The sectors of SYS's index and those of the others that are no block of a file entered in any of
/// them.
fn without_blocks_of_files(
    image: &[u16],
    layout: &Layout,
    mut found: Vec<CatalogSector>,
) -> Vec<CatalogSector> {
    let entered = places(image, &found);
    let ordinary = entered
        .iter()
        .filter(|place| Kind::of(place.name()) == Kind::Ordinary);
    let indexes: BTreeSet<usize> = ordinary.map(|place| place.words[8] as usize).collect();
    let indexes = indexes.into_iter();
    let mut held = vec![false; layout.most()];
    for pair in indexes.flat_map(|index| followed(image, layout, index).pairs) {
        let end = pair.sectors().end.min(held.len());
        held[pair.start.min(end)..end].fill(true);
    }
    found.retain(|one| one.block.is_some() || !held[one.sector]);
    found
}

/// SYS's length by its first entry in the joined sectors, or what is doubtful about it.
fn sys_length(image: &[u16], layout: &Layout, joined: &[usize]) -> Result<usize, String> {
    let found = joined.iter().enumerate().find_map(|(block, &sector)| {
        let places = (0..PLACES).filter_map(|place| words_at(image, sector, place));
        let entry = places.into_iter().find(|words| words[..3] == SYS)?;
        Some((block, entry[7] as usize))
    });
    let (block, length) = found.ok_or("it is not entered")?;
    let total = joined.len();
    if length == 0 || length > total {
        return Err(format!(
            "its length is {length}, its index gives {total} sectors"
        ));
    }
    if let Some(h) = layout.h.filter(|&h| !length.is_multiple_of(h)) {
        return Err(format!("its length is {length}, no multiple of H, {h}"));
    }
    if let Some(s) = layout.s.filter(|&s| total - length >= s) {
        return Err(format!(
            "its length is {length}, and its index gives {total} sectors in slices of {s}"
        ));
    }
    if block >= length {
        return Err(format!(
            "its length is {length}, and its entry is in block {block}"
        ));
    }
    Ok(length)
}

/// All sectors that look like SYS's.
fn by_looks(image: &[u16], layout: &Layout) -> Vec<CatalogSector> {
    let alike = layout
        .readable()
        .filter(|&sector| looks_like_entries(image, layout, sector));
    let found = alike.map(|sector| CatalogSector {
        sector,
        block: None,
    });
    found.collect()
}

/// Whether a sector looks like one of SYS's: it has used places, and at least half of them have a
/// legal name and an index sector that is 0, 6, 7 or where files lie.
fn looks_like_entries(image: &[u16], layout: &Layout, sector: usize) -> bool {
    let places = (0..PLACES).filter_map(|place| words_at(image, sector, place));
    let used: Vec<[u16; ENTRY]> = places.filter(|words| *words != [0; ENTRY]).collect();
    let plausible = |words: &&[u16; ENTRY]| {
        let (name, index) = ([words[0], words[1], words[2]], words[8] as usize);
        let somewhere = [0, SYS_INDEX, MAP_INDEX].contains(&index) || layout.holds(index);
        is_legal(name) && somewhere
    };
    let plausible = used.iter().filter(plausible).count();
    plausible > 0 && 2 * plausible >= used.len()
}

/// The used places of sectors.
fn places(image: &[u16], sectors: &[CatalogSector]) -> Vec<Place> {
    let all = sectors.iter().flat_map(|&CatalogSector { sector, block }| {
        (0..PLACES).filter_map(move |place| {
            Some(Place {
                sector,
                place,
                block,
                words: words_at(image, sector, place)?,
            })
        })
    });
    all.filter(|place| place.words != [0; ENTRY]).collect()
}

/// What is wrong with the index of MAP.
fn map_index(image: &[u16]) -> Option<String> {
    let words = image.get(MAP_INDEX * SECTOR..MAP_INDEX * SECTOR + 3)?;
    let wanted = [1, 1, MAP_SECTOR as u16];
    (words != wanted).then(|| {
        let [a, b, c] = [words[0], words[1], words[2]];
        format!(
            "MAP: the index block in sector {MAP_INDEX} has {a}, {b}, {c}, not 1, 1, {MAP_SECTOR}"
        )
    })
}
