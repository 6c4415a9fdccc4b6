//! Rules 17 to 24: SYS and MAP.

use std::collections::HashSet;

use super::index::{self, Index};
use super::kit::Usable;
use super::{sector, Found, Rule};
use crate::layout::*;
use crate::text::{count, name_text};
use crate::types::Name;

/// The most blocks that SYS can have: its length is a word.
const MOST_BLOCKS: usize = 65_535;

/// What could be read of SYS.
pub(super) struct Catalog {
    /// SYS's index.
    pub index: Index,
    /// Its blocks, in order; those of which it is not sure that they are SYS's left out.
    pub blocks: Vec<Block>,
    /// Whether these are all of SYS's blocks.
    pub all: bool,
}

/// A block of SYS.
#[derive(Clone, Copy)]
pub(super) struct Block {
    /// Which block of SYS it is, from 0.
    pub number: usize,
    /// Its sector in the image.
    pub sector: usize,
}

impl Catalog {
    /// Whether all of SYS is known and in the image, so that what is not found is not there.
    fn is_readable(&self, image: &[u16]) -> bool {
        let inside = |block: &Block| sector(image, block.sector).is_some();
        self.all && self.blocks.iter().all(inside)
    }
}

/// An entry of a name: the block of SYS in which it stands, place and words.
struct Standing<'a> {
    block: Block,
    place: usize,
    words: &'a [u16],
}

/// Checks SYS and MAP; what could be read of SYS.
pub(super) fn check(image: &[u16], kit: &Usable, found: &mut Found) -> Catalog {
    let index = index::read(image, &kit.kit, SYS_INDEX, &[SYS], found);
    let mut catalog = blocks(&kit.kit, index);
    if !catalog.blocks.is_empty() {
        check_first(&kit.kit, &mut catalog, found);
        check_sys(image, kit, &mut catalog, found);
        check_map(image, kit, &catalog, found);
    }
    check_map_index(image, found);
    catalog
}

/// The blocks of SYS's stretches, as far as it is sure which sector is which block. A sector that
/// stands there twice holds its words once: as a later block it is unknown.
fn blocks(kit: &Kit, index: Index) -> Catalog {
    let sure = index.stretches[..index.sure].iter();
    let sectors = sure.flat_map(|&(first, number)| {
        let from = kit.first_sector(first);
        from..from + number * kit.s
    });
    let mut seen = HashSet::new();
    let mut all = index.whole;
    let mut blocks = Vec::new();
    for (number, sector) in sectors.take(MOST_BLOCKS).enumerate() {
        match seen.insert(sector) {
            true => blocks.push(Block { number, sector }),
            false => all = false,
        }
    }
    Catalog { index, blocks, all }
}

/// SYS begins in slice 1; if not, no sector is SYS's for sure.
fn check_first(kit: &Kit, catalog: &mut Catalog, found: &mut Found) {
    let (first, _) = catalog.index.stretches[0];
    if first != 1 {
        found.add(Rule::SysFirst, |finding| {
            let sector = kit.first_sector(first);
            let text = format!("SYS begins in slice {first} (sector {sector})");
            finding.says(text).numbers(1, first).at(SYS_INDEX, 2)
        });
        keep_none(catalog);
    }
}

/// The first entry of a name in the sectors of its key; in all sectors where H cannot be used.
fn find<'a>(
    image: &'a [u16],
    keys: Option<usize>,
    blocks: &[Block],
    name: Name,
) -> Option<Standing<'a>> {
    let of_key = |block: &&Block| keys.is_none_or(|h| block.number % h == key(name, h));
    // A layer that does not fit is none.
    let end = blocks.last().map_or(0, |last| last.number + 1);
    let fitting = keys.map_or(end, |h| end / h * h);
    let fits = |block: &&Block| block.number < fitting;
    for &block in blocks.iter().filter(fits).filter(of_key) {
        let Some(words) = sector(image, block.sector) else {
            continue;
        };
        let mut entries = words.chunks_exact(ENTRY);
        if let Some(place) = entries.position(|entry| entry[..3] == name) {
            return Some(Standing {
                block,
                place,
                words: &words[place * ENTRY..][..ENTRY],
            });
        }
    }
    None
}

/// SYS's entry and length; leaves the blocks below its length.
fn check_sys(image: &[u16], kit: &Usable, catalog: &mut Catalog, found: &mut Found) {
    let entry = find(image, kit.keys, &catalog.blocks, SYS);
    let Some(entry) = entry else {
        if let Some(h) = kit.keys.filter(|_| catalog.is_readable(image)) {
            missing(found, Rule::SysEntered, SYS, h, &catalog.blocks);
        }
        return keep_none(catalog);
    };
    let length = entry.words[7] as usize;
    let legal = legal_length(kit, catalog, &entry, found);
    if legal && entry.block.number >= length {
        found.add(Rule::SysEntered, |finding| {
            let (block, blocks) = (entry.block.number, count(length, "block"));
            let text = format!("SYS is entered in block {block} of SYS, which has {blocks}");
            let place = entry.place * ENTRY;
            finding.says(text).at(entry.block.sector, place)
        });
    }
    let reserved = kit.kit.s * catalog.index.slices();
    let wanted = system_entry(SYS, length, SYS_INDEX, reserved);
    let unknown = if catalog.index.whole { ENTRY } else { 9 };
    check_words(found, Rule::SysWords, &entry, &wanted, unknown);
    keep_sure(kit, catalog, length, legal);
}

/// Whether SYS's length is whole layers, where H is known, and gives its slices.
fn legal_length(kit: &Usable, catalog: &Catalog, entry: &Standing, found: &mut Found) -> bool {
    let length = entry.words[7] as usize;
    let place = (entry.block.sector, entry.place * ENTRY + 7);
    if let Some(h) = kit.keys.filter(|&h| !in_layers(length, h)) {
        found.add(Rule::SysLength, |finding| {
            let text = format!("the length of SYS is {length}, and H is {h}");
            let finding = finding.says(text).numbers(h, length);
            finding.at(place.0, place.1)
        });
        return false;
    }
    let (needed, slices) = (length.div_ceil(kit.kit.s), catalog.index.slices());
    if catalog.index.whole && needed != slices {
        found.add(Rule::SysSlices, |finding| {
            let has = count(slices, "slice");
            let text = format!("SYS has {has}, and its length {length} needs {needed}");
            let finding = finding.says(text).numbers(needed, slices);
            finding.at(place.0, place.1)
        });
        return false;
    }
    true
}

/// Whether a length is whole layers, one at least.
fn in_layers(length: usize, h: usize) -> bool {
    length != 0 && length.is_multiple_of(h)
}

/// Leaves the blocks that are SYS's for sure: those below its length. Where that is not legal,
/// those below the fewest layers that give its slices, and below the length too if that is whole
/// layers: what lies past it is nobody's, and what slices hold there are no entries.
fn keep_sure(kit: &Usable, catalog: &mut Catalog, length: usize, legal: bool) {
    let (s, slices) = (kit.kit.s, catalog.index.slices());
    let (low, high) = match kit.keys {
        _ if legal => (length, length),
        Some(h) => {
            let most = slices * s / h;
            let fewest = (slices - 1) * s / h + 1;
            let sure = h * fewest.min(most);
            match in_layers(length, h) {
                true => (sure.min(length), usize::MAX),
                false => (sure, h * most),
            }
        }
        None => (0, usize::MAX),
    };
    let known = catalog.blocks.last().map_or(0, |last| last.number + 1);
    catalog.all &= low == high && low <= known;
    catalog.blocks.retain(|block| block.number < low);
}

/// No block is SYS's for sure.
fn keep_none(catalog: &mut Catalog) {
    catalog.blocks.clear();
    catalog.all = false;
}

fn check_map(image: &[u16], kit: &Usable, catalog: &Catalog, found: &mut Found) {
    match find(image, kit.keys, &catalog.blocks, MAP) {
        Some(entry) => {
            let wanted = system_entry(MAP, 1, MAP_INDEX, 1);
            check_words(found, Rule::MapWords, &entry, &wanted, ENTRY);
        }
        None => {
            if let Some(h) = kit.keys.filter(|_| catalog.is_readable(image)) {
                missing(found, Rule::MapEntered, MAP, h, &catalog.blocks);
            }
        }
    }
}

/// SYS or MAP is not entered.
fn missing(found: &mut Found, rule: Rule, name: Name, h: usize, blocks: &[Block]) {
    found.add(rule, |finding| {
        let (key, shown) = (key(name, h), name_text(name));
        // Where SYS ends is known by its own entry.
        let end = match name {
            MAP => ", before the end of SYS",
            _ => "",
        };
        let text = format!("no entry of {shown} is in a sector of its key, {key}{end}");
        let finding = finding.says(text);
        match blocks.iter().find(|block| block.number == key) {
            Some(block) => finding.at(block.sector, 0),
            None => finding,
        }
    });
}

/// The words of SYS's or MAP's entry; one is not known.
fn check_words(
    found: &mut Found,
    rule: Rule,
    entry: &Standing,
    wanted: &[u16; ENTRY],
    unknown: usize,
) {
    let name = name_text([wanted[0], wanted[1], wanted[2]]);
    let words = (3..ENTRY).filter(|&word| word != unknown);
    for word in words.filter(|&word| entry.words[word] != wanted[word]) {
        let (is, wants) = (entry.words[word], wanted[word]);
        found.add(rule, |finding| {
            let text =
                format!("word {word} of {name}'s entry is {is:04X}h in place of {wants:04X}h");
            let finding = finding.says(text).numbers(wants.into(), is.into());
            finding.at(entry.block.sector, entry.place * ENTRY + word)
        });
    }
}

fn check_map_index(image: &[u16], found: &mut Found) {
    for (word, wanted) in [1, 1, MAP_SECTOR].into_iter().enumerate() {
        let is = image[MAP_INDEX * SECTOR + word] as usize;
        if is != wanted {
            found.add(Rule::MapIndex, |finding| {
                let text = format!("word {word} of MAP's index block is {is} in place of {wanted}");
                finding.says(text).numbers(wanted, is).at(MAP_INDEX, word)
            });
        }
    }
}
