//! Rules 25 to 27: the names of entries and their places.

use std::collections::HashMap;

use super::catalog::Catalog;
use super::kit::Usable;
use super::{sector, Found, Rule};
use crate::layout::*;
use crate::text::name_text;
use crate::types::Name;

/// A used entry.
pub(super) struct Entry<'a> {
    pub name: Name,
    /// The sector in the image.
    pub sector: usize,
    /// The entry's first word in the sector.
    pub word: usize,
    pub words: &'a [u16],
}

impl Entry<'_> {
    /// Sector and place, as `show` and `get` take them.
    pub fn place(&self) -> String {
        format!("{}:{}", self.sector, self.word / ENTRY)
    }
}

/// The used entries that could be read.
pub(super) struct Entries<'a> {
    pub entries: Vec<Entry<'a>>,
    /// Whether these are all.
    pub all: bool,
}

/// Checks names and places of the used entries, and gives them.
pub(super) fn check<'a>(
    image: &'a [u16],
    kit: &Usable,
    catalog: &Catalog,
    found: &mut Found,
) -> Entries<'a> {
    let mut entries = Vec::new();
    let mut all = catalog.all;
    for block in &catalog.blocks {
        let Some(words) = sector(image, block.sector) else {
            all = false;
            continue;
        };
        let used = words.chunks_exact(ENTRY).enumerate();
        for (place, words) in used.filter(|(_, words)| words.iter().any(|&word| word != 0)) {
            let entry = Entry {
                name: [words[0], words[1], words[2]],
                sector: block.sector,
                word: place * ENTRY,
                words,
            };
            check_name(&entry, kit.keys, block.number, found);
            entries.push(entry);
        }
    }
    check_alone(&entries, found);
    Entries { entries, all }
}

/// A legal name in a sector of its key.
fn check_name(entry: &Entry, keys: Option<usize>, block: usize, found: &mut Found) {
    let name = entry.name;
    if !is_legal(name) {
        found.add(Rule::EntryName, |finding| {
            let (shown, place) = (name_text(name), entry.place());
            let text = format!("{shown} ({place}) is not a legal name");
            finding.says(text).at(entry.sector, entry.word).of(&[name])
        });
        return;
    }
    let Some(h) = keys else {
        return;
    };
    let (wanted, is) = (key(name, h), block % h);
    if wanted != is {
        found.add(Rule::EntryKey, |finding| {
            let text = format!(
                "{} ({}) is entered in a sector of key {is}, and its key is {wanted}",
                name_text(name),
                entry.place()
            );
            let finding = finding.says(text).numbers(wanted, is);
            finding.at(entry.sector, entry.word).of(&[name])
        });
    }
}

/// No name in two entries.
fn check_alone(entries: &[Entry], found: &mut Found) {
    let mut first: HashMap<Name, &Entry> = HashMap::new();
    for entry in entries {
        let name = entry.name;
        let Some(other) = first.get(&name) else {
            first.insert(name, entry);
            continue;
        };
        if is_legal(name) {
            found.add(Rule::EntryAlone, |finding| {
                let (shown, first, again) = (name_text(name), other.place(), entry.place());
                let text = format!("{shown} is entered at {first} and again at {again}");
                finding.says(text).at(entry.sector, entry.word).of(&[name])
            });
        }
    }
}
