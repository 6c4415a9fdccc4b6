//! Rules 28 to 34: the files other than SYS and MAP.

use std::collections::hash_map::Entry::Vacant;
use std::collections::HashMap;

use super::entries::{Entries, Entry};
use super::index::{self, Index};
use super::{slices_begin, Finding, Found, Rule};
use crate::layout::*;
use crate::text::{count, name_text, names_text};
use crate::types::Name;

/// An index block and the files whose entries name it.
pub(super) struct Held {
    pub files: Vec<Name>,
    pub index: Index,
}

/// What could be read of the files' slices.
pub(super) struct Files {
    /// One for each index block, in the order of the entries.
    pub held: Vec<Held>,
    /// Whether every file's slices are known.
    pub all: bool,
}

/// Checks every file, and gives their slices.
pub(super) fn check(image: &[u16], kit: &Kit, entries: &Entries, found: &mut Found) -> Files {
    let ordinary = |entry: &&Entry| entry.name != SYS && entry.name != MAP;
    let ordinary: Vec<&Entry> = entries.entries.iter().filter(ordinary).collect();
    let mut files = Files {
        held: Vec::new(),
        all: entries.all,
    };
    let mut sharing: HashMap<usize, Vec<Name>> = HashMap::new();
    for entry in &ordinary {
        let names = sharing.entry(index_of(entry)).or_default();
        names.push(entry.name);
    }
    let mut places: HashMap<usize, usize> = HashMap::new();
    for entry in ordinary {
        let sector = index_of(entry);
        check_length(entry, found);
        let legal = check_attributes(entry, found);
        if sector != 0 && kit.slice_at(sector).is_none() {
            index_sector(kit, entry, found);
            files.all = false;
            continue;
        }
        if let (1.., Vacant(place)) = (sector, places.entry(sector)) {
            let names = sharing.remove(&sector).unwrap_or_default();
            place.insert(files.read(image, kit, sector, names, found));
        }
        let known = match sector {
            0 => Some(0),
            _ => files.slices(places[&sector]),
        };
        match known {
            Some(slices) => check_slices(kit, entry, slices, legal, found),
            None => files.all = false,
        }
    }
    files
}

impl Files {
    /// Reads the index block of some files; its place among those that are held.
    fn read(
        &mut self,
        image: &[u16],
        kit: &Kit,
        sector: usize,
        files: Vec<Name>,
        found: &mut Found,
    ) -> usize {
        let index = index::read(image, kit, sector, &files, found);
        check_own(kit, sector, &files, &index, found);
        self.held.push(Held { files, index });
        self.held.len() - 1
    }

    /// The number of slices by an index block, if all of it could be read.
    fn slices(&self, place: usize) -> Option<usize> {
        let index = &self.held[place].index;
        index.whole.then(|| index.slices())
    }
}

fn index_of(entry: &Entry) -> usize {
    entry.words[8] as usize
}

/// Adds a finding about a word of an entry.
fn add(
    found: &mut Found,
    rule: Rule,
    entry: &Entry,
    word: usize,
    what: impl FnOnce() -> String,
    numbers: Option<(usize, usize)>,
) {
    found.add(rule, |finding: Finding| {
        let (name, place) = (name_text(entry.name), entry.place());
        let text = format!("{name} ({place}): {}", what());
        let finding = finding.says(text).at(entry.sector, entry.word + word);
        let finding = finding.of(&[entry.name]);
        match numbers {
            Some((expected, is)) => finding.numbers(expected, is),
            None => finding,
        }
    });
}

fn check_length(entry: &Entry, found: &mut Found) {
    let length = entry.words[7] as usize;
    if length > 32_767 {
        let what = || format!("the length is {length} sectors");
        let numbers = Some((32_767, length));
        add(found, Rule::FileLength, entry, 7, what, numbers);
    }
}

fn index_sector(kit: &Kit, entry: &Entry, found: &mut Found) {
    let what = || {
        let (sector, by) = (index_of(entry), slices_begin(kit));
        format!("the index sector is {sector}, where no slice begins ({by})")
    };
    add(found, Rule::IndexSector, entry, 8, what, None);
}

/// An index block is the first sector of its file's first slice.
fn check_own(kit: &Kit, sector: usize, files: &[Name], index: &Index, found: &mut Found) {
    let first = index.stretches[..index.sure].first();
    let Some(start) = first.map(|&(slice, _)| kit.first_sector(slice)) else {
        return;
    };
    if start != sector {
        found.add(Rule::IndexOwn, |finding| {
            let names = names_text(files, 0);
            let text = format!(
                "{names}: the index sector is {sector}, the first stretch begins at {start}"
            );
            let finding = finding.says(text).numbers(sector, start);
            finding.at(sector, 2).of(files)
        });
    }
}

/// The rules that go by a file's number of slices, which is known; whether its attributes are legal
/// by themselves is known too.
fn check_slices(kit: &Kit, entry: &Entry, slices: usize, legal: bool, found: &mut Found) {
    let (length, reserved) = (entry.words[7] as usize, entry.words[9] as usize);
    if legal && !legal_attributes(entry.words[6], slices) {
        let what = || format!("it is entry only and has {}", count(slices, "slice"));
        add(found, Rule::EntryOnly, entry, 6, what, Some((0, slices)));
    }
    let needed = kit.need(length);
    if length <= 32_767 && slices < needed {
        let what = || {
            let needed = count(needed, "slice");
            format!("length {length} needs {needed}, and it has {slices}")
        };
        let numbers = Some((needed, slices));
        add(found, Rule::EnoughSlices, entry, 7, what, numbers);
    }
    let wanted = kit.s * slices;
    if reserved != wanted {
        let what = || {
            let (has, s) = (count(slices, "slice"), kit.s);
            format!("the reserved length is {reserved}, and it has {has} of {s}: {wanted}")
        };
        let numbers = Some((wanted, reserved));
        add(found, Rule::Reserved, entry, 9, what, numbers);
    }
}

/// Whether the attributes are such as a file may have, its slices left aside.
fn check_attributes(entry: &Entry, found: &mut Found) -> bool {
    let attributes = entry.words[6];
    let legal = legal_attributes(attributes, 0);
    if !legal {
        let foreign = attributes & !ATTRIBUTES;
        let what = || match foreign {
            0 => format!("the attributes are {attributes:04X}h: bit 13 and bit 15 are both set"),
            _ => format!("the attributes are {attributes:04X}h: no file has bits {foreign:04X}h"),
        };
        add(found, Rule::Attributes, entry, 6, what, None);
    }
    legal
}
