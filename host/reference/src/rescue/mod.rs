//! What can be read of an image that is not a sound unit, or of a sound one.
//!
//! [`Rescue::read`] takes any words of any length: it never panics and always ends. Where a rule
//! of a sound unit is broken, it reads on as far as it can and says what is doubtful, in plain
//! words, a line each: about the unit in [`Rescue::doubts`], about a file in [`File::doubts`].
//! There is no doubt at all exactly if the image is a sound unit with nothing open.
//!
//! Decided, where the rules do not say how a broken unit is read:
//!
//! * Slices are counted by the kit's N if the kit is within its limits, else by the sectors that
//!   are there. What can be read are the sectors that are there, whatever N is.
//! * SYS's sectors are those of its index if that is legal and begins at F, as many as SYS's entry
//!   says. Where the entry's length does not go with the index, they are those of the index that
//!   look like SYS's, and all others that do and that no file has. Where the index is not legal,
//!   they are all sectors from 10 on that look like SYS's, whatever F is.
//! * A sector looks like one of SYS's if at least one place is used, and half or more of those used
//!   have a legal name and an index sector that is 0, 6, 7 or where files lie. The keys of sectors
//!   that are not found by the index are not known.
//! * Every place of these sectors that is not zero is an entry, whatever its words are.
//! * A file is read from the pairs of its index block as they stand, s and F serving to judge them
//!   only. The first pair is read from the index sector on, where a file's first slice begins.
//!   Pairs that together have more sectors than there are are not followed. Where no pair is, the
//!   slice that begins at the index sector is read.
//! * A legal index block in slices that are marked used and that nobody claims is a lost file's.
//! * Several files may claim a sector: each is given it, with a doubt.

mod catalog;
mod claims;
mod doubts;
mod file;
mod index;
mod lost;
mod numbers;
mod uses;

use std::collections::HashMap;

use crate::layout::{system_entry, Kit, MAP, MAP_SECTOR, SECTOR, SYS, SYS_INDEX};
use crate::types::Name;
use catalog::{read_catalog, words_at, Catalog, Place};
use claims::{followed_or_guessed, Claims};
use index::{Fault, Index};
use numbers::KitRead;

pub use claims::Claimer;
pub use file::{File, Kind};
pub use index::Pair;
pub use numbers::{Layout, Numbers, F_LIMITS, H_LIMITS, S_LIMITS};
pub use uses::{Data, Held, Slice, Use};

/// What is read of an image.
pub struct Rescue<'a> {
    image: &'a [u16],
    kit: Option<Kit>,
    layout: Layout,
    catalog: Catalog,
    /// The numbers of the entries of each name.
    numbers: HashMap<Name, Vec<usize>>,
    claims: Claims,
    /// The index blocks of lost files.
    lost: Vec<usize>,
    /// The first of them for each number of sectors.
    lost_of: HashMap<usize, usize>,
    doubts: Vec<String>,
}

impl<'a> Rescue<'a> {
    /// Reads an image, by the kit's numbers or those that are given.
    pub fn read(image: &'a [u16], given: &Numbers) -> Rescue<'a> {
        Rescue::by(image, numbers::read_kit(image, given))
    }

    /// Reads an image, by what is read of its kit.
    fn by(image: &'a [u16], kit: KitRead) -> Rescue<'a> {
        let catalog = read_catalog(image, &kit.layout);
        let mut rescue = Rescue {
            image,
            kit: kit.kit,
            layout: kit.layout,
            claims: Claims::gather(image, &kit.layout, &catalog),
            numbers: by_name(&catalog.places),
            catalog,
            lost: Vec::new(),
            lost_of: HashMap::new(),
            doubts: kit.doubts,
        };
        rescue.lost = rescue.look_for_lost();
        let lost = rescue.lost.iter().rev();
        rescue.lost_of = lost.map(|&at| (rescue.lost_total(at), at)).collect();
        rescue.doubts.extend_from_slice(&rescue.catalog.doubts);
        let more = rescue.unit_doubts();
        rescue.doubts.extend(more);
        rescue
    }

    /// What is doubtful about SYS's and MAP's sectors and about the map.
    fn unit_doubts(&self) -> Vec<String> {
        let mut doubts = Vec::new();
        // With an index SYS's entry has been looked for already.
        let by_looks = self.catalog.index.pairs.is_empty();
        if by_looks && !self.numbers.contains_key(&SYS) {
            doubts.push("SYS: it is not entered".to_string());
        }
        if !self.numbers.contains_key(&MAP) {
            doubts.push("MAP: it is not entered".to_string());
        }
        let claimed = self.claim_doubts(&self.sys_file(), Some(Claimer::Catalog));
        doubts.extend(claimed.into_iter().map(|doubt| format!("SYS: {doubt}")));
        doubts.extend(self.layout.unknown().map(|(what, choices)| {
            format!("{what}: files without an entry are not looked for ({choices})")
        }));
        doubts.extend(self.unclaimed());
        doubts.extend(self.lost.iter().map(|&sector| {
            let total = self.lost_total(sector);
            format!("@{sector} is an index block of {total} sectors that no entry names")
        }));
        doubts
    }

    /// The image's words.
    pub fn image(&self) -> &'a [u16] {
        self.image
    }

    /// The sectors that the image has.
    pub fn sectors(&self) -> usize {
        self.image.len() / SECTOR
    }

    /// The kit as it stands, if the image has one.
    pub fn kit(&self) -> Option<Kit> {
        self.kit
    }

    /// The numbers by which the image is read.
    pub fn layout(&self) -> Layout {
        self.layout
    }

    /// What is doubtful about the unit, a line each.
    pub fn doubts(&self) -> &[String] {
        &self.doubts
    }

    /// The number of entries found; they have the numbers below it.
    pub fn entries(&self) -> usize {
        self.catalog.places.len()
    }

    /// The numbers of the entries of a name.
    pub fn find(&self, name: Name) -> &[usize] {
        self.numbers.get(&name).map_or(&[], Vec::as_slice)
    }

    /// The file of the entry with a number.
    pub fn file(&self, number: usize) -> Option<File> {
        let place = self.catalog.places.get(number)?;
        Some(self.judged(place, Some(number)))
    }

    /// All files, in the order of their entries.
    pub fn files(&self) -> impl Iterator<Item = File> + '_ {
        (0..self.entries()).filter_map(|number| self.file(number))
    }

    /// The numbers of the entries of SYS and MAP.
    pub fn own(&self) -> impl Iterator<Item = usize> + '_ {
        [SYS, MAP]
            .into_iter()
            .flat_map(|name| self.find(name))
            .copied()
    }

    /// The numbers of the entries but SYS's and MAP's, each with the name.
    pub fn ordinary(&self) -> impl Iterator<Item = (usize, Name)> + '_ {
        let all = self.catalog.places.iter().map(Place::name).enumerate();
        all.filter(|(_, name)| Kind::of(*name) == Kind::Ordinary)
    }

    /// The numbers of all entries by name and place.
    pub fn sorted(&self) -> Vec<usize> {
        let mut numbers: Vec<usize> = (0..self.entries()).collect();
        numbers.sort_by_key(|&number| {
            let place = &self.catalog.places[number];
            (place.name(), place.sector, place.place)
        });
        numbers
    }

    /// The file of the entry with a number, its doubts left out.
    pub fn unjudged(&self, number: usize) -> Option<File> {
        let place = self.catalog.places.get(number)?;
        Some(self.read_file(place).0)
    }

    /// The file whose entry stands in a place of a sector, one of SYS's or not; none if the place
    /// is not in the image.
    pub fn at(&self, sector: usize, place: usize) -> Option<File> {
        let stands = |found: &Place| (found.sector, found.place) == (sector, place);
        if let Some(number) = self.catalog.places.iter().position(stands) {
            return self.file(number);
        }
        let words = words_at(self.image, sector, place)?;
        let known = self.catalog.sectors.iter().find(|one| one.sector == sector);
        let found = Place {
            sector,
            place,
            block: known.and_then(|one| one.block),
            words,
        };
        Some(self.judged(&found, None))
    }

    /// A file with its doubts.
    fn judged(&self, place: &Place, number: Option<usize>) -> File {
        let (mut file, faults) = self.read_file(place);
        let mut doubts = self.entry_doubts(place, number);
        doubts.extend(match file.kind {
            Kind::Ordinary => self.file_doubts(&file, &faults, number.map(Claimer::Entry)),
            Kind::Sys | Kind::Map => self.system_doubts(&file),
        });
        file.doubts = doubts;
        file
    }

    /// A file with no doubts yet, and the faults of its index block.
    fn read_file(&self, place: &Place) -> (File, Vec<Fault>) {
        let data = self.layout.readable();
        let kind = Kind::of(place.name());
        let (index, readable) = match kind {
            Kind::Sys => (self.sys_index(), data),
            Kind::Map => (
                Index::of_sectors([MAP_SECTOR]),
                MAP_SECTOR..self.sectors().min(MAP_SECTOR + 1),
            ),
            Kind::Ordinary => {
                let sector = place.words[8] as usize;
                let index = followed_or_guessed(self.image, &self.layout, sector);
                (index, data)
            }
        };
        let file = File {
            sector: place.sector,
            place: place.place,
            words: place.words,
            kind,
            pairs: index.pairs,
            guessed: index.guessed,
            doubts: Vec::new(),
            readable,
        };
        (file, index.faults)
    }

    /// SYS's index, or one of the sectors that were found by their looks.
    fn sys_index(&self) -> Index {
        match self.catalog.index.pairs.is_empty() {
            true => Index::of_sectors(self.catalog.sectors.iter().map(|found| found.sector)),
            false => self.catalog.index.clone(),
        }
    }

    /// SYS by its sectors, whatever its entry says.
    fn sys_file(&self) -> File {
        let length = self.catalog.sectors.len();
        let place = Place {
            sector: 0,
            place: 0,
            block: None,
            words: system_entry(SYS, length, SYS_INDEX, 0),
        };
        self.read_file(&place).0
    }
}

/// The numbers of the entries of each name.
fn by_name(places: &[Place]) -> HashMap<Name, Vec<usize>> {
    let mut numbers: HashMap<Name, Vec<usize>> = HashMap::new();
    for (number, place) in places.iter().enumerate() {
        numbers.entry(place.name()).or_default().push(number);
    }
    numbers
}
