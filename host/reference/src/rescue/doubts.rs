//! What is doubtful about an entry and its file.

use std::iter::successors;

use super::catalog::Place;
use super::claims::Claimer;
use super::file::{is_legal, File, Kind};
use super::index::{Fault, Pair, MORE};
use super::Rescue;
use crate::layout::{key, legal_attributes, system_entry, ENTRY, MAP, MAP_INDEX, SYS, SYS_INDEX};
use crate::text::{count, name_text};
use crate::types::Name;

/// So many lines at most are said of stretches that are claimed or marked wrongly.
const MOST_LINES: usize = 8;
/// So many places at most are said of others of a name.
const MOST_NAMESAKES: usize = 4;

impl Rescue<'_> {
    /// What is doubtful about the entry itself: its name, its key, others of its name.
    pub(super) fn entry_doubts(&self, place: &Place, number: Option<usize>) -> Vec<String> {
        let mut doubts = Vec::new();
        let name = place.name();
        if number.is_none() {
            doubts.push(format!(
                "sector {} is not read as one of SYS's",
                place.sector
            ));
        }
        if !is_legal(name) {
            let [a, b, c] = name;
            doubts.push(format!("the name {a:04X}h {b:04X}h {c:04X}h is not legal"));
        }
        if let (Some(h), Some(block)) = (self.layout.h, place.block) {
            let (stands, has) = (block % h, key(name, h));
            if stands != has {
                doubts.push(format!(
                    "it stands in a sector of key {stands}, its name has key {has}"
                ));
            }
        }
        let cell = self.claims.cell(place.sector);
        if let Some((other, _)) = cell.others(Some(Claimer::Catalog)) {
            let other = self.claimer(other, name);
            doubts.push(format!("its sector {} is claimed by {other}", place.sector));
        }
        doubts.extend(self.namesakes(name, number));
        doubts
    }

    /// Where else a name stands; of many places only some.
    fn namesakes(&self, name: Name, number: Option<usize>) -> Vec<String> {
        let all = self.find(name);
        let others = all.iter().filter(|&&other| Some(other) != number);
        let said = others.take(MOST_NAMESAKES).map(|&other| {
            let Place { sector, place, .. } = self.catalog.places[other];
            format!("the name stands in {sector}:{place} too")
        });
        let mut doubts: Vec<String> = said.collect();
        let said = doubts.len() + usize::from(number.is_some());
        if let Some(more @ 1..) = all.len().checked_sub(said) {
            doubts.push(format!(
                "the name stands in {} too",
                count(more, "more place")
            ));
        }
        doubts
    }

    /// What is doubtful about the entry of SYS or MAP.
    pub(super) fn system_doubts(&self, file: &File) -> Vec<String> {
        let by_index = !self.catalog.index.pairs.is_empty();
        let (wanted, judged) = match file.kind {
            Kind::Map => (system_entry(MAP, 1, MAP_INDEX, 1), 0..ENTRY),
            // The length has been judged with SYS's index.
            _ => (
                system_entry(SYS, file.length(), SYS_INDEX, self.catalog.index.total()),
                0..ENTRY,
            ),
        };
        let judged = judged.filter(|&word| by_index || file.kind == Kind::Map || word != 9);
        let wrong = judged.filter(|&word| file.words[word] != wanted[word]);
        wrong
            .map(|word| {
                let (found, wanted) = (file.words[word], wanted[word]);
                format!("word {word} is {found:04X}h, not {wanted:04X}h")
            })
            .collect()
    }

    /// What is doubtful about an ordinary file's words, index and sectors.
    pub(super) fn file_doubts(
        &self,
        file: &File,
        faults: &[Fault],
        me: Option<Claimer>,
    ) -> Vec<String> {
        let mut doubts = Vec::new();
        let attributes = file.words[6];
        if !legal_attributes(attributes, 0) {
            doubts.push(format!("no file may have the attributes {attributes:04X}h"));
        } else if !legal_attributes(attributes, file.total()) {
            doubts.push("it is entry only and has slices".into());
        }
        doubts.extend(self.index_sector_doubt(file.words[8] as usize));
        for fault in faults {
            doubts.push(format!(
                "{}{}",
                from_block(file, fault.position),
                fault.text
            ));
        }
        doubts.extend(length_doubts(file));
        doubts.extend(self.lost_doubt(file));
        doubts.extend(self.claim_doubts(file, me));
        doubts
    }

    /// Which index block of a lost file could be that of a file whose own cannot be followed.
    fn lost_doubt(&self, file: &File) -> Option<String> {
        if !file.pairs.is_empty() && !file.guessed {
            return None;
        }
        let reserved = file.words[9] as usize;
        let found = self.lost_of.get(&reserved)?;
        Some(format!(
            "@{found} may be its index block: it has {reserved} sectors too"
        ))
    }

    /// What is doubtful about an index sector.
    fn index_sector_doubt(&self, index: usize) -> Option<String> {
        let (begin, n) = (self.layout.begin(), self.layout.n);
        if index == 0 || self.layout.begins_slice(index) {
            return None;
        }
        Some(match index {
            _ if index >= self.layout.most() => {
                let most = self.layout.most();
                format!("the index sector {index} is outside: there are {most} sectors")
            }
            _ if index >= n => {
                format!("the index sector {index} is outside: the unit has {n} sectors")
            }
            _ if index < begin => {
                format!("the index sector {index} is outside: the first slice begins at {begin}")
            }
            _ => format!("no slice begins at the index sector {index}"),
        })
    }

    /// What is doubtful about the sectors that a file claims.
    pub(super) fn claim_doubts(&self, file: &File, me: Option<Claimer>) -> Vec<String> {
        let runs = file.placed().flat_map(|(position, pair)| {
            let runs = self.runs(pair);
            runs.map(move |run| (position + run.start - pair.start, run))
        });
        let claimed = runs.flat_map(|(position, run)| {
            let said = self.run_doubts(file, run, me);
            said.map(move |said| format!("{}{said}", from_block(file, position)))
        });
        // One more than are said tells that there is more.
        let all = self.repeated(file).chain(claimed);
        let mut doubts: Vec<String> = all.take(MOST_LINES + 1).collect();
        if doubts.len() > MOST_LINES {
            doubts[MOST_LINES] = MORE.into();
        }
        doubts
    }

    /// A pair in the longest parts that have one cell each.
    fn runs(&self, pair: Pair) -> impl Iterator<Item = Pair> + '_ {
        let end = pair.sectors().end;
        let run = move |start: usize| {
            let length = self.claims.run(start).min(end.checked_sub(start)?);
            (length > 0).then_some(Pair { start, length })
        };
        successors(run(pair.start), move |last| run(last.sectors().end))
    }

    /// What is doubtful about a stretch of sectors with one cell.
    fn run_doubts(
        &self,
        file: &File,
        run: Pair,
        me: Option<Claimer>,
    ) -> impl Iterator<Item = String> {
        let cell = self.claims.cell(run.start);
        let (what, many) = self.stretch(run);
        let verb = if many { "are" } else { "is" };
        let claimed = cell.others(me).map(|(other, number)| {
            let other = self.claimer(other, file.name());
            let more = match number {
                1 => String::new(),
                _ => format!(" and {} more", number - 1),
            };
            format!("{what} {verb} claimed by {other}{more} too")
        });
        let free = (cell.marked_free == Some(true)).then(|| format!("{what} {verb} marked free"));
        claimed.into_iter().chain(free)
    }

    /// A stretch in slices if they are known, else in sectors; and whether it is more than one.
    pub(super) fn stretch(&self, run: Pair) -> (String, bool) {
        let last = run.sectors().end - 1;
        let slices = (self.layout.slice_of(run.start), self.layout.slice_of(last));
        let (what, first, last) = match slices {
            (Some(first), Some(last)) => ("slice", first, last),
            _ => ("sector", run.start, last),
        };
        match first == last {
            true => (format!("{what} {first}"), false),
            false => (format!("{what}s {first} to {last}"), true),
        }
    }

    /// The stretches that come twice in a file.
    fn repeated<'a>(&'a self, file: &'a File) -> impl Iterator<Item = String> + 'a {
        let index = match file.kind {
            Kind::Sys => SYS_INDEX,
            _ => file.words[8] as usize,
        };
        let pairs = match self.claims.repeats(index) {
            true => file.pairs.len(),
            false => 0,
        };
        let placed = file.placed().enumerate().take(pairs);
        placed.filter_map(|(number, (position, pair))| {
            let mut before = file.pairs[..number].iter();
            let twice = before.find_map(|other| overlap(pair, *other))?;
            let (what, many) = self.stretch(twice);
            let verb = if many { "come" } else { "comes" };
            let at = from_block(file, position + twice.start - pair.start);
            Some(format!("{at}{what} {verb} twice in it"))
        })
    }

    /// Who claims something, for one of the name `asking`; with the place where the name is not
    /// enough.
    pub(super) fn claimer(&self, claimer: Claimer, asking: [u16; 3]) -> String {
        let Claimer::Entry(number) = claimer else {
            return "SYS".into();
        };
        let place = &self.catalog.places[number];
        let alone = self
            .numbers
            .get(&place.name())
            .is_none_or(|all| all.len() == 1);
        match alone && place.name() != asking && is_legal(place.name()) {
            true => name_text(place.name()),
            false => format!(
                "{} in {}:{}",
                name_text(place.name()),
                place.sector,
                place.place
            ),
        }
    }
}

/// The sectors that two stretches share.
fn overlap(one: Pair, other: Pair) -> Option<Pair> {
    let start = one.start.max(other.start);
    let end = one.sectors().end.min(other.sectors().end);
    (start < end).then(|| Pair {
        start,
        length: end - start,
    })
}

/// The words before a doubt that matters from a place in the joined stretches on.
fn from_block(file: &File, position: usize) -> String {
    match file.block_at(position).unwrap_or(0) {
        block if block < file.length() => format!("block {block} on: "),
        _ => "beyond the length: ".into(),
    }
}

/// What is doubtful about length and reserved length, and which blocks cannot be read.
fn length_doubts(file: &File) -> Vec<String> {
    let mut doubts = Vec::new();
    let (length, reserved, total) = (file.length(), file.words[9] as usize, file.total());
    if length > 32_767 {
        doubts.push(format!("the length {length} is past 32767"));
    }
    if length > 0 && length + 1 > total {
        let held = total.saturating_sub(1);
        doubts.push(format!("length {length}, but slices for {held} only"));
    }
    if reserved != total {
        doubts.push(format!(
            "reserved {reserved}, but slices of {total} sectors in all"
        ));
    }
    let missing = file.missing();
    doubts.extend(
        missing
            .into_iter()
            .map(|(first, last)| match first == last {
                true => format!("block {first} cannot be read"),
                false => format!("blocks {first} to {last} cannot be read"),
            }),
    );
    doubts
}
