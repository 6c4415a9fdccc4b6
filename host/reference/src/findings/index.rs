//! Rules 12 to 16: index blocks.

use super::{sector, slices_begin, Finding, Found, Rule};
use crate::layout::*;
use crate::text::{count, names_text};
use crate::types::Name;

/// What could be read of an index block.
#[derive(Default)]
pub(super) struct Index {
    /// The stretches that could be read, in file order: first slice and number of slices.
    pub stretches: Vec<(usize, usize)>,
    /// How many of them stand before the first that could not be read.
    pub sure: usize,
    /// Whether all could be read.
    pub whole: bool,
}

impl Index {
    /// The number of slices of the stretches that could be read.
    pub fn slices(&self) -> usize {
        self.stretches.iter().map(|(_, number)| number).sum()
    }
}

/// An index block that is being read, and the files whose it is.
struct Reading<'a> {
    kit: &'a Kit,
    sector: usize,
    files: &'a [Name],
    found: &'a mut Found,
}

/// Reads the index block of files (more than one only if they share it).
pub(super) fn read(
    image: &[u16],
    kit: &Kit,
    number: usize,
    files: &[Name],
    found: &mut Found,
) -> Index {
    let mut reading = Reading {
        kit,
        sector: number,
        files,
        found,
    };
    match sector(image, number) {
        Some(block) => reading.stretches(block),
        None => {
            reading.cut_off();
            Index::default()
        }
    }
}

impl Reading<'_> {
    /// Adds a finding about a word of the block.
    fn add(&mut self, rule: Rule, word: usize, text: String, make: impl Fn(Finding) -> Finding) {
        let (sector, files) = (self.sector, self.files);
        self.found.add(rule, |finding| {
            let text = format!("{}: {text}", names_text(files, 0));
            make(finding.says(text).at(sector, word).of(files))
        });
    }

    /// The block lies past the end of the image, which is shorter than the kit says.
    fn cut_off(&mut self) {
        let (sector, files) = (self.sector, self.files);
        self.found.add(Rule::Length, |finding| {
            let (names, end) = (names_text(files, 0), "the end of the image");
            let text = format!("{names}: the index block in sector {sector} lies past {end}");
            finding.says(text).of(files)
        });
    }

    fn stretches(&mut self, block: &[u16]) -> Index {
        let number = block[0] as usize;
        if !(1..=STRETCHES).contains(&number) {
            let text = format!(
                "the index block in sector {} says {number} stretches",
                self.sector
            );
            let limit = if number == 0 { 1 } else { STRETCHES };
            self.add(Rule::StretchCount, 0, text, |finding| {
                finding.numbers(limit, number)
            });
            return Index::default();
        }
        let mut index = Index::default();
        let (mut before, mut whole) = (None, true);
        for (number, pair) in block[1..1 + 2 * number].chunks_exact(2).enumerate() {
            let (length, start) = (pair[0] as usize, pair[1] as usize);
            let Some(stretch) = self.stretch(number, length, start) else {
                (before, whole) = (None, false);
                continue;
            };
            if before == Some(start) {
                self.joins(number, start);
            }
            before = Some(start + length);
            index.stretches.push(stretch);
            index.sure += usize::from(whole);
        }
        index.whole = whole;
        index
    }

    /// A stretch that can be read: its first slice and its number of slices.
    fn stretch(&mut self, number: usize, length: usize, start: usize) -> Option<(usize, usize)> {
        let (kit, word) = (self.kit, 1 + 2 * number);
        let which = number + 1;
        let mut legal = true;
        if length == 0 || !length.is_multiple_of(kit.s) {
            let sectors = count(length, "sector");
            let text = format!("stretch {which} has {sectors}, and s is {}", kit.s);
            self.add(Rule::StretchLength, word, text, |finding| {
                finding.numbers(kit.s, length)
            });
            legal = false;
        }
        let slice = kit.slice_at(start);
        if slice.is_none() {
            let by = slices_begin(kit);
            let text =
                format!("stretch {which} begins at sector {start}, where no slice begins ({by})");
            self.add(Rule::StretchStart, word + 1, text, |finding| finding);
        }
        let (last, end) = (kit.n - 1, start + length);
        if legal && slice.is_some() && end > kit.n {
            let text = format!(
                "stretch {which} ends at sector {}, and {last} is the last",
                end - 1
            );
            self.add(Rule::StretchEnd, word, text, |finding| {
                finding.numbers(last, end - 1)
            });
            legal = false;
        }
        slice.filter(|_| legal).map(|slice| (slice, length / kit.s))
    }

    fn joins(&mut self, number: usize, start: usize) {
        let which = number + 1;
        let text =
            format!("stretch {which} begins at sector {start}, right behind stretch {number}");
        self.add(Rule::StretchesApart, 2 + 2 * number, text, |finding| {
            finding
        });
    }
}
