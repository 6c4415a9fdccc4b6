//! Every broken rule of a sound unit that can be named, with both numbers, the place and the files.
//!
//! After a fault the rest is read as far as it can be. A rule that cannot be judged because of
//! another fault is not judged: where the index of a file cannot be read, nothing is said of the
//! slices that would be its.

mod catalog;
mod entries;
mod files;
mod index;
mod kit;
mod rule;
mod slices;

use std::fmt;

use crate::layout::{Kit, SECTOR};
use crate::sound::soundness;
use crate::text::{name_text, NAMED};
use crate::types::{Name, State};

pub use rule::Rule;

/// The most findings of one rule that are given; one more counts the rest.
pub const MOST_OF_A_RULE: usize = 1_000;

/// A broken rule, and where it is broken.
#[derive(Clone, PartialEq, Eq, Debug)]
pub struct Finding {
    /// The rule.
    pub rule: Rule,
    text: String,
    place: Option<(usize, usize)>,
    numbers: Option<(usize, usize)>,
    slices: Option<(usize, usize)>,
    files: Vec<Name>,
    file_count: usize,
}

impl Finding {
    fn new(rule: Rule) -> Finding {
        Finding {
            rule,
            text: String::new(),
            place: None,
            numbers: None,
            slices: None,
            files: Vec::new(),
            file_count: 0,
        }
    }

    fn says(mut self, text: String) -> Finding {
        self.text = text;
        self
    }

    fn at(mut self, sector: usize, word: usize) -> Finding {
        self.place = Some((sector, word));
        self
    }

    fn numbers(mut self, expected: usize, found: usize) -> Finding {
        self.numbers = Some((expected, found));
        self
    }

    fn of(mut self, files: &[Name]) -> Finding {
        self.files.extend(files.iter().take(NAMED));
        self.file_count += files.len();
        self
    }

    /// About so many files more, whose names are not kept.
    fn and_more(mut self, files: usize) -> Finding {
        self.file_count += files;
        self
    }

    fn slices_from(mut self, first: usize, number: usize) -> Finding {
        self.slices = Some((first, number));
        self
    }

    /// Where it is: a sector of the image, and the word in it. None where the image is too short to
    /// have the place, and for a number of findings more.
    pub fn place(&self) -> Option<(usize, usize)> {
        self.place
    }

    /// The number that the rule asks for and the one that stands there, where there are two.
    pub fn expected_and_found(&self) -> Option<(usize, usize)> {
        self.numbers
    }

    /// The slices that it is about, where it is about slices: the first and their number.
    pub fn slices(&self) -> Option<(usize, usize)> {
        self.slices
    }

    /// The files that it is about, at most sixteen of them.
    pub fn files(&self) -> Vec<String> {
        self.files.iter().map(|&name| name_text(name)).collect()
    }

    /// How many files it is about.
    pub fn file_count(&self) -> usize {
        self.file_count
    }
}

impl fmt::Display for Finding {
    /// What was found, in a line.
    fn fmt(&self, to: &mut fmt::Formatter) -> fmt::Result {
        to.write_str(&self.text)
    }
}

/// Every broken rule that can be named; none exactly if the image is a sound unit with no area
/// process open. The first is the one that [`soundness`] answers.
///
/// Of one rule [`MOST_OF_A_RULE`] are given at most, and one more that counts the rest.
pub fn findings(image: &[u16]) -> Vec<Finding> {
    let mut found = Found {
        findings: Vec::new(),
        counts: [0; Rule::ALL.len()],
    };
    look(image, &mut found);
    let mut findings = found.finish();
    for finding in &mut findings {
        let inside = |&(sector, word): &(usize, usize)| sector * SECTOR + word < image.len();
        finding.place = finding.place.filter(inside);
    }
    if let Err(unsound) = soundness(image, &State::default()) {
        let (rules, file) = rule::of_unsound(&unsound);
        let meant = |finding: &Finding| {
            rules.contains(&finding.rule) && file.is_none_or(|file| finding.files.contains(&file))
        };
        if let Some(first) = findings.iter().position(meant) {
            findings[..=first].rotate_right(1);
        }
    }
    findings
}

/// Looks at one thing after the other, as far as each can be read.
fn look(image: &[u16], found: &mut Found) {
    let Some(kit) = kit::check(image, found) else {
        return;
    };
    let catalog = catalog::check(image, &kit, found);
    let entries = entries::check(image, &kit, &catalog, found);
    let files = files::check(image, &kit.kit, &entries, found);
    slices::check(image, &kit.kit, &catalog, &files, found);
}

/// The findings so far.
struct Found {
    findings: Vec<Finding>,
    counts: [usize; Rule::ALL.len()],
}

impl Found {
    /// Adds a finding of a rule, or counts it if there are enough.
    fn add(&mut self, rule: Rule, make: impl FnOnce(Finding) -> Finding) {
        let count = &mut self.counts[rule as usize];
        *count += 1;
        if *count <= MOST_OF_A_RULE {
            self.findings.push(make(Finding::new(rule)));
        }
    }

    /// All findings, the counted ones behind.
    fn finish(mut self) -> Vec<Finding> {
        for rule in Rule::ALL {
            let more = self.counts[rule as usize].saturating_sub(MOST_OF_A_RULE);
            if more > 0 {
                let text = format!("{more} more of this rule");
                self.findings.push(Finding::new(rule).says(text));
            }
        }
        self.findings
    }
}

/// A whole sector of an image, if it has it.
fn sector(image: &[u16], number: usize) -> Option<&[u16]> {
    image.get(number * SECTOR..(number + 1) * SECTOR)
}

/// The numbers that say where slices begin.
fn slices_begin(kit: &Kit) -> String {
    format!("F is {}, s is {}, N is {}", kit.f, kit.s, kit.n)
}

/// Slices in a line, with their sectors.
fn slices_text(kit: &Kit, first: usize, last: usize) -> String {
    let (from, to) = (kit.first_sector(first), kit.first_sector(last) + kit.s - 1);
    match first == last {
        true => format!("slice {first} (sectors {from} to {to})"),
        false => format!("slices {first} to {last} (sectors {from} to {to})"),
    }
}
