//! Rules 35 to 37: whose each slice is, and how it is marked.

use std::collections::BTreeMap;

use super::catalog::Catalog;
use super::files::Files;
use super::index::Index;
use super::{slices_text, Found, Rule};
use crate::layout::*;
use crate::text::{name_text, names_text, NAMED};
use crate::types::Name;

/// An index block with the files whose it is: SYS's, or that of one file or of some that share it.
struct Owner<'a> {
    files: &'a [Name],
    index: &'a Index,
}

/// Neighbouring slices that are in the same files.
struct Part {
    first: usize,
    last: usize,
    /// How often each of the slices is in a file.
    times: usize,
    /// Some of the files, and how often each.
    files: Vec<(Name, usize)>,
    /// How many files more.
    more: usize,
}

/// Checks that no slice is in two files, and that each is marked as it has to be.
pub(super) fn check(image: &[u16], kit: &Kit, catalog: &Catalog, files: &Files, found: &mut Found) {
    let mut owners = vec![Owner {
        files: &[SYS],
        index: &catalog.index,
    }];
    owners.extend(files.held.iter().map(|held| Owner {
        files: &held.files,
        index: &held.index,
    }));
    let all = files.all && catalog.index.whole;
    for part in parts(kit, &owners) {
        if part.times > 1 {
            shared(kit, &part, found);
        }
        if part.times > 0 || all {
            check_marks(image, kit, &part, found);
        }
    }
}

/// All slices of the unit in parts, from the first on.
fn parts(kit: &Kit, owners: &[Owner]) -> Vec<Part> {
    let slices = kit.slices();
    let mut having: BTreeMap<usize, usize> = BTreeMap::new();
    let mut parts = Vec::new();
    let mut first = 1;
    for (from, changed) in changes(owners) {
        if from > first {
            parts.push(part(owners, &having, first, from - 1));
        }
        first = from;
        change(&mut having, &changed);
    }
    if first <= slices {
        parts.push(part(owners, &having, first, slices));
    }
    parts
}

/// By slices, which owners have one stretch more from there on, and which one less.
fn changes(owners: &[Owner]) -> BTreeMap<usize, Vec<(usize, bool)>> {
    let all = owners.iter().enumerate();
    let all = all.flat_map(|(owner, Owner { index, .. })| {
        let stretches = index.stretches.iter();
        stretches.map(move |&(first, count)| (owner, first, first + count))
    });
    let mut changes: BTreeMap<usize, Vec<(usize, bool)>> = BTreeMap::new();
    for (owner, first, behind) in all {
        changes.entry(first).or_default().push((owner, true));
        changes.entry(behind).or_default().push((owner, false));
    }
    changes
}

/// Counts how often owners have the slices from here on.
fn change(having: &mut BTreeMap<usize, usize>, changed: &[(usize, bool)]) {
    for &(owner, more) in changed {
        let times = having.entry(owner).or_default();
        match more {
            true => *times += 1,
            false => *times -= 1,
        }
    }
    having.retain(|_, times| *times != 0);
}

/// The part of slices that these owners have, each so often.
fn part(owners: &[Owner], having: &BTreeMap<usize, usize>, first: usize, last: usize) -> Part {
    let number = |(&owner, times): (&usize, &usize)| owners[owner].files.len() * times;
    let times = having.iter().map(number).sum();
    let files = having.iter().flat_map(|(&owner, &times)| {
        let files = owners[owner].files.iter();
        files.map(move |&name| (name, times))
    });
    let files: Vec<(Name, usize)> = files.take(NAMED).collect();
    let total: usize = having.keys().map(|&owner| owners[owner].files.len()).sum();
    let more = total - files.len();
    Part {
        first,
        last,
        times,
        files,
        more,
    }
}

/// Slices that are in two files or twice in one.
fn shared(kit: &Kit, part: &Part, found: &mut Found) {
    found.add(Rule::SliceOnce, |finding| {
        let files: Vec<String> = part.files.iter().map(|&owner| owner_text(owner)).collect();
        let mut files = files.join(", ");
        if part.more > 0 {
            files += &format!(" and {} more", part.more);
        }
        let (slices, verb) = subject(kit, part.first, part.last);
        let text = format!("{slices} {verb} in {files}");
        let finding = finding.says(text).numbers(1, part.times);
        let finding = finding.at(kit.first_sector(part.first), 0);
        let finding = finding.slices_from(part.first, part.last - part.first + 1);
        finding.of(&names(part)).and_more(part.more)
    });
}

fn owner_text((name, times): (Name, usize)) -> String {
    match times {
        1 => name_text(name),
        2 => format!("{} twice", name_text(name)),
        _ => format!("{} {times} times", name_text(name)),
    }
}

fn names(part: &Part) -> Vec<Name> {
    part.files.iter().map(|&(name, _)| name).collect()
}

/// Slices in a line, with the verb that goes with them.
fn subject(kit: &Kit, first: usize, last: usize) -> (String, &'static str) {
    let verb = if first == last { "is" } else { "are" };
    (slices_text(kit, first, last), verb)
}

/// A slice is marked used exactly when a file has it; neighbours in one finding.
fn check_marks(image: &[u16], kit: &Kit, part: &Part, found: &mut Found) {
    let had = part.times > 0;
    let wrong = |&slice: &usize| marked_free(image, slice) == had;
    let wrong: Vec<usize> = (part.first..=part.last).filter(wrong).collect();
    let rule = if had {
        Rule::MarkedFree
    } else {
        Rule::MarkedUsed
    };
    for (first, number) in stretches(&wrong) {
        found.add(rule, |finding| {
            let (slices, verb) = subject(kit, first, first + number - 1);
            let text = match had {
                true => format!(
                    "{slices} {verb} marked free, and {} has {}",
                    names_text(&names(part), part.more),
                    if number == 1 { "it" } else { "them" }
                ),
                false => format!(
                    "{slices} {verb} marked used, and no file has {}",
                    if number == 1 { "it" } else { "them" }
                ),
            };
            let finding = finding.says(text).at(MAP_SECTOR, (first - 1) / 16);
            let finding = finding.slices_from(first, number);
            finding.of(&names(part)).and_more(part.more)
        });
    }
}
