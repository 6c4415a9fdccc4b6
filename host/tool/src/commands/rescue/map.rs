//! `map` with `--unsound`: each slice by who claims it.

use std::collections::BTreeMap;

use reference::rescue::{Claimer, Kind, Rescue, Slice, F_LIMITS};

use super::{fitting, heading, not_with, numbers, MOST_DOUBTS};
use crate::arguments::Given;
use crate::console::print;
use crate::failure::{Failure, Outcome};
use crate::host::{called, ImageFile};
use crate::palette;
use crate::terminal::{some, ROW};
use crate::values::count;

/// What is drawn for a slice.
#[derive(Clone, Copy, PartialEq, Eq)]
enum Drawn {
    /// Claimed by one, marked used.
    Owner(Claimer),
    /// Marked free and claimed by none.
    Free,
    /// Claimed by several.
    Several,
    /// Marked used and claimed by none.
    Lost,
    /// Marked free and claimed by one.
    Unmarked,
}

impl Drawn {
    fn of(slice: &Slice) -> Drawn {
        match (&slice.claimers[..], slice.marked_free == Some(true)) {
            ([], true) => Drawn::Free,
            ([], false) => Drawn::Lost,
            ([_], true) => Drawn::Unmarked,
            ([one], false) => Drawn::Owner(*one),
            _ => Drawn::Several,
        }
    }
}

/// `map --unsound`.
pub fn map(given: &Given) -> Outcome {
    not_with(given, &["--svg", "--json", "--force"])?;
    let image = ImageFile::read_to_rescue(given.path(0), given.form()?)?;
    let rescue = Rescue::read(&image, &numbers(given)?);
    let Some(slices) = rescue.layout().slices() else {
        let path = called(given.path(0));
        let why = undrawn(&rescue);
        return Err(Failure::NotUnit(format!("{path}: {why}")));
    };
    let drawn = (1..=slices).filter_map(|slice| rescue.slice(slice));
    let drawn: Vec<Drawn> = drawn.map(|slice| Drawn::of(&slice)).collect();
    let symbols = Symbols::of(&rescue);
    let text =
        heading(given, &rescue, MOST_DOUBTS) + &rows(&drawn, &symbols) + &legend(&drawn, &symbols);
    print(&text)
}

/// Why no slice can be drawn.
fn undrawn(rescue: &Rescue) -> String {
    let sectors = rescue.sectors();
    if sectors <= *F_LIMITS.start() {
        let sectors = count(sectors as u64, "sector");
        return format!("the image has {sectors} and ends before the first slice");
    }
    let (what, choices) = rescue.layout().unknown().unwrap_or_default();
    let help = fitting(rescue).unwrap_or(format!("see {choices}"));
    format!("{what}: {help}")
}

/// The files with pairs, by name, and their symbols.
struct Symbols {
    files: Vec<(Claimer, String, char)>,
    of: BTreeMap<Claimer, char>,
}

impl Symbols {
    fn of(rescue: &Rescue) -> Symbols {
        let all = rescue.sorted().into_iter();
        let all = all.filter_map(|number| Some((number, rescue.unjudged(number)?)));
        let holders = all.filter(|(_, file)| file.kind == Kind::Ordinary && file.total() > 0);
        let mut files = vec![(Claimer::Catalog, "SYS".to_string(), '#')];
        for (place, (number, file)) in holders.enumerate() {
            let symbol = palette::symbol(place);
            files.push((Claimer::Entry(number), file.shown(), symbol));
        }
        let of = files.iter().map(|(claimer, _, symbol)| (*claimer, *symbol));
        let of = of.collect();
        Symbols { files, of }
    }

    fn symbol(&self, drawn: Drawn) -> char {
        match drawn {
            Drawn::Owner(owner) => self.of.get(&owner).copied().unwrap_or('!'),
            Drawn::Free => '.',
            Drawn::Several => '!',
            Drawn::Lost => '?',
            Drawn::Unmarked => '*',
        }
    }
}

fn rows(drawn: &[Drawn], symbols: &Symbols) -> String {
    let mut text = String::from("\n");
    for (row, slices) in drawn.chunks(ROW).enumerate() {
        let symbols = slices.iter().map(|slice| symbols.symbol(*slice));
        let symbols: String = symbols.collect();
        text += &format!("{:>5} {symbols}\n", row * ROW + 1);
    }
    text + "\n"
}

/// Each symbol with the number of slices that have it.
fn legend(drawn: &[Drawn], symbols: &Symbols) -> String {
    let owned = owned(drawn);
    let files = symbols.files.iter();
    let files = files.map(|(claimer, name, symbol)| {
        let slices = owned.get(claimer).copied().unwrap_or(0);
        format!("{symbol} {name:<5} {slices:>5}\n")
    });
    let others = [
        (Drawn::Free, "marked free, claimed by none"),
        (Drawn::Several, "claimed by several"),
        (Drawn::Lost, "marked used, claimed by none"),
        (Drawn::Unmarked, "marked free, yet claimed"),
    ];
    let others = others.map(|(what, said)| {
        let slices = slices(drawn, what);
        let listed = match what == Drawn::Free || slices.is_empty() {
            true => String::new(),
            false => format!(": {}", some(&slices)),
        };
        let (symbol, number) = (symbols.symbol(what), slices.len());
        format!("{symbol}       {number:>5} {said}{listed}\n")
    });
    files.chain(others).collect()
}

/// How many slices each has that nobody else claims.
fn owned(drawn: &[Drawn]) -> BTreeMap<Claimer, usize> {
    let mut owned: BTreeMap<Claimer, usize> = BTreeMap::new();
    for slice in drawn {
        if let Drawn::Owner(owner) = slice {
            *owned.entry(*owner).or_default() += 1;
        }
    }
    owned
}

/// The slices that are drawn so.
fn slices(drawn: &[Drawn], wanted: Drawn) -> Vec<usize> {
    let all = drawn.iter().enumerate();
    let found = all.filter(|(_, drawn)| **drawn == wanted);
    found.map(|(place, _)| place + 1).collect()
}
