//! `ls`, `show`, `map` and `get` with `--unsound`: what can be read of an image that is not a sound
//! unit, by the second implementation. The image is opened to be read only.

mod get;
mod listing;
mod map;

use std::ops::RangeInclusive;

use reference::layout::name_of;
use reference::rescue::{File, Numbers, Rescue, F_LIMITS, H_LIMITS, S_LIMITS};
use reference::{is_sound, State};

use crate::arguments::{flag, valued, Choice, Given};
use crate::failure::{Failure, Outcome};
use crate::host::called;
use crate::values;

pub use get::get;
pub use listing::{ls, show};
pub use map::map;

/// Asks for what can be read of an image that need not be sound.
pub const UNSOUND: Choice = flag(
    "--unsound",
    "read what can be read, sound or not, and say what is doubtful",
);
/// H in place of the kit's.
pub const KEYS: Choice = valued("--keys", "H", "H, in place of a damaged kit's");
/// s in place of the kit's.
pub const SLICE: Choice = valued("--slice", "S", "s, in place of a damaged kit's");
/// F in place of the kit's.
pub const FIRST: Choice = valued("--first", "F", "F, in place of a damaged kit's");

/// Whether `--unsound` is given; without it the kit's numbers must not be.
pub fn asked(given: &Given) -> Outcome<bool> {
    let unsound = given.flag(UNSOUND.name);
    let numbers = [KEYS.name, SLICE.name, FIRST.name];
    match numbers.into_iter().find(|name| given.flag(name)) {
        Some(name) if !unsound => Err(given.misused(format!("{name} is for --unsound only"))),
        _ => Ok(unsound),
    }
}

/// The kit's numbers as they are given.
pub fn numbers(given: &Given) -> Outcome<Numbers> {
    Ok(Numbers {
        h: number(given, KEYS.name, H_LIMITS)?,
        s: number(given, SLICE.name, S_LIMITS)?,
        f: number(given, FIRST.name, F_LIMITS)?,
    })
}

fn number(given: &Given, name: &str, limits: RangeInclusive<usize>) -> Outcome<Option<usize>> {
    given.value(name, |text| {
        let number = usize::from(values::number(text)?);
        let (low, high) = limits.clone().into_inner();
        match limits.contains(&number) {
            true => Ok(number),
            false => Err(format!("{number} is not {low} to {high}")),
        }
    })
}

/// Refuses options that mean nothing with `--unsound`.
fn not_with(given: &Given, names: &[&str]) -> Outcome {
    match names.iter().find(|name| given.flag(name)) {
        Some(name) => Err(given.misused(format!("{name} is not for --unsound"))),
        None => Ok(()),
    }
}

/// So many doubts about the unit are said where it is not the unit that is asked for.
const MOST_DOUBTS: usize = 16;

/// The line that says how the image is read, and what is doubtful about the unit, so many lines at
/// most.
fn heading(given: &Given, rescue: &Rescue, most: usize) -> String {
    let sound = is_sound(rescue.image(), &State::default());
    let verdict = match (sound, rescue.doubts().is_empty()) {
        (true, true) => "the unit is sound, nothing is doubtful",
        (true, false) => "the unit is sound, but not by the numbers given",
        (false, _) => "not a sound unit",
    };
    let path = called(given.path(0));
    let mut text = format!("{path}: read without guarantee: {verdict}\n");
    for doubt in rescue.doubts().iter().take(most) {
        text += &format!("  doubtful: {doubt}\n");
    }
    if let Some(more @ 1..) = rescue.doubts().len().checked_sub(most) {
        text += &format!("  and {more} more (ls --unsound lists them)\n");
    }
    if let Some(fit) = fitting(rescue) {
        text += &format!("  {fit}\n");
    }
    text
}

/// The numbers that fit where the kit's do not serve, as they can be given.
fn fitting(rescue: &Rescue) -> Option<String> {
    let Numbers { h, s, f } = rescue.fitting()?;
    let (h, s, f) = (h?, s?, f?);
    Some(format!(
        "these numbers fit: --keys {h} --slice {s} --first {f}"
    ))
}

/// So many files of a name at most are read by it; all have places.
const MOST_NAMESAKES: usize = 64;

/// The files that an operand means: all of a name, or the one of a place as `SECTOR:PLACE`.
fn named(given: &Given, rescue: &Rescue, text: &str) -> Outcome<Vec<File>> {
    let files: Vec<File> = match text.split_once(':') {
        Some((sector, place)) => {
            let read = |text| values::number(text).map_err(|wrong| given.misused(wrong));
            let (sector, place) = (read(sector)?, read(place)?);
            rescue.at(sector.into(), place.into()).into_iter().collect()
        }
        None => {
            let name = name_of(&given.read_name(text)?.to_string(), 0);
            let numbers = rescue.find(name).iter().take(MOST_NAMESAKES);
            numbers.filter_map(|&number| rescue.file(number)).collect()
        }
    };
    match files.is_empty() {
        true => Err(Failure::NotFound(format!(
            "{}: no entry {text} is found (ls --unsound lists those that are)",
            called(given.path(0))
        ))),
        false => Ok(files),
    }
}
