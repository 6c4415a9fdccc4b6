//! `format`: an empty catalog on a new image or on an old one.

use std::fs;
use std::path::Path;

use ruzkemp::{Error, Record};

use crate::arguments::{flag, valued, Command, Given, DRY_RUN, LOW, OFFSET, UNIT};
use crate::console::report;
use crate::explained::Explained;
use crate::failure::{Failure, Outcome};
use crate::host::{shown, MOST_SECTORS, SECTOR_BYTES};
use crate::meaning;
use crate::numbers::{Numbers, Wanted, OPTIONS, PASSED};
use crate::session::{make, Session};
use crate::values::{self, count};

/// The sectors of the smallest unit: one slice of two from sector 10 on.
const SMALLEST: u16 = 12;

/// `format`.
pub const FORMAT: Command = Command {
    name: "format",
    operands: &["IMAGE"],
    choices: &[
        valued(
            "--sectors",
            "N",
            "N, the sectors of the unit, at most 32767 (1034)",
        ),
        valued("--first", "F", "F, the first data sector, at least 10 (10)"),
        valued(
            "--slice",
            "S",
            "s, the sectors of a slice, 2 to 64, a divisor of N - F (4)",
        ),
        valued(
            "--keys",
            "H",
            "H, the keys of the catalog: SYS's size, 1 to 64 (8)",
        ),
        valued("--words", "W,W", "kit words 6 and 7 (0,0 if not given)"),
        flag("--force", "format a file that exists: its catalog is lost"),
        flag("--new", "with --force: begin with zero words"),
        UNIT,
        LOW,
        OFFSET,
        DRY_RUN,
    ],
    summary: "Write an empty catalog on a new image file, or with --force on an old one",
    about: "Sends Format. A new file has N sectors of zero words. Of an old one, which must have\n\
            N sectors, Format leaves all words but sectors 6 to 9 and SYS as they are, unless\n\
            --new is given too. Numbers that are not given are chosen so that they suit those\n\
            that are; in brackets those of a unit of which none is given. An old file keeps its\n\
            length. Where the numbers are refused, the nearest legal ones are told.",
    run: format,
};

fn format(given: &Given) -> Outcome {
    let path = given.path(0);
    let there = fs::symlink_metadata(path).is_ok();
    let stays = there && given.flag("--force") && !given.flag("--new");
    // Wrong usage is told before a file is locked. Only then its length is sure: another command may
    // have replaced it meanwhile, so that the numbers are chosen once more.
    let (_, mut record) = chosen(given, stays)?;
    if stays {
        let mut session = Session::to_format(given, record.sectors)?;
        record = formatted(given, stays, &mut session.unit)?;
        session.write_back()?;
    } else {
        make(given, || {
            let mut unit = Explained::new(Vec::new(), record.unit);
            record = formatted(given, stays, &mut unit)?;
            Ok(unit)
        })?;
    }
    report(&described(path, &record));
    Ok(())
}

/// What is wanted, and the record with the numbers chosen so that they suit it.
fn chosen(given: &Given, stays: bool) -> Outcome<(Wanted, Record)> {
    let wanted = wanted(given, stays)?;
    let record = record(given, &wanted)?;
    Ok((wanted, record))
}

/// The numbers that are given, and the length of a file that stays. How much of a pack is the
/// unit's has to be given.
fn wanted(given: &Given, stays: bool) -> Outcome<Wanted> {
    let mut wanted = Wanted::default();
    for (number, option) in wanted.given.iter_mut().zip(OPTIONS) {
        *number = given.value(option, values::nearest_word)?;
    }
    if given.flag(OFFSET.name) {
        given.needed(OPTIONS[0], values::nearest_word)?;
    } else if stays {
        wanted.file = sectors_of(given.path(0));
    } else if wanted.given[0].is_none() {
        // A file that is made anew has the old one's length, if a unit can have it.
        let of_unit = |sectors: &u16| (SMALLEST..=MOST_SECTORS as u16).contains(sectors);
        wanted.given[0] = sectors_of(given.path(0)).filter(of_unit);
    }
    are_words(given, &wanted)?;
    Ok(wanted)
}

/// The sectors of a file, if there is one and a word can say how many they are.
fn sectors_of(path: &Path) -> Option<u16> {
    let bytes = fs::metadata(path).ok()?.len();
    u16::try_from(bytes / SECTOR_BYTES as u64).ok()
}

/// Refuses a number that no message can carry, as Format would with the largest word in its place.
fn are_words(given: &Given, wanted: &Wanted) -> Outcome {
    for (option, fault) in OPTIONS.into_iter().zip(PASSED) {
        let limit = meaning::of_limit(fault);
        let too_large = |text: &str| format!("{text} is too large: {limit}{}", legal(wanted));
        given.value(option, |text| {
            values::number(text).map_err(|_| too_large(text))
        })?;
    }
    Ok(())
}

/// The nearest legal numbers, if there are any, in brackets.
fn legal(wanted: &Wanted) -> String {
    match wanted.nearest() {
        none if none.is_empty() => String::new(),
        nearest => format!(" (legal: {})", nearest.join(", ")),
    }
}

fn record(given: &Given, wanted: &Wanted) -> Outcome<Record> {
    let Numbers {
        sectors,
        first,
        slice,
        keys,
    } = wanted.chosen();
    let mut record = Record::new(given.unit()?, keys, slice, sectors, first);
    let carried = given.value("--words", values::words::<2>)?;
    record.carried = carried.unwrap_or_default();
    Ok(record)
}

/// Formats the unit of a file that stays, or in its place a new one; the record.
fn formatted(given: &Given, stays: bool, unit: &mut Explained) -> Outcome<Record> {
    let (wanted, record) = chosen(given, stays)?;
    if !stays {
        *unit = Explained::new(vec![0; record.image_words()], record.unit);
    }
    let result = unit.format(&record);
    result.map_err(|error| refused(unit, &record, &wanted, error))?;
    Ok(record)
}

/// The refusal; where the numbers are the reason, with the limit that they break, named as an
/// option, and the nearest numbers that are legal.
fn refused(unit: &Explained, record: &Record, wanted: &Wanted, error: Error) -> Failure {
    let what = format!("format of unit {}", record.unit);
    let failure = unit.refused(what, error);
    let numbers = wanted.chosen();
    let broken = match wanted.file {
        // Better numbers would not help a unit that is not known.
        _ if record.unit > 3 => None,
        Some(file) if file != numbers.sectors => {
            let sectors = numbers.sectors;
            Some(format!("the file has {file} sectors, and N is {sectors}"))
        }
        _ => wanted.broken(),
    };
    let (Failure::Refused(what, error, _), Some(broken)) = (&failure, broken) else {
        return failure;
    };
    let Numbers {
        sectors,
        first,
        slice,
        keys,
    } = numbers;
    let what = format!("{what} with N {sectors}, F {first}, s {slice}, H {keys}");
    Failure::Refused(what, *error, format!("{broken}{}", legal(wanted)))
}

fn described(path: &Path, record: &Record) -> String {
    let Record {
        unit,
        sys_size,
        slice_size,
        sectors,
        first,
        ..
    } = record;
    format!(
        "{}: unit {unit} formatted: {sectors} sectors, {} of {slice_size} from sector {first} on, \
         {}\n",
        shown(path),
        count((sectors - first) / slice_size, "slice"),
        count(*sys_size, "key")
    )
}
