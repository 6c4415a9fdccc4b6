//! `diff`: in what the files of two images differ.

use std::collections::BTreeSet;
use std::path::Path;

use ruzkemp::{Block, Call, Entry, Name, Role};

use crate::arguments::{flag, valued, Choice, Command, Given, LOW, OFFSET, UNIT};
use crate::commands::many::is_own;
use crate::commands::transfer::{close_area, open_area, SENDER};
use crate::console::print;
use crate::failure::{Failure, Outcome};
use crate::host::called;
use crate::progress::Progress;
use crate::session::Session;
use crate::values::{count, hex};
use crate::view::{joined, Holder, View};

/// Where kit words 6 and 7, which are carried, stand in an image.
const CARRIED: std::ops::Range<usize> = 8 * 256 + 6..8 * 256 + 8;

/// The order of a word's bytes in the second image.
const OTHER_LOW: Choice = flag("--other-low-byte-first", "the same of OTHER's file");
/// Where in its file the second unit begins.
const OTHER_OFFSET: Choice = valued("--other-offset", "SECTORS", "the same of OTHER's unit");

/// `diff`.
pub const DIFF: Command = Command {
    name: "diff",
    operands: &["IMAGE", "OTHER"],
    choices: &[
        flag("--layout", "compare too where the files' slices lie"),
        UNIT,
        LOW,
        OFFSET,
        OTHER_LOW,
        OTHER_OFFSET,
    ],
    summary: "Say in what the units of two images differ",
    about: "Compares the unit's numbers, and of the files names, attributes, lengths, optional\n\
            words, tails and blocks. Where slices lie is no difference without --layout; free\n\
            sectors and sectors 0 to 5 are never compared.\n\n\
            --low-byte-first and --offset are about IMAGE alone; OTHER is an image file of its own\n\
            with the high byte first, unless --other-low-byte-first or --other-offset says else.\n\n\
            Exit status 0 if there is no difference, 1 if there is one, above 1 on trouble.",
    run: diff,
};

/// The status 1 is for a difference: a refusal, as that of a unit's number, is wrong usage here.
fn diff(given: &Given) -> Outcome {
    compared(given).map_err(|failure| match failure {
        refused @ Failure::Refused(..) => Failure::Usage(refused.to_string()),
        other => other,
    })
}

fn compared(given: &Given) -> Outcome {
    if [0, 1].map(|place| given.path(place)) == [Path::new("-"); 2] {
        return Err(given.misused("standard input can be one of the two only".into()));
    }
    let mut pair = Pair {
        one: Side::open(given, 0, [&LOW, &OFFSET])?,
        other: Side::open(given, 1, [&OTHER_LOW, &OTHER_OFFSET]).map_err(of_other)?,
    };
    let layout = given.flag("--layout");
    let mut lines = pair.of_unit();
    let mut what = Vec::new();
    if !lines.is_empty() {
        what.push("the unit's numbers".to_string());
    }
    let mut files = 0_u64;
    for name in pair.names(layout) {
        let found = pair.of_file(name, layout)?;
        files += u64::from(!found.is_empty());
        lines.extend(found);
    }
    if files > 0 {
        what.push(count(files, "file"));
    }
    let title = format!("{} and {}", pair.one.shown, pair.other.shown);
    if what.is_empty() {
        return print(&format!("{title}: no difference\n"));
    }
    print(&lines.concat())?;
    let what = what.join(" and ");
    Err(Failure::Differ(format!("{title} differ in {what}")))
}

/// A failure to read the second image: a hint that names an option means the other's.
fn of_other(failure: Failure) -> Failure {
    match failure {
        Failure::NotUnit(text) if [LOW, OFFSET].iter().any(|hint| text.contains(hint.name)) => {
            let (low, offset) = (OTHER_LOW.name, OTHER_OFFSET.name);
            Failure::NotUnit(format!("{text}; here the options are {low} and {offset}"))
        }
        other => other,
    }
}

/// An image of the two.
struct Side {
    shown: String,
    session: Session,
    view: View,
}

impl Side {
    /// Opens an operand, with the options that say how it lies in its file.
    fn open(given: &Given, place: usize, [low, offset]: [&Choice; 2]) -> Outcome<Side> {
        let form = given.form_by(low, offset)?;
        let mut session = Session::to_read_at(given, place, form)?;
        let view = View::of(&mut session)?;
        let path = called(given.path(place));
        Ok(Side {
            // The two may be units of one pack.
            shown: match form.offset {
                Some(sector) => format!("{path} at sector {sector}"),
                None => path,
            },
            session,
            view,
        })
    }

    fn file(&self, name: Name) -> Option<&Holder> {
        self.view.files.iter().find(|file| file.name == name)
    }

    /// The unit's numbers that files do not change.
    fn numbers(&self) -> [(&'static str, String); 5] {
        let kit = &self.view.kit;
        let carried = hex(&self.session.unit.image()[CARRIED]);
        [
            ("sectors (N)", kit.n.to_string()),
            ("first data sector (F)", kit.f.to_string()),
            ("sectors of a slice (s)", kit.s.to_string()),
            ("keys (H)", kit.h.to_string()),
            ("kit words 6 and 7", carried),
        ]
    }

    fn next_block(&mut self, name: Name) -> Outcome<Block> {
        let mut block: Block = [0; 256];
        self.session.call(Call::Input, name, |unit| {
            unit.read_block(name, SENDER, &mut block)
        })?;
        Ok(block)
    }
}

/// The two images.
struct Pair {
    one: Side,
    other: Side,
}

impl Pair {
    /// The names on either, in the listing's order. SYS and MAP are the layout's.
    fn names(&self, layout: bool) -> BTreeSet<Name> {
        let sides = [&self.one, &self.other].into_iter();
        let names = sides.flat_map(|side| side.view.files.iter().map(|file| file.name));
        names.filter(|name| layout || !is_own(*name)).collect()
    }

    /// A difference, as a line: what it is about, and both values.
    fn line(&self, about: &str, what: &str, one: &str, other: &str) -> String {
        let (a, b) = (&self.one.shown, &self.other.shown);
        format!("{about}: {what}: {one} in {a}, {other} in {b}\n")
    }

    /// The lines of those pairs of values that differ.
    fn lines<const N: usize>(
        &self,
        about: &str,
        one: [(&'static str, String); N],
        other: [(&'static str, String); N],
    ) -> Vec<String> {
        let pairs = one.iter().zip(&other);
        let differing = pairs.filter(|((_, one), (_, other))| one != other);
        differing
            .map(|((what, one), (_, other))| self.line(about, what, one, other))
            .collect()
    }

    fn of_unit(&self) -> Vec<String> {
        self.lines("unit", self.one.numbers(), self.other.numbers())
    }

    /// The differences of a file that is on one of the two at least.
    fn of_file(&mut self, name: Name, layout: bool) -> Outcome<Vec<String>> {
        let (one, other) = match (self.one.file(name), self.other.file(name)) {
            (Some(one), Some(other)) => (one, other),
            (Some(_), None) => return Ok(vec![format!("{name}: only in {}\n", self.one.shown)]),
            (None, _) => return Ok(vec![format!("{name}: only in {}\n", self.other.shown)]),
        };
        let about = name.to_string();
        let mut lines = self.lines(&about, of_entry(&one.entry), of_entry(&other.entry));
        if layout {
            let slices = |file: &Holder| [("slices", listed(file))];
            lines.extend(self.lines(&about, slices(one), slices(other)));
        }
        let common = one.entry.length().min(other.entry.length());
        if !is_own(name) {
            lines.extend(self.of_blocks(name, common)?);
        }
        Ok(lines)
    }

    /// How many of the blocks that both have differ, and the first of them.
    fn of_blocks(&mut self, name: Name, common: u16) -> Outcome<Option<String>> {
        open_area(&mut self.one.session, name, Role::Sharing)?;
        open_area(&mut self.other.session, name, Role::Sharing)?;
        let differing = self.differing(name, common)?;
        close_area(&mut self.one.session, name)?;
        close_area(&mut self.other.session, name)?;
        Ok(differing.first().map(|first| {
            let number = differing.len();
            format!("{name}: blocks: {number} of {common} differ, the first is block {first}\n")
        }))
    }

    /// Those of the first blocks of a file that differ.
    fn differing(&mut self, name: Name, common: u16) -> Outcome<Vec<u16>> {
        let mut progress = Progress::new(name.to_string(), Some(common.into()));
        let mut differing = Vec::new();
        for block in 0..common {
            if self.one.next_block(name)? != self.other.next_block(name)? {
                differing.push(block);
            }
            progress.advance();
        }
        Ok(differing)
    }
}

/// What of an entry is compared.
fn of_entry(entry: &Entry) -> [(&'static str, String); 4] {
    let attributes = entry.attributes();
    let named = format!("{:04X}h ({attributes})", attributes.bits());
    [
        ("attributes", named),
        ("length", entry.length().to_string()),
        ("optional words", hex(&entry.optional())),
        ("tail", hex(&entry.tail())),
    ]
}

/// A file's stretches in slices, all of them.
fn listed(file: &Holder) -> String {
    match file.stretches.is_empty() {
        true => "none".into(),
        false => joined(&file.stretches, " "),
    }
}
