//! `get` with `--unsound`: what can be read of a file, or of all files, to the host.

use std::collections::HashMap;
use std::io::Write;
use std::path::{Path, PathBuf};

use reference::layout::SECTOR;
use reference::rescue::{File, Rescue};
use reference::text::name_text;
use reference::Name;

use super::{heading, named, not_with, numbers, MOST_DOUBTS};
use crate::arguments::Given;
use crate::commands::many::{fill, may_be_written, written};
use crate::console::{print, print_bytes, report};
use crate::failure::{Failure, Outcome};
use crate::host::{bytes_of, called, ImageFile, Replacement, SECTOR_BYTES};
use crate::values::{self, count};

/// All files together are written if they have at most so many times the image's sectors.
const MOST_TIMES: usize = 16;
/// And if they are at most so many. A unit has no more slices, and so no more files with blocks; of
/// those without, 16 have room in each of its sectors.
const MOST_FILES: usize = 4_096;

/// A file that is not read yet. Of a disc full of entries, what is read and judged of all files
/// together can be far more than the disc.
#[derive(Clone, Copy)]
enum Sought {
    /// By the number of its entry, which has this name.
    Entered(usize, Name),
    /// By the sector of its index block, without an entry.
    Lost(usize),
}

impl Sought {
    /// All files but SYS and MAP, those without an entry too.
    fn all(rescue: &Rescue) -> Vec<Sought> {
        let entered = rescue.ordinary();
        let entered = entered.map(|(number, name)| Sought::Entered(number, name));
        let lost = rescue.lost().iter().map(|&sector| Sought::Lost(sector));
        entered.chain(lost).collect()
    }

    /// The name as it is shown, or `@` and the sector of the index block.
    fn label(&self) -> String {
        match self {
            Sought::Entered(_, name) => name_text(*name),
            Sought::Lost(sector) => format!("@{sector}"),
        }
    }

    /// How many blocks are written.
    fn blocks(&self, rescue: &Rescue) -> usize {
        let file = match *self {
            Sought::Entered(number, _) => rescue.unjudged(number),
            Sought::Lost(sector) => rescue.of_index(sector),
        };
        file.map_or(0, |file| blocks_written(rescue, &file))
    }

    fn found(&self, rescue: &Rescue) -> Option<Found> {
        let file = match *self {
            Sought::Entered(number, _) => rescue.file(number),
            Sought::Lost(sector) => rescue.of_index(sector),
        };
        let label = self.label();
        file.map(|file| Found { label, file })
    }
}

/// A file with what it is called.
struct Found {
    label: String,
    file: File,
}

impl Found {
    /// Whether it has blocks, and none of them can be read.
    fn is_unreadable(&self) -> bool {
        self.file.length() > 0 && self.file.blocks().flatten().next().is_none()
    }
}

/// `get --unsound`.
pub fn get(given: &Given) -> Outcome {
    not_with(given, &["--text", "--danish", "--into"])?;
    let image = ImageFile::read_to_rescue(given.path(0), given.form()?)?;
    let rescue = Rescue::read(&image, &numbers(given)?);
    let folder = given.raw("--all").map(Path::new);
    match (folder, given.operands_from(0).len()) {
        (Some(folder), 1) => all(given, &rescue, folder),
        (None, 3) => one(given, &rescue),
        (Some(_), _) => Err(given.misused("with --all it takes the operand IMAGE".into())),
        (None, _) => Err(given.misused("it takes the operands IMAGE NAME HOSTFILE".into())),
    }
}

/// One file: written whatever is doubtful, which the status tells, unless no block can be read.
fn one(given: &Given, rescue: &Rescue) -> Outcome {
    let found = wanted(given, rescue)?;
    let bytes = first_bytes(given, &found, contents(rescue, &found.file))?;
    let path = given.path(2);
    let unreadable = found.is_unreadable();
    match path == Path::new("-") {
        _ if unreadable => {}
        true => print_bytes(&bytes)?,
        false => {
            given.not_the_image(path)?;
            let file = Replacement::of(path, given.flag("--force"))?;
            let done = written(&found.label, file, &bytes, path)?;
            report(&format!("{done}, read without guarantee\n"));
        }
    }
    let Found { label, file } = found;
    for doubt in &file.doubts {
        // If this cannot be written, the status still tells.
        let _ = writeln!(std::io::stderr(), "ruzkemp: {label}: {doubt}");
    }
    match file.doubts.len() {
        _ if unreadable => Err(Failure::NotUnit(format!(
            "{label}: no block can be read: nothing is written"
        ))),
        0 => Ok(()),
        doubts => Err(Failure::NotUnit(format!(
            "{label}: {}: what could be read is written",
            count(doubts as u64, "doubt")
        ))),
    }
}

/// The file that the operand means: by its name, its place or its index block.
fn wanted(given: &Given, rescue: &Rescue) -> Outcome<Found> {
    let text = given.text(1);
    let Some(sector) = text.strip_prefix('@') else {
        let file = named(given, rescue, &text)?.remove(0);
        let label = file.shown();
        return Ok(Found { label, file });
    };
    let sector = values::number(sector).map_err(|wrong| given.misused(wrong))?;
    let found = Sought::Lost(sector.into()).found(rescue);
    found.ok_or_else(|| {
        let path = called(given.path(0));
        Failure::NotFound(format!(
            "{path}: no index block can be followed in sector {sector}"
        ))
    })
}

/// So many bytes as `--bytes` asks for, or all.
fn first_bytes(given: &Given, found: &Found, mut bytes: Vec<u8>) -> Outcome<Vec<u8>> {
    let there = bytes.len() as u64;
    let wanted = given.value("--bytes", values::bytes)?.unwrap_or(there);
    if wanted > there {
        let label = &found.label;
        return Err(given.misused(format!("--bytes {wanted}: {label} has only {there}")));
    }
    bytes.truncate(wanted as usize);
    Ok(bytes)
}

/// The bytes of a file's blocks. A block that cannot be read is a sector of zeros; where the length
/// is more than the image has, the file ends with the last block that can be read.
fn contents(rescue: &Rescue, file: &File) -> Vec<u8> {
    let blocks = file.blocks().take(blocks_written(rescue, file));
    let sector = |at: Option<usize>| match at {
        Some(at) => bytes_of(&rescue.image()[at * SECTOR..(at + 1) * SECTOR]),
        None => vec![0; SECTOR_BYTES],
    };
    blocks.flat_map(sector).collect()
}

/// How many blocks of a file are written.
fn blocks_written(rescue: &Rescue, file: &File) -> usize {
    let (length, missing) = (file.length(), file.missing());
    match missing.last() {
        Some((first, last)) if length >= rescue.sectors() && last + 1 == length => *first,
        _ => length,
    }
}

/// All files, each under its name in a folder. They are judged one by one as they are written.
fn all(given: &Given, rescue: &Rescue, folder: &Path) -> Outcome {
    not_with(given, &["--bytes"])?;
    let files = Sought::all(rescue);
    bounded(given, rescue, &files)?;
    let paths = paths(folder, &files);
    paths
        .iter()
        .try_for_each(|path| may_be_written(given, path))?;
    let own = own_doubts(rescue);
    print(&(heading(given, rescue, MOST_DOUBTS) + &own))?;
    let mut doubtful = 0;
    let both = files.iter().zip(&paths);
    let found = both.filter_map(|(file, path)| Some((file.found(rescue)?, path)));
    fill(folder, files.len(), found, |(found, path)| {
        let doubts = &found.file.doubts;
        doubtful += usize::from(!doubts.is_empty());
        let (mut line, is_written) = saved(given, rescue, &found, path)?;
        if !doubts.is_empty() {
            line += &format!("; doubtful: {}", doubts.join("; "));
        }
        Ok((line, is_written))
    })?;
    let unit = !rescue.doubts().is_empty() || !own.is_empty();
    ended(files.len(), doubtful, unit)
}

/// What is doubtful about the entries of SYS and MAP, which are not written: so many lines at most.
fn own_doubts(rescue: &Rescue) -> String {
    let own = rescue.own().filter_map(|number| rescue.file(number));
    let lines = own.flat_map(|file| {
        let place = format!("{} ({}:{})", file.shown(), file.sector, file.place);
        let doubts = file.doubts.into_iter();
        doubts.map(move |doubt| format!("  doubtful: {place}: {doubt}\n"))
    });
    // One more than are said tells that there is more.
    let mut lines: Vec<String> = lines.take(MOST_DOUBTS + 1).collect();
    if let Some(last) = lines.get_mut(MOST_DOUBTS) {
        *last = "  and more (ls --unsound lists them)\n".into();
    }
    lines.concat()
}

/// How it ends, by what is doubtful about the files and about the unit: with the unit's doubts
/// files may be lost that are not among these.
fn ended(files: usize, doubtful: usize, unit: bool) -> Outcome {
    let all = count(files as u64, "file");
    let what = match (doubtful, !unit) {
        (0, true) => return Ok(()),
        (0, false) => format!("the unit is doubtful, though none of {all} is"),
        (doubtful, _) => format!("{doubtful} of {all} are doubtful"),
    };
    Err(Failure::NotUnit(format!(
        "{what}: what could be read is written"
    )))
}

/// Refuses to write far more than the image has: each of its sectors belongs to one file.
fn bounded(given: &Given, rescue: &Rescue, files: &[Sought]) -> Outcome {
    let (number, sectors) = (files.len(), rescue.sectors());
    let refused = |what: String| {
        let path = called(given.path(0));
        Failure::NotUnit(format!("{path}: {what}: get them one by one"))
    };
    if number > MOST_FILES {
        let most = MOST_FILES;
        return Err(refused(format!(
            "there are {number} files, more than {most}"
        )));
    }
    let blocks: usize = files.iter().map(|file| file.blocks(rescue)).sum();
    match blocks > MOST_TIMES * sectors {
        true => Err(refused(format!(
            "the files have {blocks} blocks in all, and the image {sectors} sectors"
        ))),
        false => Ok(()),
    }
}

/// Writes a file unless none of its blocks can be read; the line about it, and whether it is
/// written.
fn saved(given: &Given, rescue: &Rescue, found: &Found, path: &Path) -> Outcome<(String, bool)> {
    let Found { label, file } = found;
    if found.is_unreadable() {
        let line = format!("{label}: not written, no block can be read");
        return Ok((line, false));
    }
    let bytes = contents(rescue, file);
    let file = Replacement::in_folder(path, given.flag("--force"))?;
    Ok((written(label, file, &bytes, path)?, true))
}

/// A path for each file: what it is called, which is letters, digits, `%` and `@` only; the second
/// of a name has `.2` behind it, and so on.
fn paths(folder: &Path, files: &[Sought]) -> Vec<PathBuf> {
    let mut seen: HashMap<String, usize> = HashMap::new();
    let mut paths = Vec::new();
    for label in files.iter().map(Sought::label) {
        let number = seen.entry(label.clone()).or_insert(0);
        *number += 1;
        paths.push(match number {
            1 => folder.join(label),
            _ => folder.join(format!("{label}.{number}")),
        });
    }
    paths
}
