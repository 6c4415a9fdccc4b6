//! Lists of calls that stand in files, each call with the outcome that it shall have.
//!
//! A list is a text; empty lines and lines that begin with `#` say nothing. Numbers are decimal,
//! or base 16 with an `h` behind. A line either makes or edits the unit, or is a call with ` -> `
//! and its outcome behind it. `lists/stored` holds the lists; `lists --store` writes the outcomes
//! anew, from the second implementation, but for the result words: those are written by hand.
//!
//! Lines that make or edit the unit:
//!
//! * `blank UNIT SECTORS`: every word 5555h, nothing open, not initialized;
//! * `disc UNIT H S SLICES F`: the same, formatted and initialized;
//! * `file NAME ATTRIBUTES LENGTH SLICES`: a file with these slices, such as `2,5-7,10-20/2`
//!   (every second one from 10 to 20), or `-` for none;
//! * `words NUMBER`: the image is cut to so many words, or gets zeros;
//! * `word SECTOR WORD VALUE`: a word of the image;
//! * `put PLACE VALUE`: a word of the state, such as `put area 0 user 1 opens 65535`.
//!
//! A name is `PASS/2` on unit 2, `PASS` on unit 0, or its three words, `5041h,5353h,2`. Calls are
//! `format BYTES record WORDS`, `init UNIT`, `set NAME`, `create NAME SIZE ATTRIBUTES`,
//! `look-up NAME`, `change NAME`, `remove NAME`, `create-area NAME`, `remove-area NAME`,
//! `reserve NAME SENDER COUNT`, `position NAME SENDER BLOCK`, `sense NAME SENDER`,
//! `transput NAME SENDER OPERATION BYTES BLOCK`, `other NAME SENDER NUMBER`,
//! `description UNIT BYTES` and `listing UNIT`, and `raw WORDS` for the twelve words of a C
//! program's message, each with `lent WORDS` behind it if words are lent; `6*0` is 0 six times.
//!
//! An outcome is the result word, then what is not 0 of `bytes`, `block` and `entries`, then
//! `lent` with the words up to the last that changed, or with a digest of all where those are of
//! many kinds, then digests of image and state if they changed.

use std::path::{Path, PathBuf};
use std::{fs, io};

use crate::text::{edit, outcome_text, parse_step};
use crate::{Second, Side};

/// A stored list.
pub struct Stored {
    /// Its file.
    pub path: PathBuf,
    /// Its text.
    pub text: String,
}

/// All stored lists, by name.
pub fn all() -> io::Result<Vec<Stored>> {
    let mut lists = Vec::new();
    for path in files_in("stored", "list")? {
        let text = fs::read_to_string(&path)?;
        lists.push(Stored { path, text });
    }
    Ok(lists)
}

/// The files of a folder of this package that have the extension, by name.
pub(crate) fn files_in(folder: &str, extension: &str) -> io::Result<Vec<PathBuf>> {
    let folder = Path::new(env!("CARGO_MANIFEST_DIR")).join(folder);
    let files = fs::read_dir(folder)?.map(|file| file.map(|file| file.path()));
    let mut paths = files.collect::<io::Result<Vec<PathBuf>>>()?;
    paths.retain(|path| path.extension().is_some_and(|found| found == extension));
    paths.sort();
    Ok(paths)
}

/// Runs a list on a side; its text as it would stand with the outcomes of that side.
pub fn replay(text: &str, side: &mut impl Side) -> Result<String, String> {
    let mut replayed = String::new();
    for (number, line) in text.lines().enumerate() {
        let done = replay_line(line, side);
        replayed += &done.map_err(|why| format!("line {}, {line}: {why}", number + 1))?;
        replayed += "\n";
    }
    Ok(replayed)
}

fn replay_line(line: &str, side: &mut impl Side) -> Result<String, String> {
    if line.is_empty() || line.starts_with('#') {
        return Ok(line.into());
    }
    let Some((call, _)) = line.split_once(OUTCOME) else {
        let mut unit = side.unit();
        edit(line, &mut unit)?;
        side.set(&unit);
        return Ok(line.into());
    };
    let step = parse_step(call)?;
    let before = side.unit();
    let (answer, lent) = side.put(&step);
    let outcome = outcome_text(&step, &before, answer, &lent, &side.unit());
    Ok(format!("{call}{OUTCOME}{outcome}"))
}

const OUTCOME: &str = " -> ";

/// The first line of a list that a side does otherwise: its number, as stored and as replayed.
pub fn first_difference(text: &str, side: &mut impl Side) -> Result<(), String> {
    let replayed = replay(text, side)?;
    let lines = text.lines().zip(replayed.lines()).enumerate();
    let mut differing = lines.filter(|(_, (stored, replayed))| stored != replayed);
    match differing.next() {
        None => Ok(()),
        Some((number, (stored, replayed))) => Err(format!(
            "line {}:\n  stored   {stored}\n  replayed {replayed}",
            number + 1
        )),
    }
}

/// Writes the outcomes of the second implementation into all stored lists.
pub fn store() -> Result<(), String> {
    for list in all().map_err(|why| why.to_string())? {
        let told = |why: String| format!("{}: {why}", list.path.display());
        let text = filled(&list.text).map_err(told)?;
        fs::write(&list.path, text).map_err(|why| told(why.to_string()))?;
    }
    Ok(())
}

/// A list with the outcomes of the second implementation. A result word that stands there
/// otherwise is an error.
pub fn filled(text: &str) -> Result<String, String> {
    let replayed = replay(text, &mut Second::default())?;
    let mut lines = text.lines().zip(replayed.lines());
    match lines.find(|(stored, replayed)| result_word(stored) != result_word(replayed)) {
        None => Ok(replayed),
        Some((stored, replayed)) => Err(format!("{stored}: the outcome is\n  {replayed}")),
    }
}

/// The result word on a call's line.
fn result_word(line: &str) -> Option<&str> {
    let (_, outcome) = line.split_once(OUTCOME)?;
    outcome.split_whitespace().next()
}
