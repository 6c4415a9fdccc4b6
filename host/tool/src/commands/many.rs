//! Which files a `put` or `get` is about, and the folder in which the host's stand.

use std::collections::BTreeMap;
use std::fmt::Display;
use std::fs;
use std::io;
use std::path::{Path, PathBuf};

use ruzkemp::Name;

use crate::arguments::{valued, Choice, Given};
use crate::console::report;
use crate::failure::{Failure, Outcome};
use crate::host::{irregular, not_a_link, shown, Replacement};
use crate::values::count;

/// The option for all files of unit or folder.
pub const ALL: Choice = valued("--all", "DIR", "all files, to or from the folder DIR");
/// The option of `get` for some files.
pub const INTO: Choice = valued("--into", "DIR", "the files NAME... into the folder DIR");
/// The option of `put` for some files.
pub const FROM: Choice = valued("--from", "DIR", "the files NAME... of the folder DIR");

/// How many of the things that cannot be put are named.
const MOST_NAMED: usize = 20;

/// Which files a command is about.
pub enum Which {
    /// One, and its host file.
    One(Name, PathBuf),
    /// Some, and the folder in which each has a host file of its name.
    Named(Vec<Name>, PathBuf),
    /// All, and the folder.
    All(PathBuf),
}

impl Which {
    /// As operands and options say; `folder` is the option for some files.
    pub fn of(given: &Given, folder: &Choice) -> Outcome<Which> {
        let operands = given.operands_from(1);
        match (given.raw(ALL.name), given.raw(folder.name)) {
            (Some(all), None) if operands.is_empty() => Ok(Which::All(all.into())),
            (None, Some(folder)) if !operands.is_empty() => {
                Ok(Which::Named(names(given)?, folder.into()))
            }
            (None, None) if operands.len() == 2 => {
                Ok(Which::One(given.name(1)?, given.path(2).into()))
            }
            _ => Err(given.misused(format!(
                "it takes NAME HOSTFILE, or NAME... {} DIR, or --all DIR",
                folder.name
            ))),
        }
    }
}

/// The names that are given, each once.
fn names(given: &Given) -> Outcome<Vec<Name>> {
    let mut names = Vec::new();
    for place in given.operands_from(1) {
        let name = given.name(place)?;
        if names.contains(&name) {
            return Err(given.misused(format!("{name} is given twice")));
        }
        names.push(name);
    }
    Ok(names)
}

/// Whether a file is the unit's own: SYS or MAP.
pub fn is_own(name: Name) -> bool {
    [Name::SYS, Name::MAP].contains(&name)
}

/// The host file of a name in a folder.
pub fn beside(folder: &Path, name: Name) -> PathBuf {
    folder.join(name.to_string())
}

/// The host files that are to be put, each with its file's name.
pub fn host_files(given: &Given, which: Which) -> Outcome<Vec<(Name, PathBuf)>> {
    let (names, folder) = match which {
        Which::One(name, path) => return Ok(vec![(name, path)]),
        Which::Named(names, folder) => (names, folder),
        Which::All(folder) => (all_names(given, &folder)?, folder),
    };
    let found = names.into_iter().map(|name| {
        let path = beside(&folder, name);
        let metadata = fs::metadata(&path).map_err(|error| Failure::host(&path, error))?;
        match metadata.is_file() {
            true => Ok((name, path)),
            false => Err(irregular(&path)),
        }
    });
    found.collect()
}

/// The names of a folder's files, in the listing's order. What is no regular file or has no
/// file's name is not passed over in silence: all is refused.
fn all_names(given: &Given, folder: &Path) -> Outcome<Vec<Name>> {
    let found = content(folder).map_err(|error| Failure::host(folder, error))?;
    let mut names = Vec::new();
    let mut others = Vec::new();
    for (text, regular) in found {
        match (Name::new(&text), regular) {
            (Ok(name), true) => names.push(name),
            (Ok(_), false) => others.push(format!("{text} (no regular file)")),
            (Err(why), _) => others.push(format!("{} ({why})", text.escape_debug())),
        }
    }
    if others.is_empty() {
        names.sort();
        return Ok(names);
    }
    let more = others.len().saturating_sub(MOST_NAMED);
    others.truncate(MOST_NAMED);
    if more > 0 {
        others.push(format!("and {more} more"));
    }
    Err(given.misused(format!(
        "{} has what cannot be put: {}",
        shown(folder),
        others.join(", ")
    )))
}

/// What stands in a folder, by name: whether each is a regular file, links followed.
fn content(folder: &Path) -> io::Result<BTreeMap<String, bool>> {
    let found = fs::read_dir(folder)?.map(|entry| {
        let entry = entry?;
        let regular = fs::metadata(entry.path()).is_ok_and(|metadata| metadata.is_file());
        Ok((entry.file_name().to_string_lossy().into_owned(), regular))
    });
    found.collect()
}

/// Whether a path in a folder may be written, as far as that is seen before: nothing is there, or
/// a file that is to be replaced by force. A link is not followed: it could lead out of the folder.
pub fn may_be_written(given: &Given, path: &Path) -> Outcome {
    let Ok(there) = fs::symlink_metadata(path) else {
        return Ok(());
    };
    given.not_the_image(path)?;
    not_a_link(path)?;
    match (there.is_file(), given.flag("--force")) {
        (false, _) => Err(irregular(path)),
        (true, false) => Err(Replacement::exists(path)),
        (true, true) => Ok(()),
    }
}

/// Writes files into a folder, each complete or not at all, and reports each. `write` writes one: it
/// answers the line about it, and whether there is a host file now.
pub fn fill<T>(
    folder: &Path,
    total: usize,
    files: impl Iterator<Item = T>,
    mut write: impl FnMut(T) -> Outcome<(String, bool)>,
) -> Outcome {
    let made = Folder::at(folder)?;
    let mut done = 0_u64;
    for file in files {
        let (line, is_written) = write(file).map_err(|failure| {
            let total = count(total as u64, "file");
            Failure::Host(format!("{failure}; {done} of {total} were written before"))
        })?;
        report(&format!("{line}\n"));
        done += u64::from(is_written);
    }
    made.keep();
    let done = count(done, "file");
    report(&format!("{done} written to {}\n", shown(folder)));
    Ok(())
}

/// Writes a host file that is begun; the line about it.
pub fn written(
    name: impl Display,
    file: Replacement,
    bytes: &[u8],
    path: &Path,
) -> Outcome<String> {
    file.commit(bytes)?;
    let bytes = count(bytes.len() as u64, "byte");
    Ok(format!("{name}: {bytes} written to {}", shown(path)))
}

/// A folder into which files are written: made if it is missing, and taken away again if none
/// was written.
struct Folder<'a> {
    path: &'a Path,
    made: bool,
}

impl Folder<'_> {
    /// The folder of a path.
    fn at(path: &Path) -> Outcome<Folder<'_>> {
        if fs::metadata(path).is_ok_and(|metadata| metadata.is_dir()) {
            return Ok(Folder { path, made: false });
        }
        let made = fs::create_dir(path);
        made.map_err(|error| Failure::host(path, format!("no folder can be made: {error}")))?;
        Ok(Folder { path, made: true })
    }

    /// Keeps the folder, whatever stands in it.
    fn keep(mut self) {
        self.made = false;
    }
}

impl Drop for Folder<'_> {
    fn drop(&mut self) {
        if self.made {
            // One that has files in it stays.
            let _ = fs::remove_dir(self.path);
        }
    }
}
