//! An image file: the words of a unit, which is the whole file or a part of a pack.

use std::io::{self, Read, Seek, SeekFrom};
use std::path::{Path, PathBuf};

use reference::layout::{Kit, KIT};

use super::lock::Old;
use super::{called, irregular, regular, streams, Form, Replacement, MOST_SECTORS, SECTOR_BYTES};
use crate::console::warn;
use crate::failure::{Failure, Outcome};
use crate::hint;
use crate::values::count;

const SECTOR: u64 = SECTOR_BYTES as u64;

/// An image file and its words.
pub struct ImageFile {
    /// The path as the user gave it.
    pub shown: PathBuf,
    path: PathBuf,
    /// How the unit lies in the file.
    pub form: Form,
    /// The file, held while the image may be replaced.
    old: Option<Old>,
    /// The unit's words.
    pub words: Vec<u16>,
}

impl ImageFile {
    /// Reads an image that is not going to be changed, from any file that can be read to its
    /// end; `-` is standard input.
    pub fn read(shown: &Path, form: Form) -> Outcome<ImageFile> {
        let (words, _) = words_of(shown, form, false)?;
        Ok(ImageFile::unchanged(shown, form, words))
    }

    fn unchanged(shown: &Path, form: Form, words: Vec<u16>) -> ImageFile {
        ImageFile {
            shown: shown.into(),
            path: shown.into(),
            form,
            old: None,
            words,
        }
    }

    /// Reads the words of an image that need not be whole sectors, to read what can be read of
    /// them. A last byte that is half a word is dropped, and a warning tells it.
    pub fn read_to_rescue(shown: &Path, form: Form) -> Outcome<Vec<u16>> {
        let (words, odd) = words_of(shown, form, true)?;
        if odd {
            warn_of_half(shown);
        }
        Ok(words)
    }

    /// As `read_to_rescue`, to judge the words. A file of whole sectors and half a word is refused:
    /// the words alone could be a sound unit, and the file is none.
    pub fn read_to_judge(shown: &Path, form: Form) -> Outcome<ImageFile> {
        let (words, odd) = words_of(shown, form, true)?;
        if odd && words.len().is_multiple_of(SECTOR_BYTES / 2) {
            let (wrong, remedy) = ragged(2 * words.len() + 1);
            return Err(wrong_length(shown, &wrong, &words, form, remedy));
        }
        if odd {
            warn_of_half(shown);
        }
        Ok(ImageFile::unchanged(shown, form, words))
    }

    /// Reads an image that may be changed, and holds off other changes of it until dropped. A
    /// unit in a pack has so many sectors as its kit says, or as are given here.
    pub fn read_to_change(shown: &Path, form: Form, sectors: Option<u16>) -> Outcome<ImageFile> {
        if shown == Path::new("-") {
            return Err(Failure::host(shown, "standard input cannot be changed"));
        }
        let path = regular(shown)?;
        let old = Old::locked(shown, &path, true)?;
        let bytes = Some(old.metadata.len());
        let source = Source::at(shown, &old.file, bytes, form)?;
        let (words, _) = source.words(form, sectors, false)?;
        Ok(ImageFile {
            shown: shown.into(),
            path,
            form,
            old: Some(old),
            words,
        })
    }

    /// A file with another image in the place of this one, to be committed; what lies in a pack
    /// before and behind the unit is copied.
    pub fn replaced(&self, words: &[u16]) -> Outcome<Replacement> {
        let old = self.old.as_ref().map(Old::again).transpose();
        let old = old.map_err(|error| Failure::host(&self.shown, error))?;
        let mut new = Replacement::begin(&self.shown, &self.path, old)?;
        let bytes = self.form.bytes(words);
        match self.form.offset {
            None => new.write(&bytes)?,
            Some(offset) => {
                let begin = offset * SECTOR;
                new.copy(0, Some(begin))?;
                new.write(&bytes)?;
                new.copy(begin + bytes.len() as u64, None)?;
            }
        }
        Ok(new)
    }
}

/// The words of an image that is not going to be changed, loosely or not, and whether half a word
/// is left.
fn words_of(shown: &Path, form: Form, loose: bool) -> Outcome<(Vec<u16>, bool)> {
    if shown == Path::new("-") {
        let source = Source::new(shown, streams::input()?.lock(), None);
        return source.words(form, None, loose);
    }
    let file = streams::open(shown)?;
    let metadata = file.metadata();
    let metadata = metadata.map_err(|error| Failure::host(shown, error))?;
    if metadata.is_dir() {
        return Err(irregular(shown));
    }
    let bytes = metadata.is_file().then_some(metadata.len());
    Source::at(shown, file, bytes, form)?.words(form, None, loose)
}

/// A file from which an image is read.
struct Source<'a, R> {
    shown: &'a Path,
    reader: R,
    /// The file's length, where it is known before its end.
    bytes: Option<u64>,
    /// How many bytes of it lie before the reader.
    passed: u64,
}

impl<'a, R: Read + Seek> Source<'a, R> {
    /// A file, and of a regular one only what comes from the unit on.
    fn at(shown: &'a Path, reader: R, bytes: Option<u64>, form: Form) -> Outcome<Source<'a, R>> {
        let mut source = Source::new(shown, reader, bytes);
        if let (Some(bytes), Some(offset)) = (bytes, form.offset) {
            // Not every file system can seek far past the end.
            let begin = (offset * SECTOR).min(bytes);
            let sought = source.reader.seek(SeekFrom::Start(begin));
            sought.map_err(|error| Failure::host(shown, error))?;
            source.passed = begin;
        }
        Ok(source)
    }
}

impl<'a, R: Read> Source<'a, R> {
    fn new(shown: &'a Path, reader: R, bytes: Option<u64>) -> Source<'a, R> {
        Source {
            shown,
            reader,
            bytes,
            passed: 0,
        }
    }

    /// The words of the unit that begins as the form says, loosely or not, and whether half a word
    /// is left.
    fn words(mut self, form: Form, sectors: Option<u16>, loose: bool) -> Outcome<(Vec<u16>, bool)> {
        let mut bytes = match form.offset {
            None => self.whole(form, loose)?,
            Some(offset) => self.part(offset, form, sectors)?,
        };
        let odd = !bytes.len().is_multiple_of(2);
        bytes.truncate(bytes.len() - usize::from(odd));
        Ok((form.words(&bytes), odd))
    }

    /// So many bytes, or fewer at the end.
    fn next(&mut self, bytes: u64) -> Outcome<Vec<u8>> {
        let mut read = Vec::new();
        let done = self.reader.by_ref().take(bytes).read_to_end(&mut read);
        done.map_err(|error| Failure::host(self.shown, error))?;
        Ok(read)
    }

    /// The bytes of a file that is a unit: whole sectors, and no more than a unit can have; loosely a
    /// word at least.
    fn whole(&mut self, form: Form, loose: bool) -> Outcome<Vec<u8>> {
        let bytes = self.next(SECTOR * (MOST_SECTORS as u64 + 1))?;
        let length = bytes.len();
        if length == 0 {
            return Err(no_image(self.shown, "the file is empty"));
        }
        let (wrong, remedy) = if length / SECTOR_BYTES > MOST_SECTORS {
            (self.too_long(), BY_OFFSET)
        } else if loose && length > 1 || length.is_multiple_of(SECTOR_BYTES) {
            return Ok(bytes);
        } else {
            ragged(length)
        };
        let words = form.words(&bytes[..length - length % 2]);
        Err(wrong_length(self.shown, &wrong, &words, form, remedy))
    }

    /// What is wrong with a file that has more sectors than a unit can have.
    fn too_long(&self) -> String {
        let sectors = match self.bytes {
            Some(bytes) => (bytes / SECTOR).to_string(),
            None => format!("at least {}", MOST_SECTORS + 1),
        };
        format!("it has {sectors} sectors, and a unit has at most {MOST_SECTORS}")
    }

    /// The bytes of a unit in a pack: as many sectors as are wanted, or as its kit says, or, if
    /// that is not within limits, as the unit can have.
    fn part(&mut self, offset: u64, form: Form, sectors: Option<u16>) -> Outcome<Vec<u8>> {
        self.pass(offset)?;
        let mut bytes = match sectors {
            Some(sectors) => self.next(SECTOR * u64::from(sectors))?,
            None => self.next(SECTOR * (KIT as u64 + 1))?,
        };
        if let Some(sectors) = sectors {
            self.room(offset, sectors, bytes.len() as u64)?;
        } else if bytes.len() == SECTOR_BYTES * (KIT + 1) {
            let kit = Kit::from_words(&form.words(&bytes[SECTOR_BYTES * KIT..][..12]));
            let all = kit.limits().map_or(MOST_SECTORS, |()| kit.n);
            bytes.extend(self.next(SECTOR * (all - KIT - 1) as u64)?);
        }
        bytes.truncate(bytes.len() / SECTOR_BYTES * SECTOR_BYTES);
        if bytes.is_empty() {
            return Err(no_image(self.shown, &format!("it has no sector {offset}")));
        }
        Ok(bytes)
    }

    /// Reads up to the sector at which a unit begins, where the file is not there yet.
    fn pass(&mut self, offset: u64) -> Outcome {
        let before = offset * SECTOR - self.passed;
        let passed = io::copy(&mut self.reader.by_ref().take(before), &mut io::sink());
        passed.map_err(|error| Failure::host(self.shown, error))?;
        Ok(())
    }

    /// A unit that is to be formatted has to fit in the pack.
    fn room(&self, offset: u64, sectors: u16, bytes: u64) -> Outcome {
        if bytes == SECTOR * u64::from(sectors) {
            return Ok(());
        }
        let all = self.bytes.unwrap_or(0) / SECTOR;
        let what = format!(
            "no room for {sectors} sectors from sector {offset} on: the file has {all} sectors"
        );
        Err(Failure::host(self.shown, what))
    }
}

/// How a file of the wrong length is read all the same.
const BY_CHECK: &str = " (ruzkemp check judges it, --unsound reads it)";
const BY_UNSOUND: &str = " (--unsound reads it)";
const BY_OFFSET: &str = " (--offset SECTORS reads one unit of a pack)";

/// What is wrong with a file of so many bytes, no whole number of sectors, and how it is read all the
/// same.
fn ragged(bytes: usize) -> (String, &'static str) {
    if bytes > 1 && bytes % SECTOR_BYTES == 1 {
        let sectors = count((bytes / SECTOR_BYTES) as u64, "sector");
        return (format!("it has {sectors} and one byte more"), BY_UNSOUND);
    }
    let remedy = if bytes > 1 { BY_CHECK } else { "" };
    let bytes = count(bytes as u64, "byte");
    let wrong = format!("it has {bytes}, no whole number of sectors of {SECTOR}");
    (wrong, remedy)
}

/// The failure that a file of the wrong length is: what is wrong, the length that its kit says, what
/// else is to be known, and how it is read all the same.
fn wrong_length(shown: &Path, wrong: &str, words: &[u16], form: Form, remedy: &str) -> Failure {
    let (length, hints) = (hint::length(words), hint::of(words, form));
    no_image(shown, &format!("{wrong}{length}{hints}{remedy}"))
}

fn no_image(shown: &Path, wrong: &str) -> Failure {
    let path = called(shown);
    Failure::NotUnit(format!("{path}: not a unit image: {wrong}"))
}

fn warn_of_half(shown: &Path) {
    let path = called(shown);
    warn(&format!(
        "{path}: the last byte is half a word and is not read"
    ));
}
