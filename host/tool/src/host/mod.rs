//! Host files: images read whole, and files replaced in one step or not at all.

mod extended;
mod form;
mod image;
mod lock;
mod replacement;
pub mod signals;
pub mod streams;

use std::ffi::OsStr;
use std::fs::{self, File, Metadata};
use std::io;
use std::os::fd::{AsFd, BorrowedFd};
use std::os::unix::fs::MetadataExt;
use std::path::{Path, PathBuf};

use crate::console::visible_line;
use crate::failure::{Failure, Outcome};

pub use form::Form;
pub use image::ImageFile;
pub use replacement::Replacement;

/// Bytes in a sector.
pub const SECTOR_BYTES: usize = 512;
/// The most sectors that a unit can have.
pub const MOST_SECTORS: usize = 32_767;

/// The words of a host file's bytes, high byte first.
pub fn words_of(bytes: &[u8]) -> Vec<u16> {
    Form::default().words(bytes)
}

/// The bytes of words for a host file, high byte first.
pub fn bytes_of(words: &[u16]) -> Vec<u8> {
    Form::default().bytes(words)
}

/// A path as it is told to users: with no character that a terminal would obey.
pub fn shown(path: &Path) -> String {
    visible_line(&path.to_string_lossy())
}

/// What is read, as it is told to users: `-` is standard input.
pub fn called(path: &Path) -> String {
    match path == Path::new("-") {
        true => "standard input".into(),
        false => shown(path),
    }
}

/// What is read, as a heading names it: without the folder.
pub fn title(path: &Path) -> &OsStr {
    match path.to_str() {
        Some("-" | "/dev/stdin") => OsStr::new("standard input"),
        _ => path.file_name().unwrap_or_default(),
    }
}

/// The file that a path leads to, links followed. Anything but a regular file is refused:
/// it could not be replaced in one step.
fn regular(path: &Path) -> Outcome<PathBuf> {
    let metadata = fs::metadata(path).map_err(|error| Failure::host(path, error))?;
    if !metadata.is_file() {
        return Err(irregular(path));
    }
    fs::canonicalize(path).map_err(|error| Failure::host(path, error))
}

/// Refuses a link, which could lead out of the folder in which it stands.
pub fn not_a_link(path: &Path) -> Outcome {
    match fs::symlink_metadata(path) {
        Ok(there) if there.is_symlink() => {
            Err(Failure::host(path, "this is a link, which is not followed"))
        }
        _ => Ok(()),
    }
}

/// The failure to use anything but a regular file.
pub fn irregular(path: &Path) -> Failure {
    Failure::host(path, "this is no regular file")
}

/// Whether an image and a file to be written are one file; `-` is standard input for the image, and
/// standard output for the other.
pub fn is_image(image: &Path, written: &Path) -> bool {
    let image = found(image, io::stdin().as_fd());
    let written = found(written, io::stdout().as_fd());
    match (image, written) {
        // A terminal is both input and output, and no image.
        (Ok(one), Ok(other)) => {
            one.is_file() && (one.dev(), one.ino()) == (other.dev(), other.ino())
        }
        _ => false,
    }
}

/// What a path leads to; `-` is a standard stream.
fn found(path: &Path, stream: BorrowedFd) -> io::Result<Metadata> {
    match path == Path::new("-") {
        true => File::from(stream.try_clone_to_owned()?).metadata(),
        false => fs::metadata(path),
    }
}
