//! Locks: those who replace a file do so one after the other.

use std::fs::{self, File, Metadata, OpenOptions, TryLockError};
use std::io::{self, ErrorKind, IsTerminal, Write};
use std::os::unix::fs::MetadataExt;
use std::path::Path;

use super::shown;
use crate::failure::{Failure, Outcome};

/// A file that may be replaced. It is locked for as long as this lives, so that two changes of
/// it come one after the other.
pub struct Old {
    /// The file, open.
    pub file: File,
    /// What it was when it was locked.
    pub metadata: Metadata,
}

impl Old {
    /// Locks the regular file under a path. It is opened to be read, too, where its bytes are
    /// wanted.
    pub fn locked(shown: &Path, path: &Path, to_read: bool) -> Outcome<Old> {
        let trouble = |error: io::Error| Failure::host(shown, error);
        let there = fs::metadata(path).map_err(trouble)?;
        if there.permissions().readonly() {
            return Err(Failure::host(shown, "the file is read-only"));
        }
        let (file, metadata) = locked(path, to_read).map_err(trouble)?;
        Ok(Old { file, metadata })
    }

    /// The same file, with the same lock.
    pub fn again(&self) -> io::Result<Old> {
        Ok(Old {
            file: self.file.try_clone()?,
            metadata: self.metadata.clone(),
        })
    }
}

/// The file under a path, locked. While one process waits for the lock, another may have put
/// a new file there: then the new one is to be locked.
fn locked(path: &Path, to_read: bool) -> io::Result<(File, Metadata)> {
    loop {
        let file = OpenOptions::new().read(to_read).write(true).open(path)?;
        lock(&file, path)?;
        let (held, there) = (file.metadata()?, fs::metadata(path)?);
        if (held.dev(), held.ino()) == (there.dev(), there.ino()) {
            return Ok((file, held));
        }
    }
}

/// Locks a file, and tells whoever sits at the terminal if that means waiting.
fn lock(file: &File, path: &Path) -> io::Result<()> {
    match file.try_lock() {
        Err(TryLockError::WouldBlock) => {
            if io::stderr().is_terminal() {
                let path = shown(path);
                // One who cannot be told waits all the same.
                let _ = writeln!(io::stderr(), "ruzkemp: {path}: waiting for another command");
            }
            file.lock()
        }
        // Not every file system has locks.
        Err(TryLockError::Error(error)) if error.kind() != ErrorKind::Unsupported => Err(error),
        _ => Ok(()),
    }
}
