//! A file that takes another's place in one step.

use std::fs::{self, File, OpenOptions, Permissions};
use std::io::{self, BufWriter, ErrorKind, Read, Seek, SeekFrom, Write};
use std::os::unix::fs::{fchown, MetadataExt, OpenOptionsExt, PermissionsExt};
use std::path::{Path, PathBuf};
use std::process;

use super::lock::Old;
use super::signals::{self, Temporary};
use super::{extended, irregular, not_a_link, regular, shown};
use crate::console::warn;
use crate::failure::{Failure, Outcome};

/// The bits of a mode that lend a program its owner's and its group's rights.
const SET_USER: u32 = 0o4000;
const SET_GROUP: u32 = 0o2000;

/// What is done with a link under the path.
#[derive(Clone, Copy, PartialEq, Eq)]
enum Link {
    /// The file to which it leads is replaced.
    Followed,
    /// It is refused.
    Refused,
}

impl Link {
    /// The file under a path that is to be replaced.
    fn target(self, path: &Path) -> Outcome<PathBuf> {
        if self == Link::Followed {
            return regular(path);
        }
        not_a_link(path)?;
        regular(path)?;
        // Should a link appear now, the new file takes its place and not that of another file.
        Ok(path.into())
    }
}

/// A file in the making beside the one whose place it takes. Dropped without
/// [`Replacement::commit`] it leaves nothing behind.
pub struct Replacement {
    /// The path as the user gave it.
    shown: PathBuf,
    target: PathBuf,
    /// Whether a file that is there may be replaced.
    force: bool,
    link: Link,
    /// The file to be replaced, locked; none if none was there.
    old: Option<Old>,
    /// The file's path for now; none once it has been renamed.
    temporary: Option<(PathBuf, Temporary)>,
    file: BufWriter<File>,
}

impl Replacement {
    /// Begins a file under a path; where there is one already, it has to be a regular file
    /// and to be replaced by force. That one is locked: whoever changes it comes before this or
    /// after it.
    pub fn of(shown: &Path, force: bool) -> Outcome<Replacement> {
        Replacement::by(shown, force, Link::Followed)
    }

    /// The same in a folder out of which no link may lead: one under the path is refused, also if it
    /// appears while the file is in the making.
    pub fn in_folder(shown: &Path, force: bool) -> Outcome<Replacement> {
        not_a_link(shown)?;
        Replacement::by(shown, force, Link::Refused)
    }

    fn by(shown: &Path, force: bool, link: Link) -> Outcome<Replacement> {
        let mut new = match (fs::symlink_metadata(shown).is_ok(), force) {
            (false, _) => Replacement::begin(shown, shown, None)?,
            (true, false) => return Err(Replacement::exists(shown)),
            (true, true) => {
                let target = link.target(shown)?;
                let old = Old::locked(shown, &target, false)?;
                Replacement::begin(shown, &target, Some(old))?
            }
        };
        (new.force, new.link) = (force, link);
        Ok(new)
    }

    /// The failure to write over what is there without force, and whether that would help.
    pub fn exists(shown: &Path) -> Failure {
        let what = match fs::metadata(shown) {
            Ok(there) if !there.is_file() => return irregular(shown),
            Ok(there) if there.permissions().readonly() => "the file exists already, read-only",
            Ok(_) => "the file exists already (--force replaces it)",
            Err(_) => "this is a link that leads to no file",
        };
        Failure::host(shown, what)
    }

    /// Begins a file in the place of one that is locked, or of none.
    pub(super) fn begin(shown: &Path, target: &Path, old: Option<Old>) -> Outcome<Replacement> {
        // Until it has the old file's mode, nobody else may read what takes its place.
        let mode = if old.is_some() { 0o600 } else { 0o666 };
        let begun = temporary_beside(target, mode);
        let (path, entered, file) = begun.map_err(|error| unwritten(shown, error))?;
        Ok(Replacement {
            shown: shown.into(),
            target: target.into(),
            force: old.is_some(),
            link: Link::Followed,
            old,
            temporary: Some((path, entered)),
            file: BufWriter::with_capacity(1 << 16, file),
        })
    }

    /// Writes on.
    pub fn write(&mut self, bytes: &[u8]) -> Outcome {
        let written = self.file.write_all(bytes);
        written.map_err(|error| unwritten(&self.shown, error))
    }

    /// Writes on with bytes of the old file: from one on, so many or up to its end.
    pub(super) fn copy(&mut self, from: u64, bytes: Option<u64>) -> Outcome {
        let Some(old) = &self.old else {
            return Ok(());
        };
        let mut source = &old.file;
        let copied = source.seek(SeekFrom::Start(from)).and_then(|_| {
            let mut part = source.take(bytes.unwrap_or(u64::MAX));
            io::copy(&mut part, &mut self.file)
        });
        let copied = copied.map_err(|error| unwritten(&self.shown, error))?;
        if bytes.is_some_and(|bytes| bytes != copied) {
            let what = "not written: its length changed while it was read";
            return Err(Failure::host(&self.shown, what));
        }
        Ok(())
    }

    /// Writes the file's bytes, makes it safe on the disc and puts it under its path.
    pub fn commit(mut self, bytes: &[u8]) -> Outcome {
        self.write(bytes)?;
        self.put(false)
    }

    /// Does so with what is written, an image: the last thing that a command changes.
    pub fn commit_image(self) -> Outcome {
        self.put(true)
    }

    /// Does all that can fail before a commit, and then not that: nothing is changed.
    pub fn rehearse(mut self) -> Outcome {
        let flushed = self.file.flush();
        flushed.map_err(|error| unwritten(&self.shown, error))
    }

    fn put(mut self, last: bool) -> Outcome {
        if self.link == Link::Refused {
            not_a_link(&self.shown)?;
        }
        let mut published = self.publish(last);
        let appeared = |error: &io::Error| error.kind() == ErrorKind::AlreadyExists;
        if self.force && self.old.is_none() && published.as_ref().is_err_and(appeared) {
            // Another command has made the file since this one began.
            self.target = self.link.target(&self.shown)?;
            self.old = Some(Old::locked(&self.shown, &self.target, false)?);
            published = self.publish(last);
        }
        let lost = published.map_err(|error| match appeared(&error) {
            true => Replacement::exists(&self.shown),
            false => unwritten(&self.shown, error),
        })?;
        // The file is in its place already, so that nothing of this is a failure.
        self.told(&lost);
        let folder = folder_of(&self.target);
        if let Err(error) = File::open(folder).and_then(|folder| folder.sync_all()) {
            let folder = shown(folder);
            warn(&format!(
                "{folder}: the folder could not be synced: {error}"
            ));
        }
        Ok(())
    }

    /// Writes the file to the disc and gives it its path; what of the old file it could not get.
    fn publish(&mut self, last: bool) -> io::Result<Vec<String>> {
        self.file.flush()?;
        let file = self.file.get_ref();
        let mut lost = Vec::new();
        if let Some(old) = &self.old {
            lost = keep(old, file)?;
        } else {
            // Whoever replaces the new file waits until its temporary name is gone. Not every file
            // system has locks.
            let _ = file.try_lock();
        }
        file.sync_all()?;
        match last {
            true => signals::finishing(|| self.take_place()),
            false => signals::held(|| self.take_place()),
        }?;
        Ok(lost)
    }

    fn take_place(&mut self) -> io::Result<()> {
        let Some((temporary, _)) = &self.temporary else {
            return Ok(());
        };
        if self.old.is_none() {
            // Unlike a rename, a link never takes another file's place; not every file system
            // has links.
            let linked = fs::hard_link(temporary, &self.target);
            if linked.is_ok() {
                return Ok(());
            }
            if fs::symlink_metadata(&self.target).is_ok() {
                return Err(ErrorKind::AlreadyExists.into());
            }
        }
        fs::rename(temporary, &self.target)?;
        self.temporary = None;
        Ok(())
    }

    /// Tells what of the old file is not the new one's.
    fn told(&self, lost: &[String]) {
        let path = shown(&self.shown);
        for lost in lost {
            warn(&format!("{path}: {lost}"));
        }
        if self
            .old
            .as_ref()
            .is_some_and(|old| old.metadata.nlink() > 1)
        {
            warn(&format!(
                "{path} has another name (hard link), which keeps the old words"
            ));
        }
    }
}

impl Drop for Replacement {
    fn drop(&mut self) {
        if let Some((temporary, _)) = &self.temporary {
            let _ = fs::remove_file(temporary);
        }
    }
}

/// Gives a new file the owner, group, mode and extended attributes of the old one; what could not
/// be kept, in words. Only a privileged user may keep another owner, or a group that is not the
/// user's.
fn keep(old: &Old, new: &File) -> io::Result<Vec<String>> {
    let (uid, gid, mut mode) = (old.metadata.uid(), old.metadata.gid(), old.metadata.mode());
    let there = new.metadata()?;
    let mut lost = Vec::new();
    let mut same_group = true;
    if there.gid() != gid {
        if let Err(error) = fchown(new, None, Some(gid)) {
            same_group = false;
            mode = for_another_group(mode);
            let other = there.gid();
            lost.push(format!(
                "its group {gid} is not kept: {error}; group {other} may do no more than all others"
            ));
        }
    }
    if there.uid() != uid {
        if let Err(error) = fchown(new, Some(uid), None) {
            mode &= !SET_USER;
            let other = there.uid();
            lost.push(format!(
                "its owner {uid} is not kept: {error}; user {other} is its owner now"
            ));
        }
    }
    new.set_permissions(Permissions::from_mode(mode))?;
    let attributes = extended::keep(&old.file, new, same_group);
    let attribute = |what| format!("an extended attribute is not kept: {what}");
    lost.extend(attributes.into_iter().map(attribute));
    Ok(lost)
}

/// A mode for a file whose group is another than before: what the group may, all may.
fn for_another_group(mode: u32) -> u32 {
    let all = mode & 0o007;
    mode & !SET_GROUP & (!0o070 | all << 3)
}

fn unwritten(shown: &Path, error: io::Error) -> Failure {
    Failure::host(shown, format!("not written: {error}"))
}

fn folder_of(path: &Path) -> &Path {
    match path.parent() {
        Some(folder) if folder != Path::new("") => folder,
        _ => Path::new("."),
    }
}

/// A new file in the folder of another, which a signal removes.
fn temporary_beside(target: &Path, mode: u32) -> io::Result<(PathBuf, Temporary, File)> {
    let mut open = OpenOptions::new();
    open.write(true).create_new(true).mode(mode);
    let mut number = 0;
    loop {
        let name = format!(".ruzkemp-{}-{number}.tmp", process::id());
        let path = folder_of(target).join(name);
        let opened: io::Result<_> = signals::held(|| {
            let file = open.open(&path)?;
            Ok((Temporary::enter(&path), file))
        });
        match opened {
            Ok((entered, file)) => return Ok((path, entered, file)),
            Err(error) if error.kind() == ErrorKind::AlreadyExists && number < 1_000 => number += 1,
            Err(error) => return Err(error),
        }
    }
}

#[cfg(test)]
mod tests {
    use super::*;
    use std::os::unix::fs::symlink;

    /// What a file holds that appeared while another was in the making under its path.
    fn appeared(name: &str, force: bool) -> (Outcome, Vec<u8>) {
        let name = format!("ruzkemp-{}-{name}", process::id());
        let path = std::env::temp_dir().join(name);
        let new = Replacement::of(&path, force).expect("nothing is there");
        fs::write(&path, b"other").expect("written");
        let ended = new.commit(b"new");
        let there = fs::read(&path).expect("it is there");
        fs::remove_file(&path).expect("removed");
        (ended, there)
    }

    #[test]
    fn a_file_that_appears_is_replaced_by_force_only() {
        let (ended, there) = appeared("forced", true);
        ended.expect("it is replaced");
        assert_eq!(there, b"new");
        let (ended, there) = appeared("kept", false);
        let failure = ended.expect_err("it is kept");
        assert!(failure.to_string().ends_with("(--force replaces it)"));
        assert_eq!(there, b"other");
    }

    /// How it ends, and what the file `other` has then, if a link to it appears under the path of a
    /// file in the making, in the place of an old file if there is one.
    fn linked(
        begin: fn(&Path, bool) -> Outcome<Replacement>,
        has_old: bool,
    ) -> (Outcome, Vec<u8>, usize) {
        let folder = std::env::temp_dir().join(format!("ruzkemp-{}-linked", process::id()));
        fs::create_dir(&folder).expect("a folder");
        let (path, other) = (folder.join("path"), folder.join("other"));
        fs::write(&other, b"other").expect("written");
        if has_old {
            fs::write(&path, b"old").expect("written");
        }
        let new = begin(&path, true).expect("it may be replaced");
        let _ = fs::remove_file(&path);
        symlink(&other, &path).expect("a link");
        let ended = new.commit(b"new");
        let there = fs::read(&other).expect("it is there");
        let files = fs::read_dir(&folder).expect("a folder").count();
        fs::remove_dir_all(&folder).expect("removed");
        (ended, there, files)
    }

    #[test]
    fn a_link_that_appears_in_a_folder_is_not_followed() {
        for has_old in [false, true] {
            let (ended, there, files) = linked(Replacement::in_folder, has_old);
            let failure = ended.expect_err("it is refused").to_string();
            let told = failure.ends_with("path: this is a link, which is not followed");
            assert!(told, "{failure}");
            // The link and the file are there, and no temporary file.
            assert_eq!((&there[..], files), (&b"other"[..], 2));
        }
        let (ended, there, _) = linked(Replacement::of, false);
        ended.expect("a link that is named is followed");
        assert_eq!(there, b"new");
    }

    #[test]
    fn another_group_may_do_no_more_than_all() {
        for (old, new) in [
            (0o640, 0o600),
            (0o2775, 0o755),
            (0o664, 0o644),
            (0o4705, 0o4705),
        ] {
            assert_eq!(for_another_group(old), new, "{old:o}");
        }
    }
}
