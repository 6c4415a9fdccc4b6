//! Extended attributes of a file, access control lists among them, kept where it is replaced.

use std::ffi::{c_char, c_int, c_void, CStr, CString};
use std::fs::File;
use std::io::{self, ErrorKind};
use std::os::fd::AsRawFd;

/// An access control list is stored under this name. A new file may have one from its folder.
const ACCESS: &CStr = c"system.posix_acl_access";

extern "C" {
    fn flistxattr(file: c_int, list: *mut c_char, size: usize) -> isize;
    fn fgetxattr(file: c_int, name: *const c_char, value: *mut c_void, size: usize) -> isize;
    fn fsetxattr(
        file: c_int,
        name: *const c_char,
        value: *const c_void,
        size: usize,
        flags: c_int,
    ) -> c_int;
    fn fremovexattr(file: c_int, name: *const c_char) -> c_int;
}

/// Gives a new file the extended attributes of the old one; what could not be kept, in words. A
/// file of another group gets no access control list, which would open the file to that group.
pub fn keep(old: &File, new: &File, same_group: bool) -> Vec<String> {
    let mut lost = Vec::new();
    let names = names(old).unwrap_or_else(|error| {
        // A file system that has no such attributes says so.
        if error.kind() != ErrorKind::Unsupported {
            lost.push(format!("their list: {error}"));
        }
        Vec::new()
    });
    let is_list = |name: &CString| name.as_c_str() == ACCESS;
    for name in &names {
        let kept = match is_list(name) && !same_group {
            true => Err(io::Error::other("the group is another")),
            false => copy(old, new, name),
        };
        if let Err(error) = kept {
            lost.push(format!("{}: {error}", name.to_string_lossy()));
        }
    }
    let is_kept = same_group && names.iter().any(is_list);
    if !is_kept && value(new, ACCESS).is_ok() {
        // SAFETY: an open file and a C string.
        let removed = unsafe { fremovexattr(new.as_raw_fd(), ACCESS.as_ptr()) };
        if removed != 0 {
            let error = io::Error::last_os_error();
            lost.push(format!("{}: {error}", ACCESS.to_string_lossy()));
        }
    }
    lost
}

fn copy(old: &File, new: &File, name: &CStr) -> io::Result<()> {
    let wanted = value(old, name)?;
    if value(new, name).is_ok_and(|there| there == wanted) {
        return Ok(());
    }
    let (bytes, size) = (wanted.as_ptr().cast(), wanted.len());
    // SAFETY: an open file, a C string, and `size` bytes to read.
    let set = unsafe { fsetxattr(new.as_raw_fd(), name.as_ptr(), bytes, size, 0) };
    match set {
        0 => Ok(()),
        _ => Err(io::Error::last_os_error()),
    }
}

/// The names of a file's extended attributes.
fn names(file: &File) -> io::Result<Vec<CString>> {
    let list = sized(|bytes, size| {
        // SAFETY: an open file, and `size` bytes to write or none.
        unsafe { flistxattr(file.as_raw_fd(), bytes.cast(), size) }
    })?;
    let names = list
        .split(|byte| *byte == 0)
        .filter(|name| !name.is_empty());
    Ok(names.flat_map(CString::new).collect())
}

fn value(file: &File, name: &CStr) -> io::Result<Vec<u8>> {
    sized(|bytes, size| {
        // SAFETY: an open file, a C string, and `size` bytes to write or none.
        unsafe { fgetxattr(file.as_raw_fd(), name.as_ptr(), bytes.cast(), size) }
    })
}

/// What a function writes that answers the size if it is given no room.
fn sized(fill: impl Fn(*mut u8, usize) -> isize) -> io::Result<Vec<u8>> {
    let answered = |size: isize| usize::try_from(size).map_err(|_| io::Error::last_os_error());
    let size = answered(fill(std::ptr::null_mut(), 0))?;
    let mut bytes = vec![0; size];
    if size > 0 {
        let filled = answered(fill(bytes.as_mut_ptr(), size))?;
        bytes.truncate(filled);
    }
    Ok(bytes)
}
