//! All that write a file come one after the other, and what a file is beside its bytes is kept or
//! told.

mod common;

use std::ffi::{c_char, c_int, c_void, CString};
use std::fs;
use std::io::ErrorKind::{InvalidInput, PermissionDenied};
use std::io::{self, Write};
use std::os::unix::ffi::OsStrExt;
use std::os::unix::fs::{chown, MetadataExt, PermissionsExt};
use std::os::unix::process::CommandExt;
use std::path::Path;
use std::process::{Child, ChildStdin, Command, Stdio};
use std::thread::sleep;
use std::time::{Duration, Instant};

use common::{wait_for_lock, Done, Folder, NUMBERS, TOOL};

extern "C" {
    fn setxattr(
        path: *const c_char,
        name: *const c_char,
        value: *const c_void,
        size: usize,
        flags: c_int,
    ) -> c_int;
    fn getxattr(path: *const c_char, name: *const c_char, value: *mut c_void, size: usize)
        -> isize;
}

/// Two small units, a.img empty and b.img with PASS, whose two sectors are full of 7s.
fn folder() -> Folder {
    let folder = Folder::new();
    folder.small("a.img");
    folder.small("b.img");
    folder.write("host", &[7; 1024]);
    folder.good(&["put", "b.img", "PASS", "host"]);
    folder
}

/// A `put` of SLOW into a.img that holds the lock and waits for more.
fn slow_put(folder: &Folder) -> (Child, ChildStdin) {
    let mut command = folder.command(&["put", "a.img", "SLOW", "-"]);
    command.stdin(Stdio::piped()).stdout(Stdio::null());
    let mut child = command.spawn().expect("the tool runs");
    let mut stdin = child.stdin.take().expect("a pipe");
    stdin.write_all(&[5; 700]).expect("the tool reads");
    wait_for_lock(&folder.file("a.img"), &mut child);
    (child, stdin)
}

/// Whether the system lists a process as one that has a lock or, with an arrow, waits for one.
fn is_listed(process: u32, waits: bool) -> bool {
    let process = process.to_string();
    let is_its = |line: &str| {
        let words: Vec<&str> = line.split_whitespace().collect();
        words.contains(&"FLOCK") && words.contains(&&*process) && words.contains(&"->") == waits
    };
    let listed = fs::read_to_string("/proc/locks").unwrap_or_default();
    listed.lines().any(is_its)
}

/// Waits until a process is seen to wait for the lock that another has. Where the system does not
/// list locks, it has not ended after a while.
fn wait_for_waiting(holder: u32, child: &mut Child) {
    let is_told = is_listed(holder, false);
    let began = Instant::now();
    let waits = |child: &Child| match is_told {
        true => is_listed(child.id(), true),
        false => began.elapsed() > Duration::from_millis(400),
    };
    while !waits(child) {
        let ended = child.try_wait().expect("it is a child");
        assert!(ended.is_none(), "it does not wait: {ended:?}");
        let is_late = began.elapsed() > Duration::from_secs(60);
        assert!(!is_late, "it is not seen to wait");
        sleep(Duration::from_millis(1));
    }
}

/// Runs a command while a slow `put` has the lock, and lets that end only when the command has
/// been seen to wait; how the command ended.
fn after_slow_put(folder: &Folder, arguments: &[&str]) -> Done {
    let (mut first, mut stdin) = slow_put(folder);
    let mut command = folder.command(arguments);
    command.stdin(Stdio::null());
    command.stdout(Stdio::piped()).stderr(Stdio::piped());
    let mut second = command.spawn().expect("the tool runs");
    wait_for_waiting(first.id(), &mut second);
    stdin.write_all(&[5; 100]).expect("the tool reads");
    drop(stdin);
    assert!(first.wait().expect("it ends").success());
    second.wait_with_output().expect("it ends").into()
}

/// How the file a.img looks after a slow `put` and a command that waits for it.
fn left_by(arguments: &[&str]) -> Folder {
    let folder = folder();
    let done = after_slow_put(&folder, arguments);
    assert_eq!((done.status, done.err.as_str()), (0, ""), "{arguments:?}");
    folder
}

#[test]
fn a_new_image_takes_the_place_of_what_a_slow_put_wrote() {
    let folder = left_by(&["sample", "a.img", "--force"]);
    folder.good(&["sample", "sample.img"]);
    assert!(folder.read("a.img") == folder.read("sample.img"));
    let format = [&["format", "a.img", "--force", "--new"], &NUMBERS[..]].concat();
    let folder = left_by(&format);
    folder.small("new.img");
    assert!(folder.read("a.img") == folder.read("new.img"));
}

#[test]
fn format_works_on_what_a_slow_put_wrote() {
    let folder = left_by(&[&["format", "a.img", "--force"], &NUMBERS[..]].concat());
    folder.small("new.img");
    let (image, new) = (folder.read("a.img"), folder.read("new.img"));
    // The catalog is new; the words of SLOW, whose first block lies behind its index in sector
    // 12, are those that the put wrote.
    assert!(image[..12 * 512] == new[..12 * 512]);
    assert!(image[13 * 512..13 * 512 + 800] == [5; 800]);
    assert!(image[13 * 512 + 800..15 * 512] == [0; 224]);
}

/// While format waits, the unit of 20 sectors is replaced by one of 250.
#[test]
fn format_keeps_the_length_that_the_file_has_when_it_is_locked() {
    for more in [&[][..], &["--new"]] {
        let folder = folder();
        folder.good(&["sample", "sample.img"]);
        let held = fs::File::open(folder.file("a.img")).expect("it is there");
        held.lock().expect("nobody has it");
        let mut command = folder.command(&[&["format", "a.img", "--force"], more].concat());
        command.stdout(Stdio::piped()).stderr(Stdio::piped());
        let mut child = command.spawn().expect("the tool runs");
        wait_for_waiting(std::process::id(), &mut child);
        fs::rename(folder.file("sample.img"), folder.file("a.img")).expect("replaced");
        // Closing would not do where another test's child has a copy of the descriptor.
        held.unlock().expect("it was locked");
        let done: Done = child.wait_with_output().expect("it ends").into();
        assert_eq!((done.status, done.err.as_str()), (0, ""), "{more:?}");
        assert!(done.out.contains("formatted: 250 sectors, "), "{done:?}");
        assert_eq!(folder.read("a.img").len(), 512 * 250);
    }
}

#[test]
fn host_files_take_the_place_of_what_a_slow_put_wrote() {
    let folder = left_by(&["get", "b.img", "PASS", "a.img", "--force"]);
    assert!(folder.read("a.img") == [7; 1024]);
    let folder = left_by(&["map", "b.img", "--svg", "a.img", "--force"]);
    assert!(folder.read("a.img").starts_with(b"<svg"));
}

#[test]
fn a_change_works_on_what_a_slow_put_wrote() {
    let folder = left_by(&["create", "a.img", "NEW"]);
    let listed = folder.good(&["ls", "a.img"]);
    assert!(listed.contains("\nNEW "), "{listed}");
    assert!(listed.contains("\nSLOW        2 "), "{listed}");
}

/// None of those that make a file by force fails because another has made it meanwhile.
#[test]
fn a_file_that_appears_is_replaced_by_force() {
    let folder = folder();
    folder.good(&["sample", "sample.img"]);
    for _ in 0..20 {
        let spawned = || {
            let mut command = folder.command(&["sample", "new.img", "--force"]);
            command.stdout(Stdio::null()).stderr(Stdio::piped());
            command.spawn().expect("the tool runs")
        };
        for child in [(); 4].map(|()| spawned()) {
            let done: Done = child.wait_with_output().expect("it ends").into();
            assert_eq!((done.status, done.err.as_str()), (0, ""));
        }
        assert!(folder.read("new.img") == folder.read("sample.img"));
        fs::remove_file(folder.file("new.img")).expect("it was there");
    }
}

/// A user and a group that are nobody's.
const STRANGER: u32 = 54_321;

/// A copy of the tool that all may run: its own folder may be closed to others. A file that this
/// process itself writes may still be open in one that another thread is starting, and cannot be run
/// then.
fn copy_tool(path: &Path) {
    let copied = Command::new("cp").arg(TOOL).arg(path).status();
    assert!(copied.expect("cp runs").success());
    fs::set_permissions(path, fs::Permissions::from_mode(0o755)).expect("it is ours");
}

/// Runs `create a.img NEW` as a user without privileges, where a.img has an owner, a group and a
/// mode; what is warned of, and what it has then. None where users cannot be changed.
fn by_a_stranger(
    folder: &Folder,
    (owner, group, mode): (u32, u32, u32),
) -> Option<(String, (u32, u32, u32))> {
    let (image, tool) = (folder.file("a.img"), folder.file("tool"));
    let open = fs::Permissions::from_mode(0o777);
    fs::set_permissions(folder.path(), open).expect("it is ours");
    copy_tool(&tool);
    fs::set_permissions(&image, fs::Permissions::from_mode(mode)).expect("it is ours");
    let mut stranger = Command::new(&tool);
    stranger.args(["create", "a.img", "NEW"]);
    stranger.current_dir(folder.path());
    stranger.uid(STRANGER).gid(STRANGER);
    let ran = chown(&image, Some(owner), Some(group)).and_then(|()| stranger.output());
    let done: Done = match ran {
        Ok(output) => output.into(),
        // The user is not privileged, or the system has no such user.
        Err(error) if [PermissionDenied, InvalidInput].contains(&error.kind()) => {
            eprintln!("skipped: how another's file is replaced cannot be tried: {error}");
            return None;
        }
        Err(error) => panic!("{error}"),
    };
    assert_eq!(done.status, 0, "{done:?}");
    let now = fs::metadata(&image).expect("it is there");
    Some((done.err, (now.uid(), now.gid(), now.mode() & 0o7777)))
}

#[test]
fn an_owner_who_is_not_kept_is_told() {
    let Some((told, now)) = by_a_stranger(&folder(), (STRANGER, STRANGER, 0o640)) else {
        return;
    };
    assert_eq!((told.as_str(), now), ("", (STRANGER, STRANGER, 0o640)));
    let (told, now) = by_a_stranger(&folder(), (0, STRANGER, 0o660)).expect("it is tried");
    let warning = "ruzkemp: warning: a.img: its owner 0 is not kept: ";
    assert!(told.starts_with(warning), "{told}");
    assert!(told.ends_with("; user 54321 is its owner now\n"), "{told}");
    assert_eq!(
        (told.lines().count(), now),
        (1, (STRANGER, STRANGER, 0o660))
    );
}

/// What only the old group might, the new one may not.
#[test]
fn a_group_that_is_not_kept_is_told_and_the_file_not_opened_to_another() {
    for (old, new) in [
        (0o640, 0o600),
        (0o660, 0o600),
        (0o664, 0o644),
        (0o644, 0o644),
        (0o600, 0o600),
    ] {
        let Some((told, now)) = by_a_stranger(&folder(), (STRANGER, 0, old)) else {
            return;
        };
        let warning = "ruzkemp: warning: a.img: its group 0 is not kept: ";
        assert!(told.starts_with(warning), "{told}");
        let rest = "; group 54321 may do no more than all others\n";
        assert!(told.ends_with(rest), "{told}");
        assert_eq!((told.lines().count(), now), (1, (STRANGER, STRANGER, new)));
    }
}

/// The list says what the group may: the new one would get that.
#[test]
fn an_access_control_list_does_not_open_a_file_to_another_group() {
    let folder = folder();
    let path = folder.file("a.img");
    if !set(&path, "system.posix_acl_access", &access()) {
        return;
    }
    let Some((told, now)) = by_a_stranger(&folder, (STRANGER, 0, 0o640)) else {
        return;
    };
    let list = "an extended attribute is not kept: system.posix_acl_access: the group is another\n";
    assert!(told.ends_with(list), "{told}");
    assert_eq!(now, (STRANGER, STRANGER, 0o600));
    assert_eq!(get(&path, "system.posix_acl_access"), None);
}

#[test]
fn another_name_of_the_file_is_told() {
    let warning =
        "ruzkemp: warning: a.img has another name (hard link), which keeps the old words\n";
    for arguments in REPLACING {
        let folder = folder();
        fs::hard_link(folder.file("a.img"), folder.file("other")).expect("a link");
        let old = folder.read("other");
        let done = folder.run(arguments);
        assert_eq!((done.status, done.err.as_str()), (0, warning));
        assert!(folder.read("other") == old);
        assert!(folder.read("a.img") != old);
    }
}

#[test]
fn another_name_is_not_told_where_nothing_is_written() {
    let folder = folder();
    fs::hard_link(folder.file("a.img"), folder.file("other")).expect("a link");
    folder.good(&["create", "a.img", "NEW", "--dry-run"]);
    folder.good(&["ls", "a.img"]);
}

fn c_string(path: &Path) -> CString {
    CString::new(path.as_os_str().as_bytes()).expect("no zero byte")
}

/// Sets an extended attribute; whether the file system has such.
fn set(path: &Path, name: &str, value: &[u8]) -> bool {
    let (path, name) = (c_string(path), CString::new(name).expect("no zero byte"));
    let (bytes, size) = (value.as_ptr().cast(), value.len());
    // SAFETY: two C strings, and `size` bytes to read.
    let set = unsafe { setxattr(path.as_ptr(), name.as_ptr(), bytes, size, 0) };
    let error = io::Error::last_os_error();
    if set != 0 && error.kind() == io::ErrorKind::Unsupported {
        eprintln!("skipped: the file system has no extended attributes such as {name:?}");
        return false;
    }
    assert_eq!(set, 0, "{name:?}: {error}");
    true
}

fn get(path: &Path, name: &str) -> Option<Vec<u8>> {
    let (path, name) = (c_string(path), CString::new(name).expect("no zero byte"));
    let mut bytes = vec![0; 4096];
    let room = bytes.as_mut_ptr().cast();
    // SAFETY: two C strings, and 4096 bytes to write.
    let size = unsafe { getxattr(path.as_ptr(), name.as_ptr(), room, 4096) };
    bytes.truncate(usize::try_from(size).ok()?);
    Some(bytes)
}

/// An access control list: the owner reads and writes, user 12345 and the group read.
fn access() -> Vec<u8> {
    const NOBODY: u32 = u32::MAX;
    let entries: [(u16, u16, u32); 5] = [
        (0x01, 6, NOBODY),
        (0x02, 4, 12_345),
        (0x04, 4, NOBODY),
        (0x10, 4, NOBODY),
        (0x20, 0, NOBODY),
    ];
    let mut bytes = 2_u32.to_le_bytes().to_vec();
    for (tag, permissions, id) in entries {
        bytes.extend(tag.to_le_bytes());
        bytes.extend(permissions.to_le_bytes());
        bytes.extend(id.to_le_bytes());
    }
    bytes
}

/// Commands that replace a.img.
const REPLACING: [&[&str]; 4] = [
    &["create", "a.img", "NEW"],
    &["sample", "a.img", "--force"],
    &["get", "b.img", "PASS", "a.img", "--force"],
    &["map", "b.img", "--svg", "a.img", "--force"],
];

#[test]
fn extended_attributes_are_kept() {
    for arguments in REPLACING {
        let folder = folder();
        let path = folder.file("a.img");
        if !set(&path, "user.origin", b"gate 7") || !set(&path, "user.empty", b"") {
            return;
        }
        let old = folder.read("a.img");
        folder.good(arguments);
        assert!(folder.read("a.img") != old, "{arguments:?}");
        assert_eq!(get(&path, "user.origin"), Some(b"gate 7".to_vec()));
        assert_eq!(get(&path, "user.empty"), Some(Vec::new()));
    }
}

#[test]
fn access_control_lists_are_kept() {
    for arguments in REPLACING {
        let folder = folder();
        let path = folder.file("a.img");
        if !set(&path, "system.posix_acl_access", &access()) {
            return;
        }
        folder.good(arguments);
        assert_eq!(get(&path, "system.posix_acl_access"), Some(access()));
        let mode = fs::metadata(&path).expect("it is there").permissions();
        assert_eq!(mode.mode() & 0o777, 0o640);
    }
}

/// A folder may give every new file a list; the file that is replaced had none.
#[test]
fn an_access_control_list_of_the_folder_is_not_given_to_an_old_file() {
    let folder = folder();
    if !set(folder.path(), "system.posix_acl_default", &access()) {
        return;
    }
    let path = folder.file("a.img");
    assert_eq!(get(&path, "system.posix_acl_access"), None);
    let mode = |path: &Path| {
        fs::metadata(path)
            .expect("it is there")
            .permissions()
            .mode()
    };
    let before = mode(&path);
    folder.good(&["create", "a.img", "NEW"]);
    assert_eq!(get(&path, "system.posix_acl_access"), None);
    assert_eq!(mode(&path), before);
    // A new file is the folder's to judge.
    folder.good(&["sample", "new.img"]);
    let list = get(&folder.file("new.img"), "system.posix_acl_access");
    assert!(list.is_some());
}
