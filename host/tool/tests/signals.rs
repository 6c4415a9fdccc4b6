//! Signals that end the tool: nothing is left beside a file, the file is as it was, and the end
//! shows the signal.

mod common;

use std::ffi::c_int;
use std::fs;
use std::io::Write;
use std::os::unix::process::ExitStatusExt;
use std::process::{Child, ExitStatus, Stdio};
use std::thread::sleep;
use std::time::{Duration, Instant};

use common::{numbers, wait_for_lock, Folder, TOOL};

extern "C" {
    fn kill(process: c_int, signal: c_int) -> c_int;
}

const HANGUP: c_int = 1;
const INTERRUPT: c_int = 2;
const TERMINATE: c_int = 15;
const ENDING: [c_int; 3] = [HANGUP, INTERRUPT, TERMINATE];
/// Linux's numbers.
const CONTINUE: c_int = 18;
const STOP: c_int = 19;

fn send(child: &Child, signal: c_int) {
    // SAFETY: the POSIX function. The child has not been waited for, so that the number is its own.
    unsafe { kill(child.id() as c_int, signal) };
}

/// Whether there is a temporary file of the tool.
fn has_temporary(folder: &Folder) -> bool {
    let found = fs::read_dir(folder.path()).expect("the folder is there");
    found.flatten().any(|file| {
        let name = file.file_name().into_string().expect("UTF-8");
        name.starts_with(".ruzkemp-") && name.ends_with(".tmp")
    })
}

/// Runs a command and sends it a signal when its temporary file is there; how it ended, or none
/// if it was too quick. It runs for a short time and is stopped in turns, so that it cannot come to
/// its end unseen however many processors there are.
fn cut_short(folder: &Folder, arguments: &[&str], signal: c_int) -> Option<ExitStatus> {
    let mut command = folder.command(arguments);
    command.stdin(Stdio::null()).stdout(Stdio::null());
    let mut child = command.spawn().expect("the tool runs");
    loop {
        sleep(Duration::from_micros(100));
        send(&child, STOP);
        if child.try_wait().expect("it is a child").is_some() {
            return None;
        }
        let found = has_temporary(folder);
        if found {
            send(&child, signal);
        }
        send(&child, CONTINUE);
        if found {
            return Some(child.wait().expect("it ends"));
        }
    }
}

/// Cuts a command short with each signal, while it writes a file: all files are as they were.
/// Where the file was in its place before the signal came, `again` judges it and makes all as it
/// was, and the command is tried once more, for a minute.
fn is_undone(folder: &Folder, arguments: &[&str], again: impl Fn(&Folder, ExitStatus)) {
    for signal in ENDING {
        let is_cut = || {
            let before = folder.snapshot();
            let ended = cut_short(folder, arguments, signal);
            assert!(!has_temporary(folder), "{arguments:?}, signal {signal}");
            match ended {
                Some(ended) if folder.snapshot() == before => {
                    assert_eq!(ended.signal(), Some(signal), "{arguments:?}");
                    true
                }
                ended => {
                    again(folder, ended.unwrap_or_default());
                    false
                }
            }
        };
        let began = Instant::now();
        while !is_cut() {
            let is_late = began.elapsed() > Duration::from_secs(60);
            assert!(!is_late, "{arguments:?} is too quick for a signal");
        }
    }
}

/// A unit of 32,767 sectors with BIG, of 30,000 sectors.
fn large() -> Folder {
    let folder = Folder::new();
    let numbers = numbers(["32767", "15", "8", "1"]);
    folder.good(&[&["format", "a.img"], &numbers[..]].concat());
    folder.good(&["create", "a.img", "BIG", "--size", "30000"]);
    folder
}

#[test]
fn a_change_that_is_cut_short_leaves_nothing() {
    let folder = large();
    let original = folder.read("a.img");
    is_undone(&folder, &["create", "a.img", "NEW"], |folder, ended| {
        assert_eq!(ended.code(), Some(0));
        folder.write("a.img", &original);
    });
}

#[test]
fn a_host_file_that_is_cut_short_leaves_nothing() {
    let folder = large();
    is_undone(&folder, &["get", "a.img", "BIG", "out"], |folder, _| {
        assert_eq!(folder.read("out").len(), 512 * 30_000);
        fs::remove_file(folder.file("out")).expect("it was there");
    });
    folder.write("old", b"old");
    let get = ["get", "a.img", "BIG", "old", "--force"];
    is_undone(&folder, &get, |folder, _| {
        assert_eq!(folder.read("old").len(), 512 * 30_000);
        folder.write("old", b"old");
    });
}

/// A `put` that waits for its input has no file in the making yet.
#[test]
fn a_put_that_is_cut_short_leaves_the_image() {
    for signal in ENDING {
        let folder = Folder::new();
        folder.small("a.img");
        let before = folder.snapshot();
        let mut command = folder.command(&["put", "a.img", "NEW", "-"]);
        command.stdin(Stdio::piped()).stdout(Stdio::null());
        let mut child = command.spawn().expect("the tool runs");
        let mut stdin = child.stdin.take().expect("a pipe");
        stdin.write_all(&[1; 512]).expect("the tool reads");
        wait_for_lock(&folder.file("a.img"), &mut child);
        send(&child, signal);
        let ended = child.wait().expect("it ends");
        assert_eq!(ended.signal(), Some(signal));
        assert!(folder.snapshot() == before);
    }
}

/// As under nohup.
#[test]
fn a_signal_that_was_ignored_stays_so() {
    for signal in ENDING {
        let folder = Folder::new();
        folder.small("a.img");
        let mut shell = std::process::Command::new("sh");
        let script = format!("trap '' {signal}; exec \"$0\" put a.img NEW -");
        shell.arg("-c").arg(script).arg(TOOL);
        shell.current_dir(folder.path()).stdin(Stdio::piped());
        let mut child = shell.stdout(Stdio::null()).spawn().expect("sh runs");
        let mut stdin = child.stdin.take().expect("a pipe");
        wait_for_lock(&folder.file("a.img"), &mut child);
        send(&child, signal);
        sleep(Duration::from_millis(50));
        stdin.write_all(b"still there").expect("the tool reads");
        drop(stdin);
        let ended = child.wait().expect("it ends");
        assert_eq!(ended.code(), Some(0), "signal {signal}");
        let out = folder.good(&["get", "a.img", "NEW", "-", "--bytes", "11"]);
        assert_eq!(out, "still there");
    }
}

/// Sends a `create` a signal after a while; whether the image is changed, which the end has to tell.
/// Then the image is as it was.
fn is_created(folder: &Folder, before_signal: Duration) -> bool {
    let original = folder.read("a.img");
    let mut command = folder.command(&["create", "a.img", "NEW"]);
    command.stdin(Stdio::null()).stdout(Stdio::null());
    let mut child = command.spawn().expect("the tool runs");
    sleep(before_signal);
    send(&child, TERMINATE);
    let ended = child.wait().expect("it ends");
    let is_changed = folder.read("a.img") != original;
    let told = match is_changed {
        true => ended.code() == Some(0),
        false => ended.signal() == Some(TERMINATE),
    };
    assert!(told, "{ended:?}, changed: {is_changed}");
    assert!(!has_temporary(folder));
    folder.write("a.img", &original);
    is_changed
}

/// Whenever a signal comes, status 0 stands for a changed image and the signal for an old one.
#[test]
fn the_end_tells_whether_the_image_is_changed() {
    let folder = Folder::new();
    folder.small("a.img");
    let mut ends = [0; 2];
    // It comes sooner after a change and later after none, so that most come near the commit,
    // however long the machine takes until then.
    let mut before_signal = Duration::from_millis(1);
    for _ in 0..200 {
        let is_changed = is_created(&folder, before_signal);
        ends[usize::from(is_changed)] += 1;
        before_signal = match is_changed {
            true => before_signal * 3 / 4,
            false => before_signal * 5 / 4 + Duration::from_micros(10),
        };
    }
    let [signalled, changed] = ends;
    println!("{signalled} ended by the signal, {changed} changed");
    assert!(signalled > 0 && changed > 0, "only one end is seen");
}
