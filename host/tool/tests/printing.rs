//! Standard output that cannot be written: what is printed before a commit makes the command fail
//! and changes nothing, what is printed after it never changes the status.

mod common;

use std::collections::BTreeMap;
use std::fs::File;
use std::io::{self, Read, Write};
use std::process::{Command, Stdio};
use std::sync::OnceLock;

use common::{numbers, Done, Folder, TOOL};

/// Commands that write a file and then print what they have done.
const WRITING: [&[&str]; 24] = [
    &["create", "a.img", "NEW", "--size", "1"],
    &["set", "a.img", "NEW", "--tail", "1,2,3,4,5,6"],
    &["change", "a.img", "PASS", "--size", "1"],
    &["rename", "a.img", "PASS", "NEW"],
    &["rm", "a.img", "PASS", "GATE"],
    &["put", "a.img", "NEW", "host"],
    &["put", "a.img", "PASS", "host", "--replace"],
    &["format", "b.img", "20", "10", "2", "1"],
    &["format", "a.img", "20", "10", "2", "2", "--force"],
    &["format", "a.img", "20", "10", "2", "1", "--force", "--new"],
    &[
        "format",
        "pack",
        "20",
        "10",
        "2",
        "1",
        "--force",
        "--offset=7",
    ],
    &["sample", "b.img"],
    &["sample", "a.img", "--force"],
    &["get", "a.img", "PASS", "out"],
    &["get", "a.img", "PASS", "host", "--force"],
    &["map", "a.img", "--svg", "out"],
    &["map", "a.img", "--svg", "host", "--force"],
    &["report", "a.img", "-o", "out"],
    &["report", "a.img", "-o", "host", "--force"],
    &["get", "a.img", "PASS", "out", "--unsound"],
    &["get", "a.img", "PASS", "GATE", "--into", "new"],
    &["get", "a.img", "--all", "new"],
    &["put", "a.img", "host", "--from", "."],
    &["put", "a.img", "NEW", "host", "--text", "--danish"],
];

/// Commands that print before they commit, if they do that at all.
const PRINTING: [&[&str]; 20] = [
    &["run", "a.img", "script"],
    &["run", "a.img", "open", "--close"],
    &["check", "a.img"],
    &["check", "a.img", "--json"],
    &["ls", "a.img", "--unsound"],
    &["map", "a.img", "--unsound"],
    &["dump", "a.img", "8"],
    &["report", "a.img", "-o", "-"],
    &["ls", "a.img"],
    &["ls", "a.img", "--json"],
    &["show", "a.img", "PASS"],
    &["show", "a.img", "PASS", "--json"],
    &["map", "a.img"],
    &["map", "a.img", "--json"],
    &["diff", "a.img", "a.img"],
    &["map", "a.img", "--svg", "-"],
    &["get", "a.img", "PASS", "-"],
    &["help"],
    &["help", "ls"],
    &["--version"],
];

/// The arguments, with format's four numbers written out.
fn arguments(short: &[&'static str]) -> Vec<&'static str> {
    match short {
        ["format", image, sectors, first, slice, keys, rest @ ..] => {
            let numbers = numbers([sectors, first, slice, keys]);
            [&["format", image], &numbers[..], rest].concat()
        }
        other => other.to_vec(),
    }
}

/// A folder with the small unit, PASS and GATE on it, a pack, a host file and scripts.
fn folder() -> Folder {
    static FILES: OnceLock<BTreeMap<String, Vec<u8>>> = OnceLock::new();
    let folder = Folder::new();
    for (name, bytes) in FILES.get_or_init(files) {
        folder.write(name, bytes);
    }
    folder
}

fn files() -> BTreeMap<String, Vec<u8>> {
    let folder = Folder::new();
    folder.small("a.img");
    folder.good(&["create", "a.img", "PASS", "--size", "2", "--extendable"]);
    folder.good(&["create", "a.img", "GATE"]);
    folder.write("host", &[7; 600]);
    folder.write("pack", &[9; 512 * 30]);
    folder.write("script", b"init\ncreate NEW size=1\n");
    let open = "init\ncreate-area PASS\nreserve PASS\noutput PASS fill=1\n";
    folder.write("open", open.as_bytes());
    folder.snapshot()
}

/// Where nothing can be written.
fn full() -> Stdio {
    File::create("/dev/full").expect("/dev/full").into()
}

/// A pipe that nobody reads.
fn closed() -> Stdio {
    let (reader, mut writer) = io::pipe().expect("a pipe");
    drop(reader);
    // A process that another thread is starting has a copy of the reader until it becomes its
    // program.
    while writer.write_all(&[0]).is_ok() {}
    writer.into()
}

/// How a command ended without a standard output, and with or without a standard error; and what
/// was in the folder before and after.
struct Ran {
    done: Done,
    before: BTreeMap<String, Vec<u8>>,
    after: BTreeMap<String, Vec<u8>>,
}

impl Ran {
    fn of(mut command: Command) -> Ran {
        let folder = folder();
        let before = folder.snapshot();
        command.current_dir(folder.path()).stdin(Stdio::null());
        let child = command.spawn().expect("the tool runs");
        let done = child.wait_with_output().expect("the tool ends").into();
        let after = folder.snapshot();
        Ran {
            done,
            before,
            after,
        }
    }
}

fn ran(arguments: &[&str], out: Stdio, err: Option<Stdio>) -> Ran {
    let mut command = Command::new(TOOL);
    command.args(arguments).stdout(out);
    command.stderr(err.unwrap_or_else(Stdio::piped));
    Ran::of(command)
}

/// The same, with a standard output that is as the shell makes it.
fn ran_in_shell(arguments: &[&str], redirection: &str) -> Ran {
    let mut shell = Command::new("sh");
    let script = format!("exec \"$0\" \"$@\" {redirection}");
    shell.arg("-c").arg(script).arg(TOOL).args(arguments);
    shell.stdout(Stdio::null()).stderr(Stdio::piped());
    Ran::of(shell)
}

/// Every pair of streams of which standard output cannot be written; those first of which standard
/// error can.
fn all(arguments: &[&str]) -> [Ran; 7] {
    [
        ran(arguments, full(), None),
        ran(arguments, closed(), None),
        ran_in_shell(arguments, ">&-"),
        ran_in_shell(arguments, "1</dev/null"),
        ran(arguments, full(), Some(full())),
        ran(arguments, closed(), Some(full())),
        ran(arguments, closed(), Some(closed())),
    ]
}

/// How many of these can tell that nothing is printed.
const TOLD: usize = 4;

/// What a command leaves that can print.
fn done_well(arguments: &[&str]) -> BTreeMap<String, Vec<u8>> {
    let folder = folder();
    folder.good(arguments);
    folder.snapshot()
}

#[test]
fn what_was_committed_and_cannot_be_reported_is_done() {
    for short in WRITING {
        let arguments = arguments(short);
        let wanted = done_well(&arguments);
        for (number, ran) in all(&arguments).iter().enumerate() {
            let Ran {
                done,
                before,
                after,
            } = ran;
            assert_ne!(*before, wanted, "{arguments:?} changes nothing");
            assert_eq!(done.status, 0, "{arguments:?}: {done:?}");
            assert!(*after == wanted, "{arguments:?}");
            let told = done.err.starts_with("ruzkemp: warning: ");
            assert_eq!(told, number < TOLD, "{arguments:?}: {done:?}");
        }
    }
}

#[test]
fn what_cannot_be_printed_before_a_commit_is_a_failure_that_changes_nothing() {
    for arguments in PRINTING {
        done_well(arguments);
        for (number, ran) in all(arguments).iter().enumerate() {
            let done = &ran.done;
            assert_eq!(done.status, 3, "{arguments:?}: {done:?}");
            assert!(ran.after == ran.before, "{arguments:?}");
            let told = done.err.starts_with("ruzkemp: standard output: ");
            assert_eq!(told, number < TOLD, "{arguments:?}: {done:?}");
        }
    }
}

/// Where nobody wants to see it, all is printed: what the runtime opens in the place of a closed
/// standard output is /dev/null for reading and writing, and a user may do so too.
#[test]
fn what_is_printed_may_be_thrown_away() {
    for redirection in [">/dev/null", "1<>/dev/null", ">&- >/dev/null"] {
        for arguments in PRINTING {
            let done = ran_in_shell(arguments, redirection).done;
            let ended = (done.status, done.err.as_str());
            assert_eq!(ended, (0, ""), "{arguments:?} {redirection}");
        }
    }
}

/// The two scripts above change the image if they are heard.
#[test]
fn a_script_that_can_print_changes_the_image() {
    let before = folder().read("a.img");
    for arguments in &PRINTING[..2] {
        let after = done_well(arguments);
        assert!(after["a.img"] != before, "{arguments:?}");
    }
}

/// Of answers of which only the first can be printed, nothing is written either: a pipe holds less
/// than this script prints, so that it cannot be at its end when the reader goes.
#[test]
fn a_script_that_cannot_print_to_its_end_changes_nothing() {
    for close in [&[][..], &["--close"]] {
        let folder = folder();
        let script = "init\ncreate NEW size=1\n".to_string() + &"list\n".repeat(4_000);
        folder.write("long", script.as_bytes());
        let before = folder.snapshot();
        let (mut reader, writer) = io::pipe().expect("a pipe");
        let arguments = [&["run", "a.img", "long"], close].concat();
        let mut command = folder.command(&arguments);
        command.stdin(Stdio::null()).stdout(writer);
        let child = command.stderr(Stdio::piped()).spawn();
        let child = child.expect("the tool runs");
        drop(command);
        let mut first = [0; 80];
        reader.read_exact(&mut first).expect("two answers");
        drop(reader);
        let done = child.wait_with_output().expect("the tool ends").into();
        folder.judge(
            &arguments,
            &before,
            &done,
            3,
            "standard output: Broken pipe",
        );
    }
}

/// In a dry run nothing changes, and the status is that of the command.
#[test]
fn a_dry_run_that_cannot_report_changes_nothing() {
    for short in WRITING
        .iter()
        .filter(|short| !["get", "map", "report"].contains(&short[0]))
    {
        let arguments = [&arguments(short)[..], &["--dry-run"]].concat();
        for ran in all(&arguments) {
            assert_eq!(ran.done.status, 0, "{arguments:?}: {:?}", ran.done);
            assert!(ran.after == ran.before, "{arguments:?}");
        }
    }
}

#[test]
fn every_command_stands_here() {
    let help = Folder::new().good(&["help"]);
    let commands = help.lines().skip_while(|line| *line != "Commands:").skip(1);
    for line in commands.take_while(|line| !line.is_empty()) {
        let command = line.split_whitespace().next().expect("a command");
        let stands = WRITING
            .iter()
            .chain(&PRINTING)
            .any(|tried| tried[0] == command);
        assert!(stands, "{command} is not tried without a standard output");
    }
}
