//! `--dry-run`: everything is done but the commit, and the line says so.

mod common;

use std::process::{Command, Stdio};

use common::{Done, Folder, NUMBERS, TOOL};

/// Commands that change a.img, the small unit with PASS, with the numbers of a unit as `N` for
/// short.
const COMMANDS: [&[&str]; 12] = [
    &["create", "a.img", "NEW", "--size", "1"],
    &["set", "a.img", "NEW", "--tail", "1,2,3,4,5,6"],
    &["change", "a.img", "PASS", "--size", "1"],
    &["rename", "a.img", "PASS", "NEW"],
    &["rm", "a.img", "PASS", "GATE"],
    &["put", "a.img", "NEW", "host"],
    &["format", "a.img", "N", "--force"],
    &["format", "a.img", "N", "--force", "--new"],
    &["format", "new.img", "N"],
    &["format", "pack", "N", "--force", "--offset", "3"],
    &["sample", "new.img"],
    &["sample", "a.img", "--force"],
];

fn written_out(short: &[&'static str]) -> Vec<&'static str> {
    let part = |argument: &&'static str| match *argument {
        "N" => NUMBERS.to_vec(),
        other => vec![other],
    };
    short.iter().flat_map(part).collect()
}

fn folder() -> Folder {
    let folder = Folder::new();
    folder.small("a.img");
    folder.good(&["create", "a.img", "PASS", "--size", "2"]);
    folder.good(&["create", "a.img", "GATE"]);
    folder.write("host", &[7; 600]);
    folder.write("pack", &[9; 512 * 30]);
    folder
}

#[test]
fn a_dry_run_prints_the_lines_and_writes_nothing() {
    for short in COMMANDS {
        let arguments = written_out(short);
        let folder = folder();
        let before = folder.snapshot();
        let dry = [&arguments[..], &["--dry-run"]].concat();
        let said = folder.good(&dry);
        assert!(folder.snapshot() == before, "{dry:?}");
        let real = folder.good(&arguments);
        assert!(folder.snapshot() != before, "{arguments:?}");
        let wanted = real.replace('\n', " (dry run: nothing is written)\n");
        assert_eq!(said, wanted, "{dry:?}");
    }
}

#[test]
fn the_line_of_a_dry_run_is_as_documented() {
    let folder = folder();
    let said = folder.good(&["create", "a.img", "KIOSK", "--size", "1", "--dry-run"]);
    let wanted = "KIOSK: entered, length 1, reserved 2 (dry run: nothing is written)\n";
    assert_eq!(said, wanted);
}

#[test]
fn a_dry_script_prints_its_answers() {
    let folder = folder();
    folder.write("script", b"init\ncreate NEW\n");
    let before = folder.snapshot();
    let said = folder.good(&["run", "a.img", "script", "--dry-run"]);
    assert!(folder.snapshot() == before);
    let real = folder.good(&["run", "a.img", "script"]);
    assert!(folder.snapshot() != before);
    assert_eq!(said, real + "end (dry run: nothing is written)\n");
}

#[test]
fn a_dry_run_fails_as_the_command_would() {
    let folder = folder();
    folder.write("odd", b"no unit");
    for (status, arguments) in [
        (1, &["create", "a.img", "PASS"][..]),
        (1, &["rm", "a.img", "PASS", "NONE"]),
        (1, &["create", "a.img", "NEW", "--size", "100"]),
        (2, &["create", "a.img", "1"]),
        (2, &["change", "a.img", "PASS"]),
        (3, &["create", "none.img", "NEW"]),
        (3, &["put", "a.img", "NEW", "none"]),
        (4, &["create", "odd", "NEW"]),
    ] {
        let real = folder.bad(arguments, status, "");
        let dry = folder.bad(&[arguments, &["--dry-run"]].concat(), status, "");
        assert_eq!(real.err, dry.err);
    }
}

/// The file is written as far as it can be without taking another's place.
#[test]
fn a_dry_run_finds_that_there_is_no_room() {
    let folder = folder();
    let before = folder.snapshot();
    let mut shell = Command::new("sh");
    let script = "ulimit -f 1; exec \"$0\" create a.img NEW --dry-run";
    shell.arg("-c").arg(script).arg(TOOL);
    let shell = shell.current_dir(folder.path()).stdin(Stdio::null());
    let done: Done = shell.output().expect("sh runs").into();
    folder.judge(
        &["create"],
        &before,
        &done,
        3,
        "not written: File too large",
    );
}

#[test]
fn commands_that_only_read_have_no_dry_run() {
    let folder = folder();
    for arguments in [&["ls", "a.img"][..], &["check", "a.img"], &["map", "a.img"]] {
        let dry = [arguments, &["--dry-run"]].concat();
        folder.bad(&dry, 2, "there is no option --dry-run");
    }
}
