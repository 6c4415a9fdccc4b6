//! `put` and `get`: a file's bytes into a unit and back.

mod common;

use std::fs;
use std::process::Stdio;
use std::thread;

use common::{numbers, sector, Folder, TOOL};

/// Bytes in which every block differs from every other.
fn bytes(number: usize) -> Vec<u8> {
    (0..number)
        .map(|place| (place * 31 + place / 512 * 7 + 1) as u8)
        .collect()
}

/// A unit with 63 slices of 8 sectors.
fn folder() -> Folder {
    let folder = Folder::new();
    let numbers = numbers(["514", "10", "8", "3"]);
    folder.good(&[&["format", "a.img"], &numbers[..]].concat());
    folder
}

#[test]
fn what_was_put_is_got() {
    let folder = folder();
    for number in [0, 1, 511, 512, 513, 3_583, 3_584, 3_585, 20_000] {
        let host = bytes(number);
        folder.write("host", &host);
        let blocks = number.div_ceil(512);
        let out = folder.good(&["put", "a.img", "FILE", "host", "--replace"]);
        assert_eq!(
            out,
            match number {
                1 => "FILE: 1 byte put into 1 block\n".into(),
                511 | 512 => format!("FILE: {number} bytes put into 1 block\n"),
                _ => format!("FILE: {number} bytes put into {blocks} blocks\n"),
            }
        );
        folder.good(&["check", "a.img"]);
        folder.good(&["get", "a.img", "FILE", "whole", "--force"]);
        let mut padded = host.clone();
        padded.resize(512 * blocks, 0);
        assert!(folder.read("whole") == padded, "{number} bytes");
        let count = number.to_string();
        folder.good(&["get", "a.img", "FILE", "part", "--force", "--bytes", &count]);
        assert!(folder.read("part") == host, "{number} bytes");
    }
}

#[test]
fn a_put_file_is_extendable_and_its_length_is_booked() {
    let folder = Folder::new();
    folder.small("a.img");
    folder.write("host", &bytes(1_025));
    folder.good(&["put", "a.img", "PASS", "host"]);
    let words = folder.words("a.img");
    // Three blocks and the index need two slices of two sectors: 2 and 3, sectors 12 to 15.
    assert_eq!(sector(&words, 10, 38, 4), [0x0001, 3, 12, 4]);
    assert_eq!(sector(&words, 12, 0, 4), [1, 4, 12, 0]);
    let host = bytes(1_025);
    let first = u16::from_be_bytes([host[0], host[1]]);
    assert_eq!(sector(&words, 13, 0, 1), [first]);
    // The high byte comes first, and the last block is filled up with zeros.
    assert_eq!(sector(&words, 15, 0, 2), [u16::from(host[1_024]) << 8, 0]);
}

#[test]
fn standard_input_and_output_serve_as_files() {
    let folder = folder();
    let host = bytes(2_000);
    let done = folder.run_with(&["put", "a.img", "FILE", "-"], &host);
    assert_eq!((done.status, done.err.as_str()), (0, ""));
    let get = ["get", "a.img", "FILE", "-", "--bytes", "2000"];
    let output = folder.command(&get).output().expect("the tool runs");
    assert!(output.status.success());
    assert!(output.stdout == host);
}

#[test]
fn a_file_that_is_entered_is_replaced_only_if_asked_for() {
    let folder = folder();
    folder.write("host", &bytes(1_000));
    folder.good(&["put", "a.img", "FILE", "host"]);
    let put = ["put", "a.img", "FILE", "host"];
    folder.bad(
        &put,
        1,
        "create FILE (--replace replaces its words): refused with 1010h",
    );
    folder.good(&["change", "a.img", "FILE", "--tail", "1,2,3,4,5,6"]);
    folder.write("host", &bytes(5_000));
    folder.good(&["put", "a.img", "FILE", "host", "--replace"]);
    let shown = folder.good(&["show", "a.img", "FILE"]);
    assert!(shown.contains("length      10 sectors"), "{shown}");
    assert!(
        shown.contains("tail        0001 0002 0003 0004 0005 0006"),
        "{shown}"
    );
}

/// Document 02, R-8.
#[test]
fn files_whose_names_differ_in_case_only_have_their_own_bytes() {
    let folder = folder();
    let (large, small) = (bytes(1_500), bytes(700));
    folder.write("large", &large);
    folder.write("small", &small);
    folder.good(&["put", "a.img", "PASS", "large"]);
    folder.good(&["put", "a.img", "Pass", "small"]);
    folder.good(&["put", "a.img", "sys", "small"]);
    folder.good(&["check", "a.img"]);
    let wanted = [
        ("PASS", "1500", &large),
        ("Pass", "700", &small),
        ("sys", "700", &small),
    ];
    for (name, count, host) in wanted {
        folder.good(&["get", "a.img", name, "out", "--bytes", count, "--force"]);
        assert!(folder.read("out") == *host, "{name}");
    }
    let unknown = "create-area pass: refused with 4800h: pass does not stand in the catalog";
    folder.bad(&["get", "a.img", "pass", "new"], 1, unknown);
    // What replaces one leaves the other.
    folder.good(&["put", "a.img", "Pass", "large", "--replace"]);
    folder.good(&["get", "a.img", "PASS", "again", "--bytes", "1500"]);
    assert!(folder.read("again") == large);
    folder.good(&["rm", "a.img", "PASS"]);
    folder.good(&["get", "a.img", "Pass", "last", "--bytes", "1500"]);
    assert!(folder.read("last") == large);
}

#[test]
fn a_file_of_fixed_length_is_replaced_where_the_length_is_known() {
    let folder = folder();
    folder.good(&["create", "a.img", "FIX", "--size", "9"]);
    let host = bytes(1_500);
    folder.write("host", &host);
    folder.good(&["put", "a.img", "FIX", "host", "--replace"]);
    let shown = folder.good(&["show", "a.img", "FIX"]);
    assert!(
        shown.contains("attributes  0000h: none\nlength      3 sectors"),
        "{shown}"
    );
    folder.good(&["get", "a.img", "FIX", "out", "--bytes", "1500"]);
    assert!(folder.read("out") == host);
    // Without --bytes every block up to the end is got.
    folder.good(&["get", "a.img", "FIX", "whole"]);
    let mut padded = host.clone();
    padded.resize(1_536, 0);
    assert!(folder.read("whole") == padded);
    let put = ["put", "a.img", "FIX", "-", "--replace"];
    folder.bad(
        &put,
        2,
        "FIX is not extendable: its new length has to be known first",
    );
}

#[test]
fn a_file_too_long_for_the_unit_changes_nothing() {
    let folder = folder();
    // 62 slices of 8 sectors are free: 495 blocks and the index.
    folder.write("host", &bytes(512 * 495 + 1));
    folder.bad(
        &["put", "a.img", "FILE", "host"],
        1,
        "output FILE: refused with 0900h: no slice is free",
    );
    folder.write("host", &bytes(512 * 495));
    folder.good(&["put", "a.img", "FILE", "host"]);
    folder.good(&["check", "a.img"]);
    folder.write("host", &bytes(512 * 496));
    folder.bad(
        &["put", "a.img", "FILE", "host", "--replace"],
        1,
        "refused with 0900h",
    );
    // An endless host file is read only as far as there is room.
    folder.bad(
        &["put", "a.img", "NEW", "/dev/zero"],
        1,
        "refused with 0900h",
    );
}

#[test]
fn a_protected_file_is_got_and_not_replaced() {
    let folder = folder();
    folder.write("host", &bytes(1_000));
    folder.good(&["put", "a.img", "FILE", "host"]);
    folder.good(&[
        "change",
        "a.img",
        "FILE",
        "--write-protected",
        "--extendable",
    ]);
    folder.good(&["get", "a.img", "FILE", "out"]);
    let put = ["put", "a.img", "FILE", "host", "--replace"];
    folder.bad(
        &put,
        1,
        "output FILE: refused with 0C00h: the file is write protected",
    );
    // Nothing is output of an empty host file, and it would take the words away all the same.
    folder.write("empty", &[]);
    for empty in ["empty", "-"] {
        let put = ["put", "a.img", "FILE", empty, "--replace"];
        folder.bad(&put, 2, "put FILE: the file is write protected");
    }
}

#[test]
fn host_files_that_cannot_be_read_are_told() {
    let folder = folder();
    folder.bad(
        &["put", "a.img", "FILE", "nosuch"],
        3,
        "nosuch: No such file",
    );
    folder.bad(&["put", "a.img", "FILE", "."], 3, ".: Is a directory");
}

#[test]
fn get_leaves_the_image_alone_and_shows_no_half_file() {
    let folder = folder();
    folder.write("host", &bytes(20_000));
    folder.good(&["put", "a.img", "FILE", "host"]);
    let image = folder.read("a.img");
    folder.good(&["get", "a.img", "FILE", "out"]);
    assert!(folder.read("a.img") == image);
    let before = folder.snapshot();
    let mut shell = std::process::Command::new("sh");
    let script = "ulimit -f 4; exec \"$0\" get a.img FILE out --force";
    shell
        .arg("-c")
        .arg(script)
        .arg(TOOL)
        .current_dir(folder.path());
    let done = shell.output().expect("sh runs").into();
    folder.judge(
        &["get"],
        &before,
        &done,
        3,
        "out: not written: File too large",
    );
}

#[test]
fn changes_at_the_same_time_are_all_kept() {
    let folder = folder();
    folder.write("host", &bytes(6_000));
    let names: Vec<String> = (0..12).map(|number| format!("F{number}")).collect();
    thread::scope(|scope| {
        for name in &names {
            let folder = &folder;
            scope.spawn(move || folder.good(&["put", "a.img", name, "host"]));
        }
    });
    folder.good(&["check", "a.img"]);
    for name in &names {
        folder.good(&["get", "a.img", name, name, "--bytes", "6000"]);
        assert!(folder.read(name) == bytes(6_000), "{name}");
    }
}

#[test]
fn a_killed_tool_leaves_the_image_as_it_was() {
    let folder = folder();
    folder.write("host", &bytes(1_000));
    folder.good(&["put", "a.img", "FILE", "host"]);
    let image = folder.read("a.img");
    let mut command = folder.command(&["put", "a.img", "NEW", "-"]);
    command.stdin(Stdio::piped()).stdout(Stdio::null());
    let mut child = command.spawn().expect("the tool runs");
    let mut stdin = child.stdin.take().expect("a pipe");
    std::io::Write::write_all(&mut stdin, &bytes(100_000)).expect("the tool reads");
    child.kill().expect("it runs still: its input is open");
    child.wait().expect("it ended");
    assert!(folder.read("a.img") == image);
    assert_eq!(fs::read_dir(folder.path()).expect("the folder").count(), 2);
}
