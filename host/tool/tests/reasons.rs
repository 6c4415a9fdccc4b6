//! A refusal is told with the one reason that held, by every command and in scripts.

mod common;

use common::Folder;

/// The small unit (five slices of two sectors) with PASS of two sectors, the permanent FIX and the
/// write-protected file WP; slices 4 and 5 are free.
fn small() -> Folder {
    let folder = Folder::new();
    folder.small("a.img");
    folder.good(&["create", "a.img", "PASS", "--size", "2"]);
    folder.good(&["create", "a.img", "FIX", "--permanent"]);
    folder.good(&["create", "a.img", "WP", "--write-protected"]);
    folder.write("host", &[7; 1_536]);
    folder
}

#[test]
fn a_command_tells_the_one_reason() {
    let folder = small();
    let permanent = "the file is permanent";
    let system = "the file is SYS or MAP, which are never changed or removed";
    for (arguments, wanted) in [
        (
            &["rm", "a.img", "FIX"][..],
            format!("remove FIX: refused with 1200h: {permanent}"),
        ),
        (
            &["rm", "a.img", "MAP"],
            format!("remove MAP: refused with 1200h: {system}"),
        ),
        (
            &["rename", "a.img", "FIX", "NEW"],
            format!("change FIX: refused with 1200h: {permanent} and its name would change"),
        ),
        (
            &["change", "a.img", "FIX", "--size", "1"],
            format!("change FIX: refused with 1200h: {permanent} and its length would change"),
        ),
        (
            &["show", "a.img", "pass"],
            "look-up pass: refused with 5000h: pass does not stand in the catalog, PASS does"
                .into(),
        ),
        (
            &["rm", "a.img", "GATE"],
            "remove GATE: refused with 5000h: the name does not stand in the catalog".into(),
        ),
        (
            &["rename", "a.img", "PASS", "FIX"],
            "change PASS: refused with 1010h: the name is used by another file".into(),
        ),
        // need(4) is 3.
        (
            &["create", "a.img", "NEW", "--size", "4"],
            "create NEW: refused with 1100h: there are not enough free slices: 3 are needed and 2 \
             are free"
                .into(),
        ),
        (
            &["set", "a.img", "NEW", "--attributes", "0002h"],
            "set NEW: refused with 1200h: the attributes are illegal: no file has bits 0002h"
                .into(),
        ),
        (
            &["get", "a.img", "Fix", "out"],
            "create-area Fix: refused with 4800h: Fix does not stand in the catalog, FIX does"
                .into(),
        ),
        (
            &["get", "a.img", "SYS", "out"],
            "create-area SYS: refused with 0A00h: the file is SYS or MAP".into(),
        ),
        (
            &["put", "a.img", "PASS", "host"],
            "create PASS (--replace replaces its words): refused with 1010h: the name is used by \
             another file"
                .into(),
        ),
        (
            &["put", "a.img", "WP", "host", "--replace"],
            "output WP: refused with 0C00h: the file is write protected".into(),
        ),
        (
            &["put", "a.img", "SYS", "host", "--replace"],
            "change SYS: refused with 1200h: SYS and MAP are never changed (the attributes that SYS \
             would keep, 8010h, are not those of a file)"
                .into(),
        ),
        (
            &["ls", "a.img", "--unit", "4"],
            "init of unit 4: refused with 1200h: the unit is not known: 4 is not 0 to 3".into(),
        ),
    ] {
        let done = folder.bad(arguments, 1, &wanted);
        assert_eq!(done.err, format!("ruzkemp: {wanted}\n"), "{arguments:?}");
    }
}

/// A host file that a fixed file has no room for: its slices are the reason, and not those of
/// others.
#[test]
fn put_in_place_of_a_fixed_file_tells_the_slices() {
    let folder = small();
    folder.write("large", &[7; 512 * 9]);
    // need(9) is 5; PASS has 2.
    let wanted =
        "ruzkemp: change PASS: refused with 1100h: there are not enough free slices: 3 more \
                  are needed and 2 are free\n";
    let done = folder.bad(&["put", "a.img", "PASS", "large", "--replace"], 1, wanted);
    assert_eq!(done.err, wanted);
}

#[test]
fn format_tells_the_one_reason() {
    let folder = small();
    let format = |sectors, keys, more: &[&'static str]| {
        let mut arguments = vec!["format", "a.img", "--sectors", sectors, "--first", "10"];
        arguments.extend(["--slice", "2", "--keys", keys, "--force"]);
        arguments.extend(more);
        arguments
    };
    let wanted =
        "format of unit 0 with N 20, F 10, s 2, H 0: refused with 1200h: H (--keys) has to be \
                  1 to 64 (legal: --keys 1)\n";
    folder.bad(&format("20", "0", &[]), 1, wanted);
    folder.bad(&format("20", "0", &["--new"]), 1, wanted);
    let wanted =
        "format of unit 0 with N 22, F 10, s 2, H 1: refused with 1200h: the file has 20 sectors, \
         and N is 22 (legal: --sectors 20)\n";
    folder.bad(&format("22", "1", &[]), 1, wanted);
    let wanted = "format of unit 4: refused with 1200h: the unit is not known: 4 is not 0 to 3\n";
    folder.bad(&format("20", "1", &["--unit", "4"]), 1, wanted);
}

#[test]
fn a_script_tells_the_one_reason() {
    let folder = small();
    let script = "\
create NEW
init
format keys=0 slice=2 sectors=20 first=10
create 1A
create-area PASS
init
remove PASS
sense PASS sender=5
reserve PASS sender=5 as=exclusive
reserve PASS sender=6
position PASS sender=5 block=8000h
position PASS sender=5 block=9
output PASS sender=5
describe bytes=31
other PASS sender=5 number=9
look-up PASS:1
";
    let arguments = ["run", "a.img", "-", "--keep-going", "--close"];
    let done = folder.run_with(&arguments, script.as_bytes());
    assert_eq!(done.status, 0, "{done:?}");
    let reasons: Vec<(&str, &str)> = done
        .out
        .lines()
        .filter_map(|line| Some((line.split(' ').next()?, line.split_once("  # ")?.1)))
        .collect();
    let wanted = [
        ("1", "the unit is not initialized"),
        ("3", "H is 0 and has to be 1 to 64"),
        (
            "4",
            "the name is illegal: it has to be a letter, then letters or digits",
        ),
        ("6", "an area process is open: PASS"),
        ("7", "the file has an area process"),
        ("8", "the sender is no user: 5"),
        ("10", "another user is exclusive user: 5"),
        ("11", "the position is negative"),
        ("12", "the position is past the length: 9 is above 2"),
        ("13", "the file ends there and is not extendable"),
        ("14", "the byte count is below 32: 31"),
        ("15", "the operation is unknown: 9"),
        ("16", "the unit is not known: this is unit 0, not 1"),
    ];
    assert_eq!(reasons, wanted);
    // A failure says the same.
    let done = folder.run_with(&["run", "a.img", "-"], b"init\nremove FIX\n");
    let wanted = "ruzkemp: line 2, remove FIX: refused with 1200h: the file is permanent\n";
    assert_eq!((done.status, done.err.as_str()), (1, wanted));
}

#[test]
fn a_script_on_an_unsound_image_is_told_the_rule() {
    let folder = small();
    let mut bytes = folder.read("a.img");
    // The top.
    bytes[512 * 8 + 11] = 21;
    folder.write("a.img", &bytes);
    let done = folder.run_with(&["run", "a.img", "-"], b"init\n");
    let wanted =
        "ruzkemp: line 1, init: refused with 9000h: the image is not a sound unit: rule 9: \
                  the top is 21, and N is 20\n";
    assert_eq!((done.status, done.err.as_str()), (1, wanted));
}
