//! The commands on good input. What is expected is worked out on paper from document 01.

mod common;

use common::{sector, Folder, NUMBERS};

/// The words of 'PASS', 'SYS' and 'MAP' by hand.
const PASS: [u16; 3] = [0x5041, 0x5353, 0x0000];
const SYS: [u16; 3] = [0x5359, 0x5300, 0x0000];
const MAP: [u16; 3] = [0x4D41, 0x5000, 0x0000];

#[test]
fn format_writes_the_unit_of_p5() {
    let folder = Folder::new();
    folder.small("a.img");
    let words = folder.words("a.img");
    assert_eq!(words.len(), 256 * 20);
    assert_eq!(sector(&words, 6, 0, 4), [1, 2, 10, 0]);
    assert_eq!(sector(&words, 7, 0, 4), [1, 1, 9, 0]);
    assert_eq!(sector(&words, 8, 0, 8), [1, 2, 20, 8, 10, 20, 0, 0]);
    assert_eq!(sector(&words, 9, 0, 2), [0x7800, 0]);
    assert_eq!(sector(&words, 10, 0, 3), SYS);
    assert_eq!(sector(&words, 10, 6, 4), [0x8010, 1, 6, 2]);
    assert_eq!(sector(&words, 10, 16, 3), MAP);
    assert_eq!(sector(&words, 10, 22, 4), [0x8010, 1, 7, 1]);
}

#[test]
fn format_by_force_keeps_the_words_that_format_does_not_write() {
    let folder = Folder::new();
    folder.write("a.img", &[0xA5; 512 * 20]);
    let format = ["format", "a.img", "--words", "7,0x8", "--force"];
    folder.good(&[&format[..], &NUMBERS].concat());
    let words = folder.words("a.img");
    assert_eq!(sector(&words, 8, 0, 9), [1, 2, 20, 8, 10, 20, 7, 8, 0]);
    assert_eq!(sector(&words, 5, 255, 1), [0xA5A5]);
    assert_eq!(sector(&words, 11, 0, 1), [0xA5A5]);
    folder.good(&[&format[..], &NUMBERS, &["--new"]].concat());
    let words = folder.words("a.img");
    assert_eq!(sector(&words, 8, 0, 9), [1, 2, 20, 8, 10, 20, 7, 8, 0]);
    assert_eq!(sector(&words, 5, 255, 1), [0]);
    assert_eq!(sector(&words, 11, 0, 1), [0]);
}

#[test]
fn create_takes_the_slices_of_p6() {
    let folder = Folder::new();
    folder.small("a.img");
    folder.good(&["create", "a.img", "PASS", "--size", "2", "--extendable"]);
    let words = folder.words("a.img");
    assert_eq!(sector(&words, 9, 0, 1), [0x1800]);
    assert_eq!(sector(&words, 8, 3, 1), [4]);
    assert_eq!(sector(&words, 12, 0, 4), [1, 4, 12, 0]);
    assert_eq!(sector(&words, 10, 32, 3), PASS);
    assert_eq!(sector(&words, 10, 38, 4), [0x0001, 2, 12, 4]);
}

#[test]
fn the_sizes_of_the_paper_cases_are_refused_and_accepted() {
    let folder = Folder::new();
    folder.small("a.img");
    let size = |size| ["create", "a.img", "PASS", "--size", size];
    folder.bad(
        &size("8"),
        1,
        "create PASS: refused with 1100h: there are not enough free slices",
    );
    folder.good(&size("7"));
}

#[test]
fn set_enters_the_callers_own_words() {
    let folder = Folder::new();
    folder.small("a.img");
    folder.good(&[
        "set",
        "a.img",
        "PASS",
        "--size",
        "2",
        "--attributes",
        "4010h",
        "--optional",
        "1,2,3",
        "--tail",
        "10,11,12,13,14,0xF",
    ]);
    let words = folder.words("a.img");
    let entry = sector(&words, 10, 32, 16);
    let mut wanted = [
        PASS[0], PASS[1], 0, 1, 2, 3, 0x4010, 2, 12, 4, 10, 11, 12, 13, 14, 15,
    ];
    assert_eq!(entry, wanted);
    // A permanent file keeps its optional words and its tail.
    folder.good(&["change", "a.img", "PASS", "--write-protected"]);
    wanted[6] = 0x0008;
    assert_eq!(sector(&folder.words("a.img"), 10, 32, 16), wanted);
}

#[test]
fn change_keeps_what_is_not_given() {
    let folder = Folder::new();
    folder.small("a.img");
    folder.good(&[
        "set",
        "a.img",
        "PASS",
        "--size",
        "2",
        "--optional",
        "1,2,3",
        "--extendable",
    ]);
    folder.good(&["change", "a.img", "PASS", "--size", "4"]);
    let words = folder.words("a.img");
    let wanted = [
        PASS[0], PASS[1], 0, 1, 2, 3, 0x0001, 4, 12, 6, 0, 0, 0, 0, 0, 0,
    ];
    assert_eq!(sector(&words, 10, 32, 16), wanted);
    assert_eq!(sector(&words, 12, 0, 4), [1, 6, 12, 0]);
    folder.good(&[
        "change",
        "a.img",
        "PASS",
        "--name",
        "PAS2",
        "--attributes",
        "none",
    ]);
    let words = folder.words("a.img");
    let wanted = [0x5041, 0x5332, 0, 1, 2, 3, 0, 4, 12, 6, 0, 0, 0, 0, 0, 0];
    assert_eq!(sector(&words, 10, 32, 16), wanted);
}

#[test]
fn rename_and_rm_change_the_entry_and_the_map() {
    let folder = Folder::new();
    folder.small("a.img");
    let fresh = folder.words("a.img");
    folder.good(&["create", "a.img", "PASS", "--size", "2"]);
    folder.good(&["create", "a.img", "GATE"]);
    assert_eq!(
        folder.good(&["rename", "a.img", "PASS", "LIFT"]),
        "PASS: renamed to LIFT\n"
    );
    let words = folder.words("a.img");
    assert_eq!(sector(&words, 10, 32, 3), [0x4C49, 0x4654, 0]);
    assert_eq!(
        folder.good(&["rm", "a.img", "LIFT", "GATE"]),
        "LIFT: removed\nGATE: removed\n"
    );
    let words = folder.words("a.img");
    for kept in [6, 7, 8, 9, 10] {
        assert_eq!(
            sector(&words, kept, 0, 256),
            sector(&fresh, kept, 0, 256),
            "sector {kept}"
        );
    }
}

/// Document 02, R-8: each command has its own file of two whose names differ in case only.
#[test]
fn names_that_differ_in_case_only_are_two_files() {
    let folder = Folder::new();
    folder.small("a.img");
    folder.good(&["create", "a.img", "PASS", "--size", "2", "--extendable"]);
    folder.good(&["create", "a.img", "Pass"]);
    let words = folder.words("a.img");
    assert_eq!(sector(&words, 10, 32, 3), PASS);
    assert_eq!(sector(&words, 10, 48, 3), [0x5061, 0x7373, 0]);
    let wanted = "\
NAME   LENGTH RESERVED  INDEX STRETCHES ATTRIBUTES
MAP         1        1      7         0 catalog file, permanent
PASS        2        4     12         1 extendable
Pass        0        0      0         0 none
SYS         1        2      6         1 catalog file, permanent
4 entries; 2 of 5 slices free (4 sectors)
";
    assert_eq!(folder.good(&["ls", "a.img"]), wanted);
    folder.good(&["check", "a.img"]);
    let unknown = "look-up pass: refused with 5000h: pass does not stand in the catalog, PASS and \
                   Pass do";
    folder.bad(&["show", "a.img", "pass"], 1, unknown);
    let used = "create Pass: refused with 1010h: the name is used by another file";
    folder.bad(&["create", "a.img", "Pass"], 1, used);
    // A rename in case only: not to the other's name.
    let used = "refused with 1010h: the name is used by another file";
    folder.bad(&["rename", "a.img", "Pass", "PASS"], 1, used);
    let renamed = folder.good(&["rename", "a.img", "Pass", "pass"]);
    assert_eq!(renamed, "Pass: renamed to pass\n");
    folder.bad(
        &["rm", "a.img", "Pass"],
        1,
        "remove Pass: refused with 5000h",
    );
    // One of them is removed.
    assert_eq!(folder.good(&["rm", "a.img", "pass"]), "pass: removed\n");
    let shown = folder.good(&["show", "a.img", "PASS"]);
    assert!(shown.starts_with("name        PASS\n"), "{shown}");
}

#[test]
fn only_the_capital_ones_are_sys_and_map() {
    let folder = Folder::new();
    folder.small("a.img");
    for name in ["sys", "Map"] {
        folder.good(&["create", "a.img", name, "--size", "1"]);
        folder.good(&["change", "a.img", name, "--size", "0"]);
    }
    let names = folder.run_with(&["run", "a.img", "-"], b"init\nlist\n").out;
    assert!(names.ends_with(" names=MAP,Map,SYS,sys\n"), "{names}");
    folder.bad(&["rm", "a.img", "SYS"], 1, "remove SYS: refused with 1200h");
    let used = "refused with 1010h: the name is used by another file";
    folder.bad(&["rename", "a.img", "Map", "MAP"], 1, used);
    folder.good(&["rm", "a.img", "sys", "Map"]);
    folder.good(&["check", "a.img"]);
}

#[test]
fn rm_of_several_files_removes_all_or_none() {
    let folder = Folder::new();
    folder.small("a.img");
    folder.good(&["create", "a.img", "PASS", "--size", "2"]);
    folder.bad(
        &["rm", "a.img", "PASS", "GATE"],
        1,
        "remove GATE: refused with 5000h",
    );
}

#[test]
fn check_finds_a_sound_unit_sound() {
    let folder = Folder::new();
    folder.small("a.img");
    let out = folder.good(&["check", "a.img"]);
    assert_eq!(
        out,
        "a.img: sound\n  second implementation: sound\n  proved library:        sound\n"
    );
}

#[test]
fn ls_lists_by_name() {
    let folder = Folder::new();
    folder.small("a.img");
    folder.good(&[
        "create",
        "a.img",
        "PASS",
        "--size",
        "2",
        "--extendable",
        "--permanent",
    ]);
    folder.good(&["create", "a.img", "A1"]);
    let wanted = "\
NAME   LENGTH RESERVED  INDEX STRETCHES ATTRIBUTES
A1          0        0      0         0 none
MAP         1        1      7         0 catalog file, permanent
PASS        2        4     12         1 permanent, extendable
SYS         1        2      6         1 catalog file, permanent
4 entries; 2 of 5 slices free (4 sectors)
";
    assert_eq!(folder.good(&["ls", "a.img"]), wanted);
}

/// The tool sorts nothing: table, JSON and script have the order in which the library lists.
#[test]
fn every_list_of_files_comes_by_name() {
    let folder = Folder::new();
    folder.small("a.img");
    // With H = 1 the places are SYS, MAP and then these.
    for name in [
        "a", "Z", "SYS0", "N", "BA", "ABCD2", "ABCD1", "AZ", "Aa", "AA", "A9",
    ] {
        folder.good(&["create", "a.img", name]);
    }
    let wanted = [
        "A9", "AA", "ABCD1", "ABCD2", "AZ", "Aa", "BA", "MAP", "N", "SYS", "SYS0", "Z", "a",
    ];
    let table = folder.good(&["ls", "a.img"]);
    let rows = table.lines().skip(1).take(wanted.len());
    let names: Vec<&str> = rows.filter_map(|row| row.split(' ').next()).collect();
    assert_eq!(names, wanted);
    let json = folder.good(&["ls", "a.img", "--json"]);
    let names = json.split("\"name\": \"").skip(1);
    let names: Vec<&str> = names.filter_map(|rest| rest.split('"').next()).collect();
    assert_eq!(names, wanted);
    let done = folder.run_with(&["run", "a.img", "-"], b"init\nlist\n");
    let listed = format!(" entries=13 names={}\n", wanted.join(","));
    assert!(done.out.ends_with(&listed), "{done:?}");
}

#[test]
fn show_tells_all_of_an_entry() {
    let folder = Folder::new();
    folder.small("a.img");
    folder.good(&[
        "set",
        "a.img",
        "PASS",
        "--size",
        "2",
        "--extendable",
        "--optional",
        "1,2,0xA",
    ]);
    let wanted = "\
name        PASS
attributes  0001h: extendable
length      2 sectors (1024 bytes)
reserved    4 sectors
index       sector 12
key         0
optional    0001 0002 000A
tail        0000 0000 0000 0000 0000 0000
stretch 1   slices 2 to 3, sectors 12 to 15
";
    assert_eq!(folder.good(&["show", "a.img", "PASS"]), wanted);
    folder.bad(
        &["show", "a.img", "GATE"],
        1,
        "look-up GATE: refused with 5000h",
    );
}

#[test]
fn map_draws_the_slices_and_joins_stretches() {
    let folder = Folder::new();
    folder.small("a.img");
    folder.good(&["create", "a.img", "PASS", "--size", "1"]);
    folder.good(&["create", "a.img", "GATE", "--size", "1"]);
    folder.good(&["change", "a.img", "PASS", "--size", "3"]);
    let out = folder.good(&["map", "a.img"]);
    // SYS has slice 1; PASS 2 and then, GATE having 3, slice 4.
    assert!(out.contains("\n    1 #BAB.\n"), "{out}");
    assert!(out.contains("\n# SYS       1 in   1: 1\n"), "{out}");
    assert!(out.contains("\nA GATE      1 in   1: 3\n"), "{out}");
    assert!(out.contains("\nB PASS      2 in   2: 2 4\n"), "{out}");
    assert!(out.contains("\n. free      1 in   1: 5\n"), "{out}");
    assert!(!out.contains('\x1b'), "no colours in a pipe");
}

#[test]
fn every_command_has_a_help_page() {
    let folder = Folder::new();
    let overview = folder.good(&["help"]);
    assert_eq!(overview, folder.good(&["--help"]));
    for command in [
        "format", "sample", "check", "ls", "show", "map", "create", "set", "change", "rename",
        "rm", "put", "get", "run", "diff",
    ] {
        let page = folder.good(&[command, "--help"]);
        assert!(
            page.starts_with(&format!("Usage: ruzkemp {command} IMAGE")),
            "{page}"
        );
        assert_eq!(page, folder.good(&["help", command]));
        assert!(overview.contains(&format!("\n  {command} ")), "{command}");
    }
    assert!(folder.good(&["--version"]).starts_with("ruzkemp 0.1.0\n"));
}

#[test]
fn a_unit_may_have_another_number() {
    let folder = Folder::new();
    folder.small("a.img");
    folder.good(&["create", "a.img", "PASS", "--unit", "3"]);
    folder.good(&["show", "a.img", "PASS", "--unit=1"]);
}
