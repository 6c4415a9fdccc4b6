//! `check`: broken rules by number, with what is found and where; several images; JSON. What is
//! expected is worked out by hand from docs/RULES.md.

mod common;

use std::ffi::OsStr;
use std::os::unix::ffi::OsStrExt;
use std::process::Stdio;

use common::{Done, Folder};

/// The small unit (H = 1, s = 2, N = 20, F = 10) with PASS of two sectors: slices 2 and 3.
fn small() -> Folder {
    let folder = Folder::new();
    folder.small("a.img");
    folder.good(&["create", "a.img", "PASS", "--size", "2", "--extendable"]);
    folder
}

/// Writes words of a copy of `a.img`, each at a sector and a word.
fn hurt(folder: &Folder, name: &str, changes: &[(usize, usize, u16)]) {
    let mut bytes = folder.read("a.img");
    for &(sector, word, value) in changes {
        let byte = 512 * sector + 2 * word;
        bytes[byte..byte + 2].copy_from_slice(&value.to_be_bytes());
    }
    folder.write(name, &bytes);
}

#[test]
fn each_kind_of_rule_is_named_with_its_place() {
    let folder = small();
    // Word and value, the rule's number and text, what is found, sector and byte.
    for (changes, rule, found, at) in [
        (
            &[(8, 3, 5)][..],
            "10: the free sectors in the kit are s times the ones in the map",
            "the kit says 5 free sectors, the map has 2 free slices of 2 sectors: 4",
            "sector 8, byte 4102",
        ),
        (
            &[(9, 1, 1), (8, 3, 6)],
            "11: the bits of the map past the last slice are 0",
            "the bit of slice 32 is 1, and the last slice is 5",
            "sector 9, byte 4610",
        ),
        (
            &[(8, 0, 0)],
            "2: H, the sectors of one layer of SYS, is 1 to 64",
            "H is 0, and at least 1 is legal",
            "sector 8, byte 4096",
        ),
        (
            &[(6, 0, 128)],
            "12: an index block describes 1 to 127 stretches",
            "SYS: the index block in sector 6 says 128 stretches",
            "sector 6, byte 3072",
        ),
        (
            &[(7, 0, 2)],
            "24: the index block of MAP begins with the words 1, 1, 9",
            "word 0 of MAP's index block is 2 in place of 1",
            "sector 7, byte 3584",
        ),
        (
            &[(10, 41, 6)],
            "34: the reserved length of a file is s times its slices",
            "PASS (10:2): the reserved length is 6, and it has 2 slices of 2: 4",
            "sector 10, byte 5202",
        ),
        (
            &[(9, 0, 0x3800), (8, 3, 6)],
            "36: a slice that a file has is marked used in the map",
            "slice 3 (sectors 14 to 15) is marked free, and PASS has it",
            "sector 9, byte 4608",
        ),
    ] {
        hurt(&folder, "b.img", changes);
        let done = folder.bad(&["check", "b.img"], 4, "ruzkemp: b.img: not a sound unit\n");
        let wanted = format!(
            "b.img: not sound\n  rule {rule}\n    found: {found}\n    at: {at}\n  second \
             implementation: not sound\n  proved library:        not sound\n"
        );
        assert_eq!(done.out, wanted);
        let (number, _) = rule.split_once(':').expect("a number");
        let words = format!(
            "ruzkemp: b.img: not a sound unit: rule {number} (RULES.md): {found} (ruzkemp \
             check --all says more)\n"
        );
        folder.bad(&["ls", "b.img"], 4, &words);
    }
}

/// Four rules at once: GATE has PASS's slices and the top is another.
fn many(folder: &Folder) {
    let gate = [0x4741, 0x5445, 0, 0, 0, 0, 2, 2, 12, 4];
    let mut changes = vec![(8, 5, 19), (8, 3, 7)];
    for (word, value) in gate.into_iter().enumerate() {
        changes.push((10, 48 + word, value));
    }
    hurt(folder, "b.img", &changes);
}

#[test]
fn all_shows_every_broken_rule() {
    let folder = small();
    many(&folder);
    let done = folder.bad(&["check", "b.img"], 4, "not a sound unit");
    let wanted = "\
b.img: not sound
  rule 9: the top in the kit is N
    found: the top is 19, and N is 20
    at: sector 8, byte 4106
  and 3 more (--all shows them)
  second implementation: not sound
  proved library:        not sound
";
    assert_eq!(done.out, wanted);
    let done = folder.bad(&["check", "b.img", "--all"], 4, "not a sound unit");
    let wanted = "\
b.img: not sound
  rule 9: the top in the kit is N
    found: the top is 19, and N is 20
    at: sector 8, byte 4106
  rule 10: the free sectors in the kit are s times the ones in the map
    found: the kit says 7 free sectors, the map has 2 free slices of 2 sectors: 4
    at: sector 8, byte 4102
  rule 28: a file has no attribute bits but 1, 11, 12, 13 and 15, and not 13 with 15
    found: GATE (10:3): the attributes are 0002h: no file has bits 0002h
    at: sector 10, byte 5228
  rule 35: no slice is in two files or twice in one
    found: slices 2 to 3 (sectors 12 to 15) are in PASS, GATE
    at: sector 12, byte 6144
  second implementation: not sound
  proved library:        not sound
";
    assert_eq!(done.out, wanted);
    let sound = "a.img: sound\n  second implementation: sound\n  proved library:        sound\n";
    assert_eq!(folder.good(&["check", "a.img", "--all"]), sound);
}

#[test]
fn several_images_come_in_turn_and_the_worst_counts() {
    let folder = small();
    many(&folder);
    folder.write("odd.img", &[0; 700]);
    let sound = "a.img: sound\n  second implementation: sound\n  proved library:        sound\n";
    let out = folder.good(&["check", "a.img", "a.img"]);
    assert_eq!(out, [sound, sound].concat());
    let images = ["check", "none.img", "a.img", "b.img", "odd.img", "a.img"];
    let done = folder.bad(&images, 4, "ruzkemp: none.img: No such file");
    assert!(
        done.out.starts_with(&format!("{sound}b.img: not sound\n")),
        "{done:?}"
    );
    assert!(done.out.ends_with(sound), "{done:?}");
    for line in [
        "ruzkemp: b.img: not a sound unit\n",
        "ruzkemp: odd.img: not a sound unit\n",
    ] {
        assert!(done.err.contains(line), "{done:?}");
    }
    assert_eq!(done.err.lines().count(), 3, "{done:?}");
    folder.bad(&["check", "none.img", "a.img"], 3, "none.img: No such file");
    folder.bad(&["check"], 2, "it takes the operands IMAGE...");
}

#[test]
fn json_has_every_finding() {
    let folder = small();
    many(&folder);
    let done = folder.bad(
        &["check", "a.img", "b.img", "none.img", "--json"],
        4,
        "b.img: not",
    );
    let wanted = r#"[
  {"path": "a.img", "sound": true, "second_implementation": true, "proved_library": true, "findings": []},
  {"path": "b.img", "sound": false, "second_implementation": false, "proved_library": false, "findings": [
    {"rule": 9, "text": "the top in the kit is N", "found": "the top is 19, and N is 20", "expected": 20, "actual": 19, "sector": 8, "byte": 4106, "files": [], "file_count": 0, "first_slice": null, "slices": null},
    {"rule": 10, "text": "the free sectors in the kit are s times the ones in the map", "found": "the kit says 7 free sectors, the map has 2 free slices of 2 sectors: 4", "expected": 4, "actual": 7, "sector": 8, "byte": 4102, "files": [], "file_count": 0, "first_slice": null, "slices": null},
    {"rule": 28, "text": "a file has no attribute bits but 1, 11, 12, 13 and 15, and not 13 with 15", "found": "GATE (10:3): the attributes are 0002h: no file has bits 0002h", "expected": null, "actual": null, "sector": 10, "byte": 5228, "files": ["GATE"], "file_count": 1, "first_slice": null, "slices": null},
    {"rule": 35, "text": "no slice is in two files or twice in one", "found": "slices 2 to 3 (sectors 12 to 15) are in PASS, GATE", "expected": 1, "actual": 2, "sector": 12, "byte": 6144, "files": ["PASS", "GATE"], "file_count": 2, "first_slice": 2, "slices": 2}
  ]},
  {"path": "none.img", "error": "none.img: No such file or directory (os error 2)"}
]
"#;
    assert_eq!(done.out, wanted);
}

/// Sixteen files are named, and all are counted.
#[test]
fn json_counts_the_files_that_it_does_not_name() {
    let folder = small();
    // SYS has two blocks, and AA to AQ have PASS's index: 13 are behind PASS, four in sector 11.
    let mut changes = vec![(10, 7, 2)];
    for number in 0..17 {
        let (sector, place) = (10 + (number + 3) / 16, (number + 3) % 16);
        let entry = [0x4141 + number as u16, 0, 0, 0, 0, 0, 0, 2, 12, 4];
        for (word, value) in entry.into_iter().enumerate() {
            changes.push((sector, 16 * place + word, value));
        }
    }
    hurt(&folder, "b.img", &changes);
    let done = folder.bad(&["check", "b.img", "--json"], 4, "b.img: not");
    let wanted = "\"AO\"], \"file_count\": 18, \"first_slice\": 2, \"slices\": 2}\n";
    assert!(done.out.contains(wanted), "{done:?}");
    // Slices 4 and 5 are marked used.
    hurt(&folder, "b.img", &[(9, 0, 0), (8, 3, 0)]);
    let done = folder.bad(&["check", "b.img", "--json"], 4, "b.img: not");
    let wanted = "\"files\": [], \"file_count\": 0, \"first_slice\": 4, \"slices\": 2}\n";
    assert!(done.out.contains(wanted), "{done:?}");
    // Stretch 1 of PASS has three sectors.
    hurt(&folder, "b.img", &[(12, 1, 3)]);
    let done = folder.bad(&["check", "b.img", "--json"], 4, "b.img: not");
    let wanted = "and s is 2\", \"expected\": 2, \"actual\": 3, ";
    assert!(done.out.contains(wanted), "{done:?}");
}

/// An illegal name is shown as `ls --unsound` shows it, and its place is one that `show` takes.
#[test]
fn a_finding_about_an_entry_has_its_name_and_its_place() {
    let folder = small();
    hurt(&folder, "b.img", &[(10, 32, 1), (10, 33, 0x5000)]);
    let done = folder.bad(&["check", "b.img"], 4, "b.img: not");
    let found = "    found: %00%01P (10:2) is not a legal name\n";
    assert!(done.out.contains(found), "{done:?}");
    let listed = folder.run(&["ls", "b.img", "--unsound"]);
    assert!(listed.out.contains("%00%01P"), "{listed:?}");
    let shown = folder.run(&["show", "b.img", "10:2", "--unsound"]);
    assert!(shown.out.contains("name        %00%01P\n"), "{shown:?}");
}

/// Where SYS's index and length disagree, and where SYS is not found, nothing is invented.
#[test]
fn all_invents_no_entries() {
    let folder = Folder::new();
    folder.good(&["sample", "a.img"]);
    // Words of sector 6, and the rules that they break: slice 1 again, which is sectors 10 to 13;
    // and slice 2, in which PASS begins, alone.
    for (changes, wanted) in [
        (
            &[(6, 0, 2), (6, 3, 4), (6, 4, 10)][..],
            &["35", "20", "21"][..],
        ),
        (&[(6, 2, 14)], &["17"]),
    ] {
        hurt(&folder, "b.img", changes);
        let done = folder.bad(&["check", "b.img", "--all"], 4, "b.img: not");
        let rules = done.out.lines().filter_map(|line| {
            let rule = line.strip_prefix("  rule ")?;
            Some(rule.split_once(':')?.0)
        });
        assert_eq!(rules.collect::<Vec<&str>>(), wanted, "{done:?}");
    }
}

/// N is right, and F is not.
#[test]
fn rule_5_does_not_say_which_of_the_two_is_wrong() {
    let folder = small();
    hurt(&folder, "b.img", &[(8, 4, 20)]);
    let done = folder.bad(&["check", "b.img"], 4, "b.img: not");
    let found = "    found: N is 20 and has to be above F, 20\n";
    assert!(done.out.contains(found), "{done:?}");
}

#[test]
fn json_escapes_any_path() {
    let folder = small();
    let bytes = folder.read("a.img");
    let odd = OsStr::from_bytes(b"a\"b\\c\n\x1b\xff.img");
    std::fs::write(folder.path().join(odd), bytes).expect("written");
    let mut command = folder.command(&["check", "--json"]);
    let output = command.arg(odd).stdin(Stdio::null()).output();
    let done = Done::from(output.expect("the tool runs"));
    let path = r#"[
  {"path": "a\"b\\c\n\u001b"#;
    assert_eq!(done.status, 0, "{done:?}");
    assert!(
        done.out.starts_with(&format!("{path}\u{fffd}.img\", ")),
        "{done:?}"
    );
}

/// Nothing that a user reads cites a paper that users do not have.
#[test]
fn no_page_cites_the_papers() {
    let folder = Folder::new();
    let overview = folder.good(&["help"]);
    let commands = overview
        .lines()
        .skip_while(|line| *line != "Commands:")
        .skip(1);
    let names = commands.map_while(|line| line.split_whitespace().next());
    let pages = names
        .filter(|name| *name != "help")
        .map(|name| folder.good(&[name, "--help"]));
    let docs = concat!(env!("CARGO_MANIFEST_DIR"), "/../../docs/");
    let documents = ["TOOL.md", "RULES.md"].map(|name| {
        let document = std::fs::read_to_string(format!("{docs}{name}"));
        document.expect("the document")
    });
    for page in pages.chain(documents).chain([overview.clone()]) {
        assert!(!page.to_lowercase().contains("document 0"), "{page}");
    }
}
