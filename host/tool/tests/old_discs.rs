//! Entry-only files: those of an old disc are shown and used, and no command makes one (02, R-9).

mod common;

use common::{sector, Folder};

/// NOTE as an old disc may have it: optional 1 to 3, bit 13, no length, index or slices, tail 4 to 9.
const NOTE: [u16; 16] = [
    0x4E4F, 0x5445, 0, 1, 2, 3, 0x0004, 0, 0, 0, 4, 5, 6, 7, 8, 9,
];

/// What the refusal of the attribute tells.
const WITHDRAWN: &str = "entry only is asked for (such files are no longer created)";

/// Document 01's small unit with NOTE in place 2 of sector 10, behind SYS and MAP.
fn old_disc() -> Folder {
    let folder = Folder::new();
    folder.small("a.img");
    let mut words = folder.words("a.img");
    words[256 * 10 + 32..][..16].copy_from_slice(&NOTE);
    let bytes: Vec<u8> = words.iter().flat_map(|word| word.to_be_bytes()).collect();
    folder.write("a.img", &bytes);
    folder
}

/// The words of place 2.
fn place(folder: &Folder) -> Vec<u16> {
    sector(&folder.words("a.img"), 10, 32, 16).to_vec()
}

/// NOTE with another name, or with other attributes, length, index and reserved length.
fn note(name: [u16; 2], middle: [u16; 4]) -> [u16; 16] {
    let mut entry = NOTE;
    entry[..2].copy_from_slice(&name);
    entry[6..10].copy_from_slice(&middle);
    entry
}

const NAME: [u16; 2] = [0x4E4F, 0x5445];

#[test]
fn an_entry_only_file_is_shown() {
    let folder = old_disc();
    let listed = folder.good(&["ls", "a.img"]);
    let line = "NOTE        0        0      0         0 entry only\n";
    assert!(listed.contains(line), "{listed}");
    let json = folder.good(&["ls", "a.img", "--json"]);
    assert!(json.contains("entry only"), "{json}");
    let shown = folder.good(&["show", "a.img", "NOTE"]);
    assert!(shown.contains("attributes  0004h: entry only\n"), "{shown}");
    let checked = folder.good(&["check", "a.img"]);
    assert!(checked.starts_with("a.img: sound\n"), "{checked}");
    // It has no slices to be drawn.
    let map = folder.good(&["map", "a.img"]);
    assert!(!map.contains("NOTE"), "{map}");
}

#[test]
fn an_entry_only_file_is_kept_and_renamed_and_removed() {
    let folder = old_disc();
    folder.good(&["change", "a.img", "NOTE", "--optional", "7,8,9"]);
    let mut changed = NOTE;
    changed[3..6].copy_from_slice(&[7, 8, 9]);
    assert_eq!(place(&folder), changed);
    folder.good(&["rename", "a.img", "NOTE", "MEMO"]);
    changed[..2].copy_from_slice(&[0x4D45, 0x4D4F]);
    assert_eq!(place(&folder), changed);
    folder.good(&["rm", "a.img", "MEMO"]);
    assert_eq!(place(&folder), [0; 16]);
}

#[test]
fn an_entry_only_file_gets_no_sectors() {
    let folder = old_disc();
    folder.write("host", b"some bytes");
    let reason = "an entry-only file would get slices";
    folder.bad(&["change", "a.img", "NOTE", "--size", "1"], 1, reason);
    folder.bad(&["put", "a.img", "NOTE", "host", "--replace"], 1, reason);
    folder.good(&["get", "a.img", "NOTE", "out"]);
    assert_eq!(folder.read("out"), [0; 0]);
}

#[test]
fn an_entry_only_file_is_made_ordinary() {
    let folder = old_disc();
    folder.good(&["change", "a.img", "NOTE", "--attributes", "none"]);
    assert_eq!(place(&folder), note(NAME, [0; 4]));
    folder.good(&["change", "a.img", "NOTE", "--size", "1"]);
    assert_eq!(place(&folder), note(NAME, [0, 1, 12, 2]));
    // With a length at once: P6's slices.
    let folder = old_disc();
    folder.good(&["change", "a.img", "NOTE", "--extendable", "--size", "2"]);
    assert_eq!(place(&folder), note(NAME, [1, 2, 12, 4]));
}

#[test]
fn no_command_makes_one() {
    let folder = old_disc();
    folder.good(&["create", "a.img", "PASS"]);
    for arguments in [
        ["create", "a.img", "NEW", "--attributes", "0004h"],
        ["set", "a.img", "NEW", "--attributes", "0014h"],
        ["change", "a.img", "NOTE", "--attributes", "0004h"],
        ["change", "a.img", "PASS", "--attributes", "4"],
    ] {
        let done = folder.bad(&arguments, 1, "refused with 1200h: ");
        assert!(done.err.contains(WITHDRAWN), "{done:?}");
    }
    // Neither by an option nor by name.
    folder.bad(
        &["create", "a.img", "NEW", "--entry-only"],
        2,
        "there is no option --entry-only",
    );
    let withdrawn = "entry-only files are no longer created";
    let named = ["create", "a.img", "NEW", "--attributes", "entry-only"];
    folder.bad(&named, 2, withdrawn);
    folder.write("script", b"init\ncreate NEW attributes=entry-only\n");
    folder.bad(&["run", "a.img", "script"], 2, withdrawn);
}

#[test]
fn a_script_is_answered_1200h() {
    let folder = old_disc();
    let script = "init\nexpect 1200h create NEW attributes=0004h\n\
                  expect 1200h change NOTE attributes=0004h\nchange NOTE\nlook-up NOTE\n";
    let done = folder.run_with(&["run", "a.img", "-"], script.as_bytes());
    assert_eq!(done.status, 0, "{done:?}");
    assert!(done.out.contains(WITHDRAWN), "{done:?}");
    // Change of a script has zeros for optional and tail.
    let last =
        "5 look-up NOTE: result=0000h bytes=0 block=0 entries=0 words=4E4Fh,5445h,0000h,0000h,\
                0000h,0000h,0004h,0000h,0000h,0000h,0000h,0000h,0000h,0000h,0000h,0000h\n";
    assert!(done.out.ends_with(last), "{done:?}");
}
