//! `dump`: what each sector is, and its words. The expected lines are worked out from the sample
//! disc's script and the layout, as in `rescue.rs`.

mod common;

use common::Folder;

fn sample() -> Folder {
    let folder = Folder::new();
    folder.good(&["sample", "a.img"]);
    folder
}

/// The first line of a dump.
fn heading(folder: &Folder, sector: &str) -> String {
    let out = folder.good(&["dump", "a.img", sector]);
    out.lines().next().expect("a line").to_string()
}

/// Changes a word of `a.img`.
fn change(folder: &Folder, sector: usize, word: usize, value: u16) {
    let mut bytes = folder.read("a.img");
    let at = 512 * sector + 2 * word;
    bytes[at..at + 2].copy_from_slice(&value.to_be_bytes());
    folder.write("a.img", &bytes);
}

/// Sectors of the sample disc, their bytes and what they are. The last of PASS's slices, 41, begins at
/// sector 170, where its 48 blocks end.
const SECTORS: [(&str, &str); 13] = [
    ("0", "0, bytes 0 to 511: not used by the catalog"),
    ("5", "5, bytes 2560 to 3071: not used by the catalog"),
    ("6", "6, bytes 3072 to 3583: index block of SYS"),
    ("7", "7, bytes 3584 to 4095: index block of MAP"),
    (
        "8",
        "8, bytes 4096 to 4607: the kit: H 3, s 4, N 250, free 92, F 10, top 250",
    ),
    (
        "9",
        "9, bytes 4608 to 5119: the map: 23 of 60 slices marked free",
    ),
    (
        "11",
        "11, bytes 5632 to 6143: slice 1, block 1 of SYS: key 1, layer 0",
    ),
    ("13", "13, bytes 6656 to 7167: slice 1, slack of SYS"),
    (
        "0Eh",
        "14, bytes 7168 to 7679: slice 2, index block of PASS",
    ),
    ("15", "15, bytes 7680 to 8191: slice 2, block 0 of PASS"),
    (
        "170",
        "170, bytes 87040 to 87551: slice 41, block 47 of PASS",
    ),
    ("171", "171, bytes 87552 to 88063: slice 41, slack of PASS"),
    ("249", "249, bytes 127488 to 127999: slice 60, free"),
];

#[test]
fn every_kind_of_sector_is_named() {
    let folder = sample();
    for (sector, wanted) in SECTORS {
        assert_eq!(heading(&folder, sector), format!("sector {wanted}"));
    }
}

#[test]
fn words_and_characters_stand_side_by_side() {
    let folder = sample();
    // Block 1 of PRICE: fourteen characters, then zeros.
    let wanted = "\
sector 120, bytes 61440 to 61951: slice 28, block 1 of PRICE
    0    61440  4348 494C 4452 454E 2048 414C 460A 0000  CHILDREN HALF...
    8    61456  0000 0000 0000 0000 0000 0000 0000 0000  ................
*
";
    assert_eq!(folder.good(&["dump", "a.img", "120"]), wanted);
}

#[test]
fn index_blocks_and_entries_are_decoded() {
    let folder = sample();
    let out = folder.good(&["dump", "a.img", "14"]);
    let pairs = "\
  count 4
  pair 1: 20 sectors from 14 on
  pair 2: 24 sectors from 86 on
  pair 3: 4 sectors from 122 on
  pair 4: 4 sectors from 170 on
    0     7168  0004 0014 000E 0018 0056 0004 007A 0004  .........V...z..
    8     7184  00AA 0000 ";
    assert!(out.contains(pairs), "{out}");
    let out = folder.good(&["dump", "a.img", "12-12"]);
    let entries = "\
  place 0: PASS, attributes 0001h, length 48, index 14, reserved 52
  place 1: TILL2, attributes 0001h, length 7, index 46, reserved 8
  place 2: GATE1, attributes 0000h, length 15, index 54, reserved 16
  place 4: PRICE, attributes 0018h, length 3, index 118, reserved 4
    0     6144  5041 5353 ";
    assert!(out.contains(entries), "{out}");
    let out = folder.good(&["dump", "a.img", "7"]);
    assert!(
        out.contains("\n  count 1\n  pair 1: 1 sector from 9 on\n"),
        "{out}"
    );
}

#[test]
fn a_stretch_of_sectors_is_dumped_one_after_the_other() {
    let folder = sample();
    let alone: Vec<String> = (6..10)
        .map(|sector| folder.good(&["dump", "a.img", &sector.to_string()]))
        .collect();
    assert_eq!(folder.good(&["dump", "a.img", "6-9"]), alone.join("\n"));
}

#[test]
fn wrong_sectors_are_refused() {
    let folder = sample();
    let outside = "sector 250 is outside: the image has the sectors 0 to 249";
    folder.bad(&["dump", "a.img", "250"], 2, outside);
    folder.bad(&["dump", "a.img", "0-250"], 2, outside);
    folder.bad(
        &["dump", "a.img", "9-8"],
        2,
        "9-8: the last sector is before the first",
    );
    folder.bad(&["dump", "a.img", "x"], 2, "'x' is no number");
    folder.bad(&["dump", "a.img", "-"], 2, "'' is no number");
    folder.bad(&["dump", "a.img"], 2, "it takes the operands IMAGE SECTOR");
    folder.bad(&["dump", "none", "1"], 3, "none: ");
    // Of 700 bytes the whole sector is dumped, of 100 nothing.
    folder.write("odd", &[0; 700]);
    let out = folder.good(&["dump", "odd", "0"]);
    assert!(out.starts_with("sector 0, bytes 0 to 511: "), "{out}");
    folder.bad(
        &["dump", "odd", "1"],
        2,
        "sector 1 is outside: the image has the sector 0 only",
    );
    folder.write("odd", &[0; 100]);
    folder.bad(&["dump", "odd", "0"], 2, "the image has no whole sector");
}

#[test]
fn damaged_discs_are_dumped() {
    let folder = sample();
    // LOG's second slice becomes PASS's slice 20, and slice 19 is nobody's; slice 12 is marked free.
    change(&folder, 110, 4, 86);
    change(&folder, 9, 0, 0x0010);
    for (sector, wanted) in [
        ("86", ": slice 20, block 19 of PASS and block 3 of LOG"),
        ("82", ": slice 19, marked used, claimed by no file"),
        ("54", ": slice 12, index block of GATE1, marked free"),
    ] {
        let said = heading(&folder, sector);
        assert!(said.ends_with(wanted), "{said}");
    }
    // Without the kit slices have no numbers; the numbers can be given.
    for word in 0..6 {
        change(&folder, 8, word, 0);
    }
    let said = heading(&folder, "8");
    assert!(
        said.ends_with(": the kit: H 0, s 0, N 0, free 0, F 0, top 0"),
        "{said}"
    );
    let said = heading(&folder, "15");
    assert_eq!(said, "sector 15, bytes 7680 to 8191: block 0 of PASS");
    let said = heading(&folder, "249");
    assert_eq!(
        said,
        "sector 249, bytes 127488 to 127999: claimed by no file"
    );
    let numbers = ["--keys", "3", "--slice", "4", "--first", "10"];
    let out = folder.good(&[&["dump", "a.img", "15"][..], &numbers].concat());
    let wanted = "sector 15, bytes 7680 to 8191: slice 2, block 0 of PASS\n";
    assert!(out.starts_with(wanted), "{out}");
    // Without SYS's index its sectors are told by their looks.
    change(&folder, 6, 0, 128);
    let out = folder.good(&["dump", "a.img", "6"]);
    assert!(out.contains("\n  count 128, not 1 to 127\n"), "{out}");
    let said = heading(&folder, "12");
    assert_eq!(said, "sector 12, bytes 6144 to 6655: of SYS by its looks");
    // Any number of sectors.
    let bytes = folder.read("a.img");
    folder.write("a.img", &bytes[..512]);
    let said = heading(&folder, "0");
    assert_eq!(said, "sector 0, bytes 0 to 511: not used by the catalog");
}
