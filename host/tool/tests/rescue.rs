//! `--unsound`: what can be read of damaged discs, with what is doubtful about it. The damage is done
//! by hand to the sample disc (H 3, s 4, N 250, F 10), and the lines that are expected are worked out
//! from where its files lie:
//!
//! PASS 12:0, 48 blocks, slices 2-6 20-25 29 41; TILL2 12:1, 7, 10-11; GATE1 12:2, 15, 12-15;
//! PRICE 12:4, 3, 28; TILL1 11:0, 31, 7-9 30-34; LOG 11:1, 7, 26 19; NOTE 11:2; RENT 11:3, 11, 27
//! 35-36; SKI 10:2, 11, 16-18; SYS 10:0, slice 1; MAP 10:1.

mod common;

use std::fs;
use std::io::Read;
use std::net::Shutdown;
use std::os::fd::OwnedFd;
use std::os::unix::fs::symlink;
use std::os::unix::net::UnixStream;
use std::process::Stdio;
use std::time::{Duration, Instant};

use common::{Done, Folder};
use reference::generate::{aged, damage};
use reference::random::Random;

/// The sector in which slice `k` begins.
fn slice(k: usize) -> usize {
    10 + 4 * (k - 1)
}

/// The word of an entry in the catalog.
fn entry(sector: usize, place: usize, word: usize) -> (usize, usize) {
    (sector, 16 * place + word)
}

/// The sample disc as `good.img`, and with words changed as `a.img`.
fn damaged(changes: &[((usize, usize), u16)]) -> Folder {
    let folder = Folder::new();
    folder.good(&["sample", "good.img"]);
    let mut bytes = folder.read("good.img");
    for ((sector, word), value) in changes {
        let at = 512 * sector + 2 * word;
        bytes[at..at + 2].copy_from_slice(&value.to_be_bytes());
    }
    folder.write("a.img", &bytes);
    folder
}

/// Runs a command that only reads: it succeeds, and `a.img` is as it was.
fn read(folder: &Folder, arguments: &[&str]) -> String {
    let before = folder.read("a.img");
    let out = folder.good(arguments);
    assert!(folder.read("a.img") == before, "{arguments:?}");
    out
}

/// The doubts that `ls --unsound` tells, those of a file with its name before them.
fn doubts(listing: &str) -> Vec<String> {
    let mut name = String::new();
    let mut found = Vec::new();
    let mut inside = false;
    for line in listing.lines() {
        match (line.strip_prefix("  doubtful: "), inside) {
            (Some(doubt), true) => found.push(format!("{name}: {doubt}")),
            (Some(doubt), false) => found.push(doubt.to_string()),
            (None, _) if line.starts_with("NAME ") => inside = true,
            (None, _) => name = line.split(' ').next().expect("a name").to_string(),
        }
    }
    found
}

/// Damages the sample disc; `ls --unsound` tells exactly these doubts.
fn told(changes: &[((usize, usize), u16)], wanted: &[&str]) -> Folder {
    let folder = damaged(changes);
    let out = read(&folder, &["ls", "a.img", "--unsound"]);
    let first = "a.img: read without guarantee: not a sound unit\n";
    assert!(out.starts_with(first), "{out}");
    assert_eq!(doubts(&out), wanted);
    folder
}

/// Runs a `get` that has doubts: status 4, and `a.img` is as it was.
fn doubtful(folder: &Folder, arguments: &[&str]) -> Done {
    let before = folder.read("a.img");
    let done = folder.run(arguments);
    assert_eq!(done.status, 4, "{done:?}");
    let told = done.err.lines().all(|line| line.starts_with("ruzkemp: "));
    assert!(told, "{done:?}");
    assert!(folder.read("a.img") == before, "{arguments:?}");
    done
}

const FILES: [&str; 9] = [
    "GATE1", "LOG", "NOTE", "PASS", "PRICE", "RENT", "SKI", "TILL1", "TILL2",
];

/// All files of the sample disc are in a folder as they were.
fn all_there(folder: &Folder, out: &str) {
    for name in FILES {
        let got = folder.read(&format!("{out}/{name}"));
        assert!(got == original(folder, name), "{name}");
    }
}

/// The bytes of a file of the disc that is not damaged.
fn original(folder: &Folder, name: &str) -> Vec<u8> {
    folder.good(&["get", "good.img", name, "original", "--force"]);
    folder.read("original")
}

#[test]
fn a_sound_disc_is_read_without_a_doubt() {
    let folder = damaged(&[]);
    let out = read(&folder, &["ls", "a.img", "--unsound"]);
    let mut lines = out.lines();
    let heading = "a.img: read without guarantee: the unit is sound, nothing is doubtful";
    assert_eq!(lines.next(), Some(heading));
    let last = "11 entries, 0 doubtful; 23 of 60 slices marked free";
    assert_eq!(lines.next_back(), Some(last));
    // The same files as ls has, in the same order, with the place of the entry besides.
    let sound = folder.good(&["ls", "a.img"]);
    let without = |line: &str| {
        let words: Vec<&str> = line.split_whitespace().collect();
        [&words[..5], &words[6..]].concat().join(" ")
    };
    let shown: Vec<String> = lines.map(without).collect();
    let wanted = sound.lines().map(|line| {
        let words: Vec<&str> = line.split_whitespace().collect();
        words.join(" ")
    });
    let wanted: Vec<String> = wanted.take(12).collect();
    assert_eq!(shown, wanted);
    assert!(out.contains(" 12:0 extendable\n"), "{out}");
    let given = ["--keys", "3", "--slice", "4", "--first", "10"];
    let line = [&["ls", "a.img", "--unsound"][..], &given].concat();
    assert_eq!(read(&folder, &line), out);
    for name in FILES {
        let line = ["get", "a.img", name, "out", "--force", "--unsound"];
        read(&folder, &line);
        assert!(folder.read("out") == original(&folder, name), "{name}");
    }
}

/// What `show` prints of PASS. Entry 0 of sector 12 is at byte 12 * 512. PASS has 48 blocks; its first
/// sector is the index block, so that pair 1 of 20 sectors has the blocks 0 to 18.
const PASS: &str = "\
a.img: read without guarantee: the unit is sound, nothing is doubtful
name        PASS
entry       sector 12, place 0, bytes 6144 to 6175
words       5041 5353 0000 0000 0000 0000 0001 0030
            000E 0034 0000 0000 0000 0000 0000 0000
attributes  0001h: extendable
length      48 sectors (24576 bytes)
reserved    52 sectors
index       sector 14
key         2
optional    0000 0000 0000
tail        0000 0000 0000 0000 0000 0000
pair 1      slices 2 to 6, sectors 14 to 33, blocks 0 to 18
pair 2      slices 20 to 25, sectors 86 to 109, blocks 19 to 42
pair 3      slice 29, sectors 122 to 125, blocks 43 to 46
pair 4      slice 41, sectors 170 to 173, block 47
doubtful    nothing
";

#[test]
fn an_entry_is_shown_with_its_place_and_pairs() {
    let folder = damaged(&[]);
    assert_eq!(read(&folder, &["show", "a.img", "PASS", "--unsound"]), PASS);
    assert_eq!(read(&folder, &["show", "a.img", "12:0", "--unsound"]), PASS);
    // A place of no sector of SYS is shown all the same.
    let out = read(&folder, &["show", "a.img", "119:0", "--unsound"]);
    assert!(out.contains("name        DAY%20PA\n"), "{out}");
    let doubt = "doubtful    sector 119 is not read as one of SYS's\n";
    assert!(out.contains(doubt), "{out}");
    folder.bad(
        &["show", "a.img", "NONE", "--unsound"],
        1,
        "no entry NONE is found",
    );
    folder.bad(
        &["show", "a.img", "250:0", "--unsound"],
        1,
        "no entry 250:0 is found",
    );
    folder.bad(
        &["show", "a.img", "12:16", "--unsound"],
        1,
        "no entry 12:16 is found",
    );
    folder.bad(
        &["show", "a.img", "12:x", "--unsound"],
        2,
        "'x' is no number",
    );
}

#[test]
fn a_damaged_kit_is_told_and_given_numbers_are_used() {
    let kit = |word| (8, word);
    told(&[(kit(0), 0)], &["the kit's H is 0, not 1 to 64"]);
    told(
        &[(kit(1), 65)],
        &[
            "the kit's s is 65, not 2 to 64",
            "s is not known: files without an entry are not looked for (--slice)",
        ],
    );
    told(&[(kit(5), 249)], &["the kit's top is 249, N is 250"]);
    told(
        &[(kit(3), 96)],
        &["the kit's free sectors are 96, the map's 92"],
    );
    let folder = told(
        &[(kit(0), 0), (kit(1), 0), (kit(4), 3)],
        &[
            "the kit's H is 0, not 1 to 64",
            "the kit's s is 0, not 2 to 64",
            "the kit's F is 3, not 10 to 32766",
            "s and F are not known: files without an entry are not looked for (--slice, --first)",
        ],
    );
    let fit = "s and F are not known: these numbers fit: --keys 3 --slice 4";
    folder.bad(&["map", "a.img", "--unsound"], 4, fit);
    let given = ["--keys", "3", "--slice", "4", "--first", "10"];
    let line = [&["ls", "a.img", "--unsound"][..], &given].concat();
    let out = read(&folder, &line);
    let wanted = [
        "the kit's H is 0, 3 is given",
        "the kit's s is 0, 4 is given",
        "the kit's F is 3, 10 is given",
    ];
    assert_eq!(doubts(&out), wanted);
    let line = [&["map", "a.img", "--unsound"][..], &given].concat();
    let drawn = "#CCCCCGGGHHAAAAFFFBCCCCCCBEDCGGGGGEE....C...................";
    assert!(read(&folder, &line).contains(drawn));
    // Wrong numbers make files doubtful: no slice of 5 begins where PASS's pairs do, from 10 on.
    let wrong = ["--keys", "3", "--slice", "5", "--first", "10"];
    let line = [&["show", "a.img", "PASS", "--unsound"][..], &wrong].concat();
    let out = read(&folder, &line);
    let doubt = "block 0 on: pair 1 begins at sector 14, where no slice begins\n";
    assert!(out.contains(doubt), "{out}");
}

#[test]
fn a_wrong_first_sector_hides_no_file() {
    let folder = damaged(&[((8, 4), 202)]);
    let out = read(&folder, &["ls", "a.img", "--unsound"]);
    assert!(
        out.contains("  these numbers fit: --keys 3 --slice 4 --first 10\n"),
        "{out}"
    );
    let doubt = "SKI: the index sector 70 is outside: the first slice begins at 202";
    assert!(doubts(&out).contains(&doubt.to_string()), "{out}");
    doubtful(&folder, &["get", "a.img", "SKI", "out", "--unsound"]);
    assert!(folder.read("out") == original(&folder, "SKI"));
}

#[test]
fn without_its_index_sys_is_found_by_its_looks() {
    let folder = told(
        &[((6, 0), 0)],
        &[
            "SYS: the index block in sector 6 has the count 0, not 1 to 127",
            "SYS: its sectors are told by their looks, from sector 10 on",
        ],
    );
    // SYS's first sector by its index is not F's: slice 2, in which PASS lies.
    told(
        &[((6, 2), 14)],
        &[
            "SYS: it begins at sector 14, not at F, 10",
            "SYS: its sectors are told by their looks, from sector 10 on",
        ],
    );
    // The files are without a doubt, and the unit is not.
    let done = doubtful(&folder, &["get", "a.img", "--all", "out", "--unsound"]);
    let last = "the unit is doubtful, though none of 9 files is: what could be read is written\n";
    assert!(done.err.ends_with(last), "{done:?}");
    all_there(&folder, "out");
}

#[test]
fn a_sector_that_sys_has_twice_is_listed_once() {
    // A second pair like the first: 4 sectors from 10 on. SYS is entered with 3 and 4 sectors.
    let folder = told(
        &[((6, 0), 2), ((6, 3), 4), ((6, 4), 10)],
        &[
            "SYS: its length is 3, and its index gives 8 sectors in slices of 4; its sectors are \
             told by their looks",
            "SYS: beyond the length: slice 1 comes twice in it",
            "SYS: word 9 is 0004h, not 0008h",
        ],
    );
    let out = read(&folder, &["ls", "a.img", "--unsound"]);
    let last = "\n11 entries, 1 doubtful; 23 of 60 slices marked free\n";
    assert!(out.ends_with(last), "{out}");
}

#[test]
fn an_illegal_name_is_told_and_found_by_its_place() {
    // PA, 0, S: 5041h + 0053h is 20628, which 3 divides.
    let folder = told(
        &[(entry(12, 0, 1), 0x0053)],
        &[
            "PA%00S: the name 5041h 0053h 0000h is not legal",
            "PA%00S: it stands in a sector of key 2, its name has key 0",
        ],
    );
    folder.bad(
        &["get", "a.img", "PASS", "out", "--unsound"],
        1,
        "no entry PASS",
    );
    let done = doubtful(&folder, &["get", "a.img", "12:0", "out", "--unsound"]);
    let lines: Vec<&str> = done.err.lines().collect();
    assert_eq!(lines.len(), 3, "{done:?}");
    assert_eq!(
        lines[0],
        "ruzkemp: PA%00S: the name 5041h 0053h 0000h is not legal"
    );
    assert_eq!(
        lines[2],
        "ruzkemp: PA%00S: 2 doubts: what could be read is written"
    );
    let wanted = "PA%00S: 24576 bytes written to out, read without guarantee\n";
    assert_eq!(done.out, wanted);
    assert!(folder.read("out") == original(&folder, "PASS"));
}

/// The map when slice 20 is of PASS and LOG, and slice 19, which LOG had, of none.
const SHARED: &str = "\
a.img: read without guarantee: not a sound unit
  doubtful: slice 19 is marked used, and no file has it

    1 #CCCCCGGGHHAAAAFFF?!CCCCCBEDCGGGGGEE....C...................

# SYS       1
A GATE1     4
B LOG       1
C PASS     12
D PRICE     1
E RENT      3
F SKI       3
G TILL1     8
H TILL2     2
.          23 marked free, claimed by none
!           1 claimed by several: 20
?           1 marked used, claimed by none: 19
*           0 marked free, yet claimed
";

#[test]
fn a_slice_of_two_files_is_told_of_both() {
    // LOG's second pair moves from slice 19 to slice 20, where PASS's second pair begins: LOG's pair
    // begins at place 4 of its sectors, block 3; PASS's at place 20, block 19.
    let folder = told(
        &[((slice(26), 4), slice(20) as u16)],
        &[
            "slice 19 is marked used, and no file has it",
            "LOG: block 3 on: slice 20 is claimed by PASS too",
            "PASS: block 19 on: slice 20 is claimed by LOG too",
        ],
    );
    let out = read(&folder, &["map", "a.img", "--unsound"]);
    assert_eq!(out, SHARED);
    // The other files are got without a doubt; the two are written, with status 4.
    read(&folder, &["get", "a.img", "SKI", "ski", "--unsound"]);
    assert!(folder.read("ski") == original(&folder, "SKI"));
    let done = doubtful(&folder, &["get", "a.img", "LOG", "log", "--unsound"]);
    let first = "ruzkemp: LOG: block 3 on: slice 20 is claimed by PASS too\n";
    assert!(done.err.starts_with(first), "{done:?}");
    let got = folder.read("log");
    let good = original(&folder, "LOG");
    assert!(got.len() == 7 * 512 && got[..3 * 512] == good[..3 * 512]);
    let pass = original(&folder, "PASS");
    assert!(got[3 * 512..] == pass[19 * 512..23 * 512]);
}

#[test]
fn an_index_sector_outside_is_told() {
    let folder = told(
        &[(entry(12, 1, 8), 300)],
        &[
            "slices 10 to 11 are marked used, and no file has them",
            "@46 is an index block of 8 sectors that no entry names",
            "TILL2: the index sector 300 is outside: there are 250 sectors",
            "TILL2: length 7, but slices for 0 only",
            "TILL2: reserved 8, but slices of 0 sectors in all",
            "TILL2: blocks 0 to 6 cannot be read",
            "TILL2: @46 may be its index block: it has 8 sectors too",
        ],
    );
    let done = doubtful(&folder, &["get", "a.img", "TILL2", "out", "--unsound"]);
    let last = "\nruzkemp: TILL2: no block can be read: nothing is written\n";
    assert!(done.out.is_empty() && done.err.ends_with(last), "{done:?}");
    assert!(!folder.file("out").exists());
    let done = doubtful(&folder, &["get", "a.img", "--all", "all", "--unsound"]);
    assert!(done
        .out
        .contains("\nTILL2: not written, no block can be read; doubtful: the index"));
    assert_eq!(
        done.err,
        "ruzkemp: 2 of 10 files are doubtful: what could be read is written\n"
    );
    assert!(!folder.file("all/TILL2").exists());
    // In front of the first slice, and where no slice begins.
    told(
        &[(entry(12, 4, 8), 9)],
        &[
            "slice 28 is marked used, and no file has it",
            "@118 is an index block of 4 sectors that no entry names",
            "PRICE: the index sector 9 is outside: the first slice begins at 10",
            "PRICE: length 3, but slices for 0 only",
            "PRICE: reserved 4, but slices of 0 sectors in all",
            "PRICE: blocks 0 to 2 cannot be read",
            "PRICE: @118 may be its index block: it has 4 sectors too",
        ],
    );
}

#[test]
fn a_length_that_is_too_long_is_told() {
    // GATE1 has 16 sectors, the first of them its index block.
    let folder = told(
        &[(entry(12, 2, 7), 40)],
        &[
            "GATE1: length 40, but slices for 15 only",
            "GATE1: blocks 15 to 39 cannot be read",
        ],
    );
    doubtful(&folder, &["get", "a.img", "GATE1", "out", "--unsound"]);
    let mut wanted = original(&folder, "GATE1");
    wanted.resize(40 * 512, 0);
    assert!(folder.read("out") == wanted);
    // More than the image has: the host file ends with the last block that can be read.
    let folder = told(
        &[(entry(12, 2, 7), 0xFFFF)],
        &[
            "GATE1: the length 65535 is past 32767",
            "GATE1: length 65535, but slices for 15 only",
            "GATE1: blocks 15 to 65534 cannot be read",
        ],
    );
    doubtful(&folder, &["get", "a.img", "GATE1", "out", "--unsound"]);
    assert!(folder.read("out") == original(&folder, "GATE1"));
}

#[test]
fn blocks_in_the_middle_that_cannot_be_read_are_zeros() {
    // PASS's second pair, blocks 19 to 42, begins past the image.
    let folder = told(
        &[((slice(2), 4), 400)],
        &[
            "slices 20 to 25 are marked used, and no file has them",
            "PASS: block 19 on: pair 2 begins at sector 400, where no slice begins",
            "PASS: blocks 19 to 42 cannot be read",
        ],
    );
    doubtful(&folder, &["get", "a.img", "PASS", "out", "--unsound"]);
    let mut wanted = original(&folder, "PASS");
    wanted[19 * 512..43 * 512].fill(0);
    assert!(folder.read("out") == wanted);
    let line = ["get", "a.img", "PASS", "-", "--unsound", "--bytes", "0x16"];
    let done = doubtful(&folder, &line);
    assert_eq!(done.out, "0001 SEASON ANNA HOLM\n");
}

#[test]
fn damaged_pairs_are_told() {
    // Pair 1 of SKI, which has one: its length, its start, the count.
    told(
        &[((slice(16), 1), 7)],
        &[
            "slice 18 is marked used, and no file has it",
            "SKI: block 0 on: pair 1 has length 7, no multiple of 4",
            "SKI: length 11, but slices for 6 only",
            "SKI: reserved 12, but slices of 7 sectors in all",
            "SKI: blocks 6 to 10 cannot be read",
        ],
    );
    let folder = told(
        &[((slice(16), 2), 14)],
        &["SKI: block 0 on: pair 1 begins at sector 14, not at the index sector, from which it is read"],
    );
    doubtful(&folder, &["get", "a.img", "SKI", "out", "--unsound"]);
    assert!(folder.read("out") == original(&folder, "SKI"));
    told(
        &[((slice(16), 1), 60_000)],
        &[
            "slices 17 to 18 are marked used, and no file has them",
            "SKI: block 0 on: pair 1 has 60000 sectors, more than there are: it and those behind it \
             are not followed",
            "SKI: block 0 on: only the slice that begins at the index sector is read",
            "SKI: length 11, but slices for 3 only",
            "SKI: reserved 12, but slices of 4 sectors in all",
            "SKI: blocks 3 to 10 cannot be read",
        ],
    );
    // LOG's second pair is its first again: slice 26, at place 4 of its sectors.
    told(
        &[((slice(26), 4), slice(26) as u16)],
        &[
            "slice 19 is marked used, and no file has it",
            "LOG: block 3 on: slice 26 comes twice in it",
        ],
    );
}

#[test]
fn a_damaged_map_is_told() {
    // Slices 12 and 60: bit 11 of word 0 and bit 11 of word 3 (slice 60 is 48 + 11 + 1).
    let folder = told(
        &[((9, 0), 0x0010), ((9, 3), 0xFFE0)],
        &[
            "slice 60 is marked used, and no file has it",
            "GATE1: block 0 on: slice 12 is marked free",
        ],
    );
    let out = read(&folder, &["map", "a.img", "--unsound"]);
    assert!(out.contains("    1 #CCCCCGGGHH*AAAFFFBCC"), "{out}");
    assert!(
        out.contains("\n*           1 marked free, yet claimed: 12\n"),
        "{out}"
    );
    assert!(
        out.contains("\n?           1 marked used, claimed by none: 60\n"),
        "{out}"
    );
}

/// PASS's entry once more in place 3 of its sector, which is unused.
fn with_two_of_a_name() -> Folder {
    let words = [0x5041, 0x5353, 0, 0, 0, 0, 1, 48, 14, 52];
    let changes = words.iter().enumerate();
    let changes: Vec<((usize, usize), u16)> = changes
        .map(|(word, &value)| (entry(12, 3, word), value))
        .collect();
    damaged(&changes)
}

#[test]
fn two_entries_of_a_name_are_told_apart() {
    let folder = with_two_of_a_name();
    let out = read(&folder, &["ls", "a.img", "--unsound"]);
    let said = doubts(&out);
    assert_eq!(said.len(), 10, "{out}");
    assert_eq!(said[0], "PASS: the name stands in 12:3 too");
    assert_eq!(
        said[1],
        "PASS: block 0 on: slices 2 to 6 are claimed by PASS in 12:3 too"
    );
    assert_eq!(said[5], "PASS: the name stands in 12:0 too");
    let shown = read(&folder, &["show", "a.img", "PASS", "--unsound"]);
    assert!(
        shown.contains("\nentry       sector 12, place 0, "),
        "{shown}"
    );
    assert!(
        shown.contains("\nentry       sector 12, place 3, "),
        "{shown}"
    );
    doubtful(&folder, &["get", "a.img", "--all", "out", "--unsound"]);
    let pass = original(&folder, "PASS");
    assert!(folder.read("out/PASS") == pass && folder.read("out/PASS.2") == pass);
}

/// The names of what is in a folder.
fn names(folder: &Folder, path: &str) -> Vec<String> {
    let found = fs::read_dir(folder.file(path)).expect("a folder");
    let found = found.map(|file| file.expect("an entry of the folder").file_name());
    let mut names: Vec<String> = found
        .map(|name| name.into_string().expect("UTF-8"))
        .collect();
    names.sort();
    names
}

#[test]
fn all_files_go_into_the_folder_and_nowhere_else() {
    // A name ../X and one of zeros: the words 2E2Eh 2F58h 0, and none at all.
    let folder = damaged(&[
        (entry(12, 0, 0), 0x2E2E),
        (entry(12, 0, 1), 0x2F58),
        (entry(11, 1, 0), 0),
        (entry(11, 1, 1), 0),
    ]);
    let before = folder.snapshot();
    fs::create_dir(folder.file("new")).expect("a folder");
    doubtful(&folder, &["get", "a.img", "--all", "new/out", "--unsound"]);
    let wanted = [
        "%00",
        "%2E%2E%2FX",
        "GATE1",
        "NOTE",
        "PRICE",
        "RENT",
        "SKI",
        "TILL1",
        "TILL2",
    ];
    assert_eq!(names(&folder, "new/out"), wanted);
    assert_eq!(names(&folder, "new"), ["out"]);
    fs::remove_dir_all(folder.file("new")).expect("removed");
    assert!(folder.snapshot() == before);
}

#[test]
fn files_of_the_host_are_kept() {
    let folder = damaged(&[(entry(12, 2, 7), 40)]);
    fs::create_dir(folder.file("out")).expect("a folder");
    folder.write("out/SKI", b"older");
    let line = ["get", "a.img", "--all", "out", "--unsound"];
    folder.bad(
        &line,
        3,
        "out/SKI: the file exists already (--force replaces it)",
    );
    assert_eq!(names(&folder, "out"), ["SKI"]);
    let forced = [&line[..], &["--force"]].concat();
    doubtful(&folder, &forced);
    assert!(folder.read("out/SKI") == original(&folder, "SKI"));
    // A folder in the place of a file is refused before the first file is written.
    fs::create_dir_all(folder.file("dir/TILL2")).expect("a folder");
    let line = ["get", "a.img", "--all", "dir", "--unsound", "--force"];
    folder.bad(&line, 3, "dir/TILL2: this is no regular file");
    assert_eq!(names(&folder, "dir"), ["TILL2"]);
    // A link is not followed, though it is to be replaced by force.
    fs::remove_file(folder.file("out/SKI")).expect("removed");
    folder.write("elsewhere", b"kept");
    symlink(folder.file("elsewhere"), folder.file("out/SKI")).expect("a link");
    folder.bad(&forced, 3, "out/SKI: this is a link, which is not followed");
    folder.bad(
        &["get", "a.img", "SKI", "elsewhere", "--unsound"],
        3,
        "exists already",
    );
    folder.write("file", b"no folder");
    folder.bad(&["get", "a.img", "--all", "file", "--unsound"], 3, "file: ");
}

#[test]
fn the_image_is_not_written_over_under_whatever_name() {
    let folder = damaged(&[(entry(12, 2, 7), 40)]);
    fs::create_dir(folder.file("out")).expect("a folder");
    fs::hard_link(folder.file("a.img"), folder.file("out/SKI")).expect("linked");
    for (line, words) in [
        (
            ["get", "a.img", "--all", "out"],
            "out/SKI is the image itself",
        ),
        (
            ["get", "a.img", "SKI", "a.img"],
            "a.img is the image itself",
        ),
    ] {
        let forced = [&line[..], &["--unsound", "--force"]].concat();
        folder.bad(&forced, 2, words);
    }
}

/// Options that do not go together, or without `--unsound`.
const OPTIONS: [(&str, &str); 6] = [
    ("ls a.img --unsound --json", "--json is not for --unsound"),
    ("map a.img --unsound --svg x", "--svg is not for --unsound"),
    ("ls a.img --keys 3", "--keys is for --unsound only"),
    ("get a.img SKI x --slice 4", "--slice is for --unsound only"),
    ("ls a.img --unsound --keys 65", "--keys: 65 is not 1 to 64"),
    (
        "ls a.img --unsound --first 9",
        "--first: 9 is not 10 to 32766",
    ),
];

/// Operands of `get` that are wrong.
const OPERANDS: [(&str, &str); 6] = [
    (
        "get a.img SKI --unsound",
        "it takes the operands IMAGE NAME HOSTFILE",
    ),
    ("get a.img", "it takes NAME HOSTFILE, or NAME... --into DIR"),
    (
        "get a.img SKI x --into y --unsound",
        "--into is not for --unsound",
    ),
    (
        "get a.img SKI --all x --unsound",
        "with --all it takes the operand IMAGE",
    ),
    (
        "get a.img --all x --unsound --bytes 3",
        "--bytes is not for --unsound",
    ),
    (
        "get a.img SKI x --unsound --bytes 6000",
        "SKI has only 5632",
    ),
];

#[test]
fn what_does_not_go_together_is_refused() {
    let folder = damaged(&[]);
    for (line, words) in OPTIONS.iter().chain(&OPERANDS) {
        let arguments: Vec<&str> = line.split(' ').collect();
        folder.bad(&arguments, 2, words);
    }
}

#[test]
fn a_disc_that_is_cut_gives_what_is_left() {
    let folder = damaged(&[]);
    // Sectors 0 to 99: of PASS's second pair, blocks 19 on from sector 86, 14 are left.
    let bytes = folder.read("good.img");
    folder.write("a.img", &bytes[..100 * 512]);
    let out = read(&folder, &["show", "a.img", "PASS", "--unsound"]);
    let unit = "  doubtful: the kit's N is 250, the image has 100 sectors\n";
    assert!(out.contains(unit), "{out}");
    let wanted = "\
doubtful    block 19 on: pair 2 is cut: sector 99 is the last one of the file
doubtful    block 43 on: pair 3, sectors 122 to 125, lies past the end of the file
doubtful    block 47 on: pair 4, sectors 170 to 173, lies past the end of the file
doubtful    blocks 33 to 47 cannot be read
";
    assert!(out.ends_with(wanted), "{out}");
    doubtful(&folder, &["get", "a.img", "PASS", "out", "--unsound"]);
    let mut wanted = original(&folder, "PASS");
    wanted[33 * 512..].fill(0);
    assert!(folder.read("out") == wanted);
    // The slices are still those of the kit: 23 of 60 are free, as on the whole disc.
    let out = read(&folder, &["ls", "a.img", "--unsound"]);
    assert!(out.ends_with("; 23 of 60 slices marked free\n"), "{out}");
    for untrue in ["no slice begins", "past the last slice", "whole number"] {
        assert!(!out.contains(untrue), "{out}");
    }
    // One sector, and nine: no catalog.
    for (sectors, words) in [(1, "1 sector"), (9, "9 sectors")] {
        folder.write("a.img", &bytes[..sectors * 512]);
        let out = read(&folder, &["ls", "a.img", "--unsound"]);
        let no_map = format!("the image has {words} and so no map, which is sector 9\n");
        assert!(out.contains(&no_map), "{out}");
        assert!(out.ends_with("\n0 entries, 0 doubtful\n"), "{out}");
    }
}

#[test]
fn far_more_than_the_image_is_not_written() {
    // Each of the 16 places of sector 11 and of sector 12 has an entry A00 to A31 that claims PASS's
    // index block, with as many blocks as the image has sectors less one.
    let mut changes = Vec::new();
    for number in 0..32 {
        let (sector, place) = (11 + number / 16, number % 16);
        let digits = 0x3030 + (number / 10 * 256 + number % 10) as u16;
        let (first, second) = (0x4100 + (digits >> 8), digits << 8);
        let words = [first, second, 0, 0, 0, 0, 1, 249, 14, 52];
        let words = words.into_iter().enumerate();
        changes.extend(words.map(|(word, value)| (entry(sector, place, word), value)));
    }
    let folder = damaged(&changes);
    let line = ["get", "a.img", "--all", "out", "--unsound"];
    // 32 files of 249 blocks, SKI's 11, and those of the files that lost their entries: TILL1's 31,
    // LOG's 7, RENT's 11, TILL2's 7, GATE1's 15 and PRICE's 3.
    let words = "the files have 8053 blocks in all, and the image 250 sectors: get them one by one";
    folder.bad(&line, 4, words);
    assert!(!folder.file("out").exists());
    doubtful(&folder, &["get", "a.img", "A07", "out", "--unsound"]);
    assert_eq!(folder.read("out").len(), 249 * 512);
}

/// A disc (H 1, s 2, F 10) with a SYS of so many sectors, and so many entries of files besides its
/// own. Their index block, in the last slice, has 127 pairs that are all faulty.
fn full_of_entries(sys: u16, files: usize, length: u16) -> Vec<u16> {
    let n = 10 + sys + 2;
    let mut words = vec![0; 256 * usize::from(n)];
    words[8 * 256..][..6].copy_from_slice(&[1, 2, n, 0, 10, n]);
    words[7 * 256..][..3].copy_from_slice(&[1, 1, 9]);
    words[6 * 256..][..3].copy_from_slice(&[1, sys, 10]);
    let pairs = (0..127).flat_map(|pair| [1, 11 + pair]);
    let index: Vec<u16> = [127].into_iter().chain(pairs).collect();
    words[256 * usize::from(n - 2)..][..255].copy_from_slice(&index);
    let own = [
        [0x5359, 0x5300, 0, 0, 0, 0, 0x8010, sys, 6, sys],
        [0x4D41, 0x5000, 0, 0, 0, 0, 0x8010, 1, 7, 1],
    ];
    let other = |number: usize| {
        let letter = |place: u32| 65 + (number / 26usize.pow(place) % 26) as u16;
        let name = [letter(0) << 8 | letter(1), letter(2) << 8 | letter(3)];
        [name[0], name[1], 0, 0, 0, 0, 1, length, n - 2, 0]
    };
    let entries = own.into_iter().chain((0..files).map(other));
    for (entry, place) in entries.zip(words[10 * 256..].chunks_exact_mut(16)) {
        place[..10].copy_from_slice(&entry);
    }
    words
}

fn write_words(folder: &Folder, words: &[u16]) {
    let bytes: Vec<u8> = words.iter().flat_map(|word| word.to_be_bytes()).collect();
    folder.write("a.img", &bytes);
}

/// Files without blocks take no room on the disc but their entries, and yet a host file each. Here
/// the folder cannot be made, so that none is written where so many are allowed either.
#[test]
fn more_than_4096_files_are_not_written() {
    let folder = Folder::new();
    let line = ["get", "a.img", "--all", "no/out", "--unsound"];
    write_words(&folder, &full_of_entries(258, 4_097, 0));
    let words = "a.img: there are 4097 files, more than 4096: get them one by one";
    folder.bad(&line, 4, words);
    write_words(&folder, &full_of_entries(258, 4_096, 0));
    folder.bad(&line, 3, "no/out: no folder can be made");
}

/// What is judged of 64000 files together would take twice as much room as there is.
#[test]
fn very_many_files_are_refused_in_little_room() {
    let folder = Folder::new();
    write_words(&folder, &full_of_entries(4_010, 64_000, 100));
    let line = ["get", "a.img", "--all", "out", "--unsound"];
    let done = folder.limited("-v 150000", &line);
    assert_eq!(done.status, 4, "{done:?}");
    let told = "a.img: there are 64000 files, more than 4096: get them one by one\n";
    assert!(done.err.ends_with(told), "{done:?}");
}

/// Two files of a slice each, A in slice 2 and B in slice 3 (H 1, s 4, N 250, F 10), that also share
/// so many stretches of one slice: every other slice from 10 on. Nothing else is wrong.
fn sharing(stretches: usize) -> Folder {
    let folder = Folder::new();
    let unit = ["format", "a.img", "--sectors", "250", "--first", "10"];
    folder.good(&[&unit[..], &["--slice", "4", "--keys", "1"]].concat());
    folder.good(&["create", "a.img", "A", "--size", "3"]);
    folder.good(&["create", "a.img", "B", "--size", "3"]);
    let mut words = folder.words("a.img");
    let shared: Vec<usize> = (0..stretches).map(|number| 10 + 2 * number).collect();
    for (place, index) in [(2, slice(2)), (3, slice(3))] {
        let pairs = shared.iter().flat_map(|&k| [4, slice(k) as u16]);
        let pairs: Vec<u16> = pairs.collect();
        words[256 * index] = 1 + stretches as u16;
        words[256 * index + 3..][..pairs.len()].copy_from_slice(&pairs);
        let total = 4 * (1 + stretches as u16);
        words[256 * 10 + 16 * place + 7] = total - 1;
        words[256 * 10 + 16 * place + 9] = total;
    }
    mark_used(&mut words, &shared);
    write_words(&folder, &words);
    folder
}

/// Marks slices of 4 sectors used in the map, and counts their sectors as no longer free.
fn mark_used(words: &mut [u16], slices: &[usize]) {
    for k in slices {
        words[256 * 9 + (k - 1) / 16] &= !(0x8000 >> ((k - 1) % 16));
        words[256 * 8 + 3] -= 4;
    }
}

/// More than eight stretches of a kind are told as such, and eight are all told.
#[test]
fn that_there_is_more_is_told_only_if_there_is() {
    for (stretches, more) in [(8, false), (9, true)] {
        let folder = sharing(stretches);
        let shown = read(&folder, &["show", "a.img", "A", "--unsound"]);
        let told = shown
            .lines()
            .filter_map(|line| line.strip_prefix("doubtful    "));
        // Block 3 is the first of slice 10: the index block and blocks 0 to 2 are in slice 2.
        let shared = (0..8).map(|number| {
            let (block, slice) = (3 + 4 * number, 10 + 2 * number);
            format!("block {block} on: slice {slice} is claimed by B too")
        });
        let more = more.then(|| "there is more of this kind, which is not listed".to_string());
        let wanted: Vec<String> = shared.chain(more).collect();
        assert_eq!(told.collect::<Vec<_>>(), wanted);
    }
}

/// Damages a disc: some words anywhere or in the catalog, or whole sectors.
fn hurt(random: &mut Random, words: &mut [u16]) {
    let sectors = words.len() / 256;
    for _ in 0..random.between(1, 12) {
        let first = random
            .pick(&[0, 6, 6, 8, 8, 10, 10, 14, 54])
            .min(sectors - 1);
        let last = (first + random.pick(&[1, 3, 40])).min(sectors) - 1;
        let at = 256 * random.between(first, last.max(first)) + random.below(256);
        words[at] = match random.below(5) {
            0 => random.word(),
            1 => random.below(260) as u16,
            2 => words[at].wrapping_add(random.between(1, 4) as u16),
            3 => 0xFFFF,
            _ => 0,
        };
    }
    if random.chance(15) {
        let sector = random.below(sectors);
        random.fill(&mut words[256 * sector..256 * (sector + 1)]);
    }
}

/// Runs the commands of rescue on `a.img`: each ends soon with a status of the table, and leaves the
/// image as it was.
fn survives(folder: &Folder, random: &mut Random) {
    let before = folder.read("a.img");
    let last = (before.len() / 512 - 1).to_string();
    let whole = format!("0-{last}");
    let place = format!("{}:{}", random.between(5, 20), random.below(16));
    let mut numbers = Vec::new();
    if random.chance(30) {
        numbers = vec!["--keys", "3", "--slice", "4", "--first", "10"];
    }
    for line in [
        &["ls", "a.img", "--unsound"][..],
        &["map", "a.img", "--unsound"],
        &["show", "a.img", "PASS", "--unsound"],
        &["show", "a.img", &place, "--unsound"],
        &["get", "a.img", &place, "one", "--unsound", "--force"],
        &["get", "a.img", "--all", "out", "--unsound"],
        &["dump", "a.img", &whole],
    ] {
        let line = [line, &numbers].concat();
        // Each file that is written waits twice for the host's disc.
        let most = if line[0] == "get" { 120 } else { 20 };
        let begun = Instant::now();
        let done = folder.run(&line);
        assert!([0, 1, 4].contains(&done.status), "{line:?}: {done:?}");
        assert!(begun.elapsed() < Duration::from_secs(most), "{line:?}");
        assert!(folder.read("a.img") == before, "{line:?}");
    }
    let _ = fs::remove_dir_all(folder.file("out"));
}

#[test]
fn random_damage_is_survived() {
    let folder = damaged(&[]);
    let random = &mut Random::new(805);
    let sample = folder.words("good.img");
    for round in 0..60 {
        let mut words = match round % 3 {
            0 => {
                let mut unit = aged(random);
                damage(random, &mut unit);
                unit.image
            }
            _ => sample.clone(),
        };
        words.truncate(words.len() / 256 * 256);
        if random.chance(15) {
            words.truncate(256 * random.between(1, words.len() / 256));
        }
        if words.is_empty() {
            continue;
        }
        hurt(random, &mut words);
        let bytes: Vec<u8> = words.iter().flat_map(|word| word.to_be_bytes()).collect();
        folder.write("a.img", &bytes);
        survives(&folder, random);
    }
}

#[test]
fn a_lost_file_is_found_by_its_index_block() {
    // The sector of SYS with the entries of key 2 is lost: PASS, TILL2, GATE1, PRICE.
    let folder = damaged(&[]);
    let mut bytes = folder.read("good.img");
    bytes[12 * 512..13 * 512].fill(0);
    folder.write("a.img", &bytes);
    let out = read(&folder, &["ls", "a.img", "--unsound"]);
    // Their slices and, sector by sector, their index blocks.
    let wanted = [
        "slices 2 to 6 are marked used, and no file has them",
        "slices 10 to 15 are marked used, and no file has them",
        "slices 20 to 25 are marked used, and no file has them",
        "slices 28 to 29 are marked used, and no file has them",
        "slice 41 is marked used, and no file has it",
        "@14 is an index block of 52 sectors that no entry names",
        "@46 is an index block of 8 sectors that no entry names",
        "@54 is an index block of 16 sectors that no entry names",
        "@118 is an index block of 4 sectors that no entry names",
    ];
    assert_eq!(doubts(&out), wanted);
    // PASS has 48 blocks in 52 sectors: without its entry it has 51.
    let done = doubtful(&folder, &["get", "a.img", "@14", "out", "--unsound"]);
    let line = "@14: 26112 bytes written to out, read without guarantee\n";
    assert_eq!(done.out, line);
    let pass = original(&folder, "PASS");
    assert!(folder.read("out")[..48 * 512] == pass);
    doubtful(&folder, &["get", "a.img", "--all", "all", "--unsound"]);
    for (name, index) in [("TILL2", "@46"), ("GATE1", "@54"), ("PRICE", "@118")] {
        let got = folder.read(&format!("all/{index}"));
        assert!(got == original(&folder, name), "{name}");
    }
    let words = "no index block can be followed in sector 13";
    folder.bad(&["get", "a.img", "@13", "x", "--unsound"], 1, words);
    folder.bad(
        &["get", "a.img", "@400", "x", "--unsound"],
        1,
        "in sector 400",
    );
    folder.bad(
        &["get", "a.img", "@", "x", "--unsound"],
        2,
        "'' is no number",
    );
}

#[test]
fn numbers_that_fit_are_named_where_the_kit_is_lost() {
    let changes: Vec<((usize, usize), u16)> = (0..6).map(|word| ((8, word), 0)).collect();
    let folder = damaged(&changes);
    let fit = "\n  these numbers fit: --keys 3 --slice 4 --first 10\n";
    for command in ["ls", "show"] {
        let line = [
            &[command, "a.img"][..],
            &["PASS"][..usize::from(command == "show")],
        ]
        .concat();
        let out = read(&folder, &[&line[..], &["--unsound"]].concat());
        assert!(out.contains(fit), "{out}");
    }
    // With one of them the others are named still; with all there is nothing to name.
    let out = read(&folder, &["ls", "a.img", "--unsound", "--slice", "4"]);
    assert!(out.contains(fit), "{out}");
    let given = ["--keys", "3", "--slice", "4", "--first", "10"];
    let out = read(
        &folder,
        &[&["ls", "a.img", "--unsound"][..], &given].concat(),
    );
    assert!(!out.contains("fit"), "{out}");
}

/// Runs the tool with a standard output that takes nothing.
fn into_full(folder: &Folder, arguments: &[&str]) -> Done {
    let full = fs::OpenOptions::new().write(true).open("/dev/full");
    let mut command = folder.command(arguments);
    command.stdout(full.expect("/dev/full is there"));
    command.output().expect("the tool runs").into()
}

#[test]
fn what_cannot_be_printed_does_not_change_the_status_of_a_file_that_is_written() {
    let folder = damaged(&[]);
    let done = into_full(&folder, &["get", "a.img", "SKI", "out", "--unsound"]);
    assert_eq!(done.status, 0, "{done:?}");
    assert!(done.err.starts_with("ruzkemp: "), "{done:?}");
    assert!(folder.read("out") == original(&folder, "SKI"));
    // The heading comes before the first file.
    let done = into_full(&folder, &["get", "a.img", "--all", "all", "--unsound"]);
    assert_eq!(done.status, 3, "{done:?}");
    assert!(!folder.file("all").exists());
}

#[test]
fn a_wrong_number_of_sectors_hides_no_file() {
    // N alone: 20 sectors are not whole slices from 10 on. Slices are counted by the image.
    let folder = told(
        &[((8, 2), 20)],
        &[
            "the kit's N is 20, the image has 250 sectors",
            "the kit's top is 250, N is 20",
        ],
    );
    doubtful(&folder, &["get", "a.img", "--all", "out", "--unsound"]);
    all_there(&folder, "out");
    // N and top: a kit within its limits of 3 slices, 22 sectors. PASS's index sector is 14, GATE1's
    // 54; both are read, past the unit or not.
    let folder = damaged(&[((8, 2), 22), ((8, 5), 22)]);
    let out = read(&folder, &["show", "a.img", "GATE1", "--unsound"]);
    let doubt = "doubtful    the index sector 54 is outside: the unit has 22 sectors\n";
    assert!(out.contains(doubt), "{out}");
    doubtful(&folder, &["get", "a.img", "--all", "out", "--unsound"]);
    all_there(&folder, "out");
}

#[test]
fn sectors_of_sys_that_its_index_has_lost_are_found() {
    // SYS is entered with 6 sectors in slices 1 and 60, and its index has lost the second: sectors
    // 246 to 248 would be 3 to 5 of it. LATE is entered in sector 248, of key 2, with no slices.
    let sys = entry(10, 0, 0);
    let late = [0x4C41, 0x5445, 0, 0, 0, 0, 0, 0, 0, 0];
    let mut changes = vec![((10, sys.1 + 7), 6)];
    changes.extend(
        (0..)
            .zip(late)
            .map(|(word, value)| (entry(248, 0, word), value)),
    );
    let folder = damaged(&changes);
    let out = read(&folder, &["ls", "a.img", "--unsound"]);
    let doubt =
        "SYS: its length is 6, its index gives 4 sectors; its sectors are told by their looks";
    assert!(doubts(&out).contains(&doubt.to_string()), "{out}");
    assert!(out.contains("\nLATE "), "{out}");
    assert!(out.contains("   248:0 "), "{out}");
    // A sector like it that a file has is not SYS's: block 0 of SKI, sector 71.
    changes.extend(
        (0..)
            .zip(late)
            .map(|(word, value)| (entry(71, 0, word), value)),
    );
    changes.extend((16..256).map(|word| ((71, word), 0)));
    let folder = damaged(&changes);
    let out = read(&folder, &["ls", "a.img", "--unsound"]);
    assert!(
        out.contains("   248:0 ") && !out.contains("   71:0 "),
        "{out}"
    );
}

#[test]
fn that_lost_files_are_not_looked_for_is_told() {
    // Sectors 6 to 10: both indexes, kit, map, and the sector of SYS with SYS, MAP and SKI.
    let changes = (6..11).flat_map(|sector| (0..256).map(move |word| ((sector, word), 0)));
    let folder = damaged(&changes.collect::<Vec<_>>());
    let line = ["get", "a.img", "--all", "out", "--unsound"];
    let done = doubtful(&folder, &line);
    let doubt = "  doubtful: s and F are not known: files without an entry are not looked for \
                 (--slice, --first)\n";
    assert!(done.out.contains(doubt), "{done:?}");
    assert!(!folder.file("out/SKI").exists());
}

#[test]
fn the_bytes_of_an_entry_are_those_of_the_file() {
    let folder = damaged(&[]);
    let bytes = [vec![0xAA; 7 * 512], folder.read("good.img")].concat();
    folder.write("a.img", &bytes);
    let line = ["show", "a.img", "PASS", "--unsound", "--offset", "7"];
    // Place 0 of sector 12 of the unit, sector 19 of the file: byte 19 * 512.
    let wanted = "\nentry       sector 12, place 0, bytes 9728 to 9759\n";
    let out = read(&folder, &line);
    assert!(out.contains(wanted), "{out}");
}

/// SYS and MAP are not written, and what is doubtful about their entries makes the unit doubtful.
#[test]
fn a_doubt_about_the_entry_of_map_counts_for_all_files() {
    // The length of MAP, whose entry is the second of sector 10, becomes 5.
    let folder = damaged(&[(entry(10, 1, 7), 5)]);
    let done = doubtful(&folder, &["get", "a.img", "--all", "out", "--unsound"]);
    assert!(done.out.contains("\n  doubtful: MAP (10:1): "), "{done:?}");
    let words = "the unit is doubtful, though none of 9 files is";
    assert!(done.err.contains(words), "{done:?}");
    all_there(&folder, "out");
}

/// Why there is no map is said as it is.
#[test]
fn a_map_that_cannot_be_drawn_says_why() {
    // The kit's s becomes 0.
    let folder = damaged(&[((8, 1), 0)]);
    let words = "a.img: s is not known: these numbers fit: --keys 3 --slice 4 --first 10";
    folder.bad(&["map", "a.img", "--unsound"], 4, words);
    let bytes = folder.read("good.img");
    folder.write("a.img", &bytes[..10 * 512]);
    let words = "a.img: the image has 10 sectors and ends before the first slice\n";
    folder.bad(&["map", "a.img", "--unsound"], 4, words);
    let given = ["map", "a.img", "--unsound", "--slice", "4", "--first", "10"];
    folder.bad(&given, 4, words);
}

#[test]
fn a_file_that_is_no_whole_number_of_sectors_is_judged_and_read() {
    let folder = damaged(&[]);
    let bytes = folder.read("good.img");
    // 249 sectors and 50 words, and half a word.
    folder.write("a.img", &bytes[..249 * 512 + 101]);
    let half = "ruzkemp: warning: a.img: the last byte is half a word and is not read\n";
    let done = folder.run(&["check", "a.img"]);
    let found =
        "    found: the image has 249 sectors and 50 words (127588 bytes), the kit says 250 \
                 sectors (128000 bytes)\n";
    assert!(done.status == 4 && done.out.contains(found), "{done:?}");
    assert!(
        done.out.contains("\n  rule 1: ") && done.err.starts_with(half),
        "{done:?}"
    );
    let done = doubtful(&folder, &["get", "a.img", "--all", "out", "--unsound"]);
    let doubt = "  doubtful: the image has 249 sectors and 50 words: these words are not read\n";
    assert!(
        done.out.contains(doubt) && done.err.starts_with(half),
        "{done:?}"
    );
    all_there(&folder, "out");
    let words = "it has 127589 bytes, no whole number of sectors of 512, the kit says 250 sectors \
                 (128000 bytes) (ruzkemp check judges it, --unsound reads it)\n";
    folder.bad(&["ls", "a.img"], 4, words);
    let done = folder.run(&["report", "a.img", "-o", "a.html"]);
    assert!(done.status == 4 && done.err.starts_with(half), "{done:?}");
    let page = String::from_utf8(folder.read("a.html")).expect("UTF-8");
    let found = "the image has 249 sectors and 50 words (127588 bytes), the kit says 250";
    assert!(page.contains(found), "{page}");
}

/// The unit and one byte is not sound, and is read as the unit; a byte alone is nothing.
#[test]
fn a_byte_more_than_a_unit_is_told() {
    let folder = damaged(&[]);
    let bytes = folder.read("good.img");
    folder.write("a.img", &[&bytes[..], &[0]].concat());
    let words = "it has 250 sectors and one byte more, the kit says 250 sectors (128000 bytes) \
                 (--unsound reads it)\n";
    for command in ["check", "ls"] {
        folder.bad(&[command, "a.img"], 4, words);
    }
    folder.bad(&["report", "a.img", "-o", "a.html"], 4, words);
    read_with_a_warning(&folder);
    folder.write("a.img", &[0]);
    let words = "it has 1 byte, no whole number of sectors of 512\n";
    for more in [&["check"][..], &["ls"], &["ls", "--unsound"]] {
        folder.bad(&[more, &["a.img"]].concat(), 4, words);
    }
}

/// The unit and half a word is read as the unit, with a warning.
fn read_with_a_warning(folder: &Folder) {
    let done = folder.run(&["get", "a.img", "SKI", "ski", "--unsound"]);
    assert_eq!(done.status, 0, "{done:?}");
    assert!(done.err.contains("half a word"), "{done:?}");
    assert!(folder.read("ski") == original(folder, "SKI"));
}

#[test]
fn without_its_index_block_a_file_has_its_first_slice() {
    // GATE1's slices are 12 to 15, its index sector 54 becomes text.
    let changes: Vec<((usize, usize), u16)> =
        (0..256).map(|word| ((slice(12), word), 0x4142)).collect();
    let folder = told(
        &changes,
        &[
            "slices 13 to 15 are marked used, and no file has them",
            "GATE1: block 0 on: the index block in sector 54 has the count 16706, not 1 to 127",
            "GATE1: block 0 on: only the slice that begins at the index sector is read",
            "GATE1: length 15, but slices for 3 only",
            "GATE1: reserved 16, but slices of 4 sectors in all",
            "GATE1: blocks 3 to 14 cannot be read",
        ],
    );
    doubtful(&folder, &["get", "a.img", "GATE1", "out", "--unsound"]);
    let mut wanted = original(&folder, "GATE1");
    wanted[3 * 512..].fill(0);
    assert!(folder.read("out") == wanted);
    // The lost files' index blocks are no guesses.
    let words = "no index block can be followed in sector 54";
    folder.bad(&["get", "a.img", "@54", "x", "--unsound"], 1, words);
}

/// A disc of 32762 sectors (H 64, s 8, F 10) whose first 1000 slices are SYS's, full of entries that
/// have no index and 999 sectors by their words; every other slice is one of a lost file.
fn with_many_entries() -> Vec<u8> {
    let (n, entries) = (32_762, 8_000);
    let mut words = vec![0u16; 256 * n];
    words[8 * 256..][..6].copy_from_slice(&[64, 8, n as u16, 0, 10, n as u16]);
    words[7 * 256..][..3].copy_from_slice(&[1, 1, 9]);
    words[6 * 256..][..3].copy_from_slice(&[1, entries, 10]);
    for number in 0..16 * entries as usize {
        let letter = |place: u32| 65 + (number / 26usize.pow(place) % 26) as u16;
        let name = [letter(0) << 8 | letter(1), letter(2) << 8 | letter(3), 0];
        let at = 10 * 256 + 16 * number;
        words[at..at + 3].copy_from_slice(&name);
        words[at + 7..at + 10].copy_from_slice(&[5, 0, 999]);
    }
    let sys = [0x5359, 0x5300, 0, 0, 0, 0, 0x8010, entries, 6, entries];
    words[10 * 256..][..10].copy_from_slice(&sys);
    for first in (10 + usize::from(entries)..n).step_by(8) {
        words[256 * first..][..3].copy_from_slice(&[1, 8, first as u16]);
    }
    words.iter().flat_map(|word| word.to_be_bytes()).collect()
}

#[test]
fn a_disc_full_of_entries_is_read_soon() {
    let folder = Folder::new();
    folder.write("a.img", &with_many_entries());
    for line in [
        &["map", "a.img", "--unsound"][..],
        &["show", "a.img", "SYS", "--unsound"],
    ] {
        let begun = Instant::now();
        let out = read(&folder, line);
        // 3094 slices, from 1001 on, have each a lost file: of the doubts 16 are said.
        let more = out.lines().find(|line| line.starts_with("  and "));
        assert!(more.is_some_and(|line| line.ends_with(" more (ls --unsound lists them)")));
        assert!(
            out.lines()
                .filter(|line| line.starts_with("  doubtful: "))
                .count()
                == 16
        );
        assert!(begun.elapsed() < Duration::from_secs(20), "{line:?}");
    }
}

#[test]
fn that_nothing_can_be_reported_is_told_once() {
    let folder = damaged(&[]);
    // It waits for the first file's lock until the heading is read and nothing can be printed.
    fs::create_dir(folder.file("out")).expect("a folder");
    let first = fs::File::create(folder.file("out/SKI")).expect("a file");
    first.lock().expect("it is locked");
    let (mut reader, writer) = UnixStream::pair().expect("two ends");
    let mut command = folder.command(&["get", "a.img", "--all", "out", "--unsound", "--force"]);
    command.stdout(OwnedFd::from(writer)).stderr(Stdio::piped());
    let child = command.spawn().expect("the tool runs");
    drop(command);
    reader.read_exact(&mut [0; 8]).expect("a heading");
    // Unlike a close this also ends what another process has a copy of.
    reader.shutdown(Shutdown::Both).expect("it was open");
    first.unlock().expect("it was locked");
    let done: Done = child.wait_with_output().expect("it ends").into();
    let warned = done.err.matches("not reported").count();
    assert_eq!((done.status, warned), (0, 1), "{done:?}");
    all_there(&folder, "out");
}
