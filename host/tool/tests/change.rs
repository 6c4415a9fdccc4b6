//! `change`, `create` and `set` do what they are asked for or refuse it: nothing that is given is
//! dropped (01: Change keeps "attributes or length (word 9) if negative", and "for a permanent file
//! optional and tail stay too").

mod common;

use common::{sector, Folder};

/// Document 01's small unit with PRICE: 2 sectors, optional 1 to 3, tail 4 to 9, in place 2 of
/// sector 10, slices 2 and 3.
fn with_price(attributes: &str) -> Folder {
    let folder = Folder::new();
    folder.small("a.img");
    let own = ["--optional", "1,2,3", "--tail", "4,5,6,7,8,9"];
    let line = ["set", "a.img", "PRICE", "--size", "2", "--attributes"];
    folder.good(&[&line[..], &[attributes], &own].concat());
    folder
}

/// PRICE as it stands with these attributes, optional words and tail.
fn price(attributes: u16, optional: [u16; 3], tail: [u16; 6]) -> Vec<u16> {
    let words = [0x5052, 0x4943, 0x4500];
    [&words[..], &optional, &[attributes, 2, 12, 4], &tail].concat()
}

const OPTIONAL: [u16; 3] = [1, 2, 3];
const TAIL: [u16; 6] = [4, 5, 6, 7, 8, 9];

fn standing(folder: &Folder) -> Vec<u16> {
    sector(&folder.words("a.img"), 10, 32, 16).to_vec()
}

/// The commands that take a length and attributes, of a new file and of PRICE.
const COMMANDS: [[&str; 3]; 3] = [
    ["create", "a.img", "NEW"],
    ["set", "a.img", "NEW"],
    ["change", "a.img", "PRICE"],
];

#[test]
fn a_length_is_at_most_32767_sectors() {
    let folder = with_price("extendable");
    for command in COMMANDS {
        for size in ["32768", "40000", "FFFFh"] {
            let line = [&command[..], &["--size", size]].concat();
            folder.bad(&line, 2, "is too large: a file has 0 to 32767 sectors");
        }
        // The unit judges this one: its five slices are too few.
        let line = [&command[..], &["--size", "32767"]].concat();
        folder.bad(&line, 1, "refused with 1100h");
        let line = [&command[..], &["--size", "40000", "--write-protected"]].concat();
        folder.bad(&line, 2, "a file has 0 to 32767 sectors");
    }
    assert_eq!(standing(&folder), price(0x0001, OPTIONAL, TAIL));
}

#[test]
fn bit_0_of_the_attributes_is_not_given() {
    let folder = with_price("extendable");
    for command in COMMANDS {
        for word in ["8000h", "8001h", "8010h", "65535"] {
            let line = [&command[..], &["--attributes", word]].concat();
            folder.bad(&line, 2, "has bit 0, which is only for SYS and MAP");
        }
        let line = [&command[..], &["--attributes", "8000h", "--extendable"]].concat();
        folder.bad(&line, 2, "8001h has bit 0");
        // The unit judges this one.
        let line = [&command[..], &["--attributes", "0002h"]].concat();
        folder.bad(&line, 1, "refused with 1200h");
    }
    assert_eq!(standing(&folder), price(0x0001, OPTIONAL, TAIL));
}

/// A script sends the words as they are: Create refuses them, Change keeps.
#[test]
fn a_script_sends_negative_words() {
    let folder = with_price("extendable");
    let script =
        "init\nexpect 1200h create NEW size=40000\nexpect 1200h create NEW attributes=8001h\n\
                  change PRICE size=40000 attributes=8001h optional=1,2,3 tail=4,5,6,7,8,9\n";
    let done = folder.run_with(&["run", "a.img", "-"], script.as_bytes());
    assert_eq!(done.status, 0, "{done:?}");
    assert_eq!(standing(&folder), price(0x0001, OPTIONAL, TAIL));
}

const STAY: &str =
    "ruzkemp: change PRICE: the file is permanent: its optional words and tail stay as they are";

#[test]
fn words_that_a_permanent_file_would_drop_are_refused() {
    let folder = with_price("permanent");
    let other = [
        &["--tail", "0,0,0,0,0,0"][..],
        &["--optional", "1,2,4"],
        &["--optional", "1,2,3", "--tail", "4,5,6,7,8,1"],
        // All or nothing: the attributes alone could be changed.
        &["--tail", "0,0,0,0,0,0", "--permanent", "--write-protected"],
        &["--tail", "0,0,0,0,0,0", "--size", "2"],
        &["--tail", "0,0,0,0,0,0", "--name", "FEES"],
    ];
    for options in other {
        let line = [&["change", "a.img", "PRICE"], options].concat();
        let done = folder.bad(&line, 2, STAY);
        assert_eq!(done.err, format!("{STAY}\n"));
    }
    assert_eq!(standing(&folder), price(0x0010, OPTIONAL, TAIL));
}

/// Words that stand already are not dropped.
#[test]
fn words_that_a_permanent_file_has_already_may_be_given() {
    let folder = with_price("permanent");
    let same = ["--optional", "1,2,3", "--tail", "4,5,6,7,8,9"];
    folder.good(&[&["change", "a.img", "PRICE"], &same[..]].concat());
    assert_eq!(standing(&folder), price(0x0010, OPTIONAL, TAIL));
    let more = ["--tail", "4,5,6,7,8,9", "--permanent", "--write-protected"];
    folder.good(&[&["change", "a.img", "PRICE"], &more[..]].concat());
    assert_eq!(standing(&folder), price(0x0018, OPTIONAL, TAIL));
}

/// A file is permanent as it was before the message: what takes that away and gives other words
/// takes two commands.
#[test]
fn a_permanent_file_takes_other_words_by_two_commands() {
    let folder = with_price("permanent");
    let both = ["--attributes", "none", "--tail", "0,0,0,0,0,0"];
    let line = [&["change", "a.img", "PRICE"], &both[..]].concat();
    let done = folder.bad(&line, 2, STAY);
    assert!(
        done.err.ends_with("; a second command can give them\n"),
        "{done:?}"
    );
    folder.good(&["change", "a.img", "PRICE", "--attributes", "none"]);
    assert_eq!(standing(&folder), price(0, OPTIONAL, TAIL));
    // The command that makes it permanent may give them.
    folder.good(&[
        "change",
        "a.img",
        "PRICE",
        "--permanent",
        "--tail",
        "9,8,7,6,5,4",
    ]);
    assert_eq!(
        standing(&folder),
        price(0x0010, OPTIONAL, [9, 8, 7, 6, 5, 4])
    );
}

/// The unit's own refusals stand: no such file, and SYS and MAP, which are permanent too.
#[test]
fn what_the_unit_refuses_is_left_to_it() {
    let folder = with_price("permanent");
    let tail = ["--tail", "1,2,3,4,5,6"];
    for (name, word) in [("GATE", "5000h"), ("SYS", "1200h"), ("MAP", "1200h")] {
        let line = [&["change", "a.img", name], &tail[..]].concat();
        folder.bad(&line, 1, &format!("refused with {word}"));
    }
    folder.bad(&["change", "a.img", "PRICE", "--size", "3"], 1, "1200h");
}
