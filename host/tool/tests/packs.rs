//! Images with the low byte of a word first, and units inside a larger file.

mod common;

use std::fs;

use common::{Folder, NUMBERS};

/// The bytes of a unit of 20 sectors.
const UNIT: usize = 512 * 20;
/// The sector of the packs here at which the unit begins, and the bytes before it.
const OFFSET: &str = "11";
const BEFORE: usize = 512 * 11;
/// The bytes behind it: no whole number of sectors.
const BEHIND: usize = 777;

/// Commands on u.img, which has PASS, of two sectors, and the host files; those that change the
/// image first.
const COMMANDS: [&[&str]; 15] = [
    &["create", "u.img", "NEW", "--size", "1"],
    &["set", "u.img", "NEW", "--tail", "1,2,3,4,5,6"],
    &[
        "change",
        "u.img",
        "PASS",
        "--size",
        "1",
        "--optional",
        "1,0x203,3",
    ],
    &["rename", "u.img", "PASS", "NEW"],
    &["rm", "u.img", "PASS"],
    &["put", "u.img", "NEW", "host"],
    &["put", "u.img", "PASS", "script", "--replace"],
    &["run", "u.img", "script"],
    &["check", "u.img"],
    &["ls", "u.img"],
    &["ls", "u.img", "--json"],
    &["show", "u.img", "PASS"],
    &["map", "u.img"],
    &["map", "u.img", "--svg", "-"],
    &["get", "u.img", "PASS", "-"],
];
const CHANGING: usize = 8;

/// Text, in which the two bytes of each word differ.
fn host() -> Vec<u8> {
    b"the two bytes of each word of it differ\n".repeat(15)
}

/// A folder with the small unit as u.img, and PASS on it.
fn folder() -> Folder {
    let folder = Folder::new();
    folder.small("u.img");
    folder.write("host", &host());
    folder.good(&["put", "u.img", "PASS", "host"]);
    let script = "init\ncreate DAY size=1\ncreate-area DAY\nreserve DAY\noutput DAY text=day\n\
                  release DAY\nremove-area DAY\nlist\n";
    folder.write("script", script.as_bytes());
    folder
}

/// The bytes of each word in the other order.
fn turned(bytes: &[u8]) -> Vec<u8> {
    let pairs = bytes.chunks_exact(2);
    pairs.flat_map(|pair| [pair[1], pair[0]]).collect()
}

fn before() -> Vec<u8> {
    (0..BEFORE).map(|byte| (byte % 251) as u8).collect()
}

fn behind() -> Vec<u8> {
    (0..BEHIND).map(|byte| (byte % 241) as u8 ^ 0xFF).collect()
}

/// A unit in a pack.
fn packed(unit: &[u8]) -> Vec<u8> {
    [&before(), unit, &behind()].concat()
}

/// A way in which a unit lies in a file: the options that say so, and the file's bytes.
type Form = (&'static [&'static str], fn(&[u8]) -> Vec<u8>);

const FORMS: [Form; 3] = [
    (&["--low-byte-first"], turned),
    (&["--offset", OFFSET], packed),
    (&["--low-byte-first", "--offset", "0xB"], |unit| {
        packed(&turned(unit))
    }),
];

/// Every command does and prints the same however the unit lies in its file, and writes nothing
/// but the unit's bytes.
#[test]
fn a_unit_is_the_same_however_it_lies_in_its_file() {
    for (number, arguments) in COMMANDS.iter().enumerate() {
        let plain = folder();
        let old = plain.read("u.img");
        let out = plain.good(arguments);
        let new = plain.read("u.img");
        assert_eq!(new != old, number < CHANGING, "{arguments:?}");
        for (options, form) in FORMS {
            let folder = folder();
            folder.write("u.img", &form(&old));
            let arguments = [arguments, options].concat();
            assert_eq!(folder.good(&arguments), out, "{arguments:?}");
            assert!(folder.read("u.img") == form(&new), "{arguments:?}");
        }
    }
}

#[test]
fn a_unit_is_formatted_however_it_lies_in_its_file() {
    let plain = folder();
    let old = plain.read("u.img");
    for more in [&["--force"][..], &["--force", "--new"]] {
        let format = [&["format", "u.img"], &NUMBERS[..], more].concat();
        plain.write("u.img", &old);
        let out = plain.good(&format);
        let new = plain.read("u.img");
        for (options, form) in FORMS {
            let folder = folder();
            folder.write("u.img", &form(&old));
            let arguments = [&format[..], options].concat();
            assert_eq!(folder.good(&arguments), out, "{arguments:?}");
            assert!(folder.read("u.img") == form(&new), "{arguments:?}");
        }
    }
}

#[test]
fn new_images_have_the_order_that_is_asked_for() {
    let folder = folder();
    let format = [&["format", "low.img", "--low-byte-first"], &NUMBERS[..]].concat();
    folder.good(&format);
    folder.small("high.img");
    assert!(folder.read("low.img") == turned(&folder.read("high.img")));
    folder.good(&["sample", "sample.img"]);
    folder.good(&["sample", "low.img", "--force", "--low-byte-first"]);
    let sample = folder.read("sample.img");
    assert!(folder.read("low.img") == turned(&sample));
    // 250 sectors have room in a pack of 300 at sector 50 and not at 51.
    let pack = vec![3; 512 * 300];
    folder.write("pack", &pack);
    let at = |offset| ["sample", "pack", "--force", "--offset", offset];
    let room = "pack: no room for 250 sectors from sector 51 on: the file has 300 sectors";
    folder.bad(&at("51"), 3, room);
    folder.good(&at("50"));
    assert!(folder.read("pack") == [&pack[..512 * 50], &sample].concat());
}

#[test]
fn a_pack_is_not_made_and_not_lengthened() {
    let folder = folder();
    let format = [&["format", "new.img", "--offset", "0"], &NUMBERS[..]].concat();
    folder.bad(&format, 2, "format: --offset: there is no pack new.img");
    folder.bad(&["sample", "new.img", "--offset", "0"], 2, "no pack");
    folder.write("pack", &[0; UNIT + 512]);
    for more in [&["--force"][..], &["--force", "--new"]] {
        let format = [&["format", "pack", "--offset", "2"], &NUMBERS[..], more].concat();
        let room = "pack: no room for 20 sectors from sector 2 on: the file has 21 sectors";
        folder.bad(&format, 3, room);
    }
    let format = [&["format", "pack", "--offset", "1"], &NUMBERS[..]].concat();
    let words = "pack: the file exists already (--force formats the unit's part of it)\n";
    folder.bad(&format, 3, words);
    folder.bad(&["sample", "pack", "--offset", "1"], 3, words);
}

/// A pack may have more sectors than a unit, and what is read of it is the unit only.
#[test]
fn a_pack_may_be_larger_than_any_unit() {
    let folder = folder();
    let unit = folder.read("u.img");
    let file = fs::File::create(folder.file("pack")).expect("created");
    // 70,000 sectors, 11170h, before the unit, and 40,000 from its first on.
    file.set_len(512 * 110_000).expect("a sparse file");
    std::os::unix::fs::FileExt::write_all_at(&file, &unit, 512 * 70_000).expect("written");
    let refused =
        "pack: not a unit image: it has 110000 sectors, and a unit has at most 32767, the \
                   kit says 0 sectors (0 bytes) (--offset SECTORS reads one unit of a pack)\n";
    folder.bad(&["ls", "pack"], 4, refused);
    // A unit further down is found.
    std::os::unix::fs::FileExt::write_all_at(&file, &unit, 512 * 300).expect("written");
    let place = "(0 bytes) (a unit may begin at sector 300 of it: --offset 300) (--offset SECTORS";
    folder.bad(&["check", "pack"], 4, place);
    std::os::unix::fs::FileExt::write_all_at(&file, &[0; UNIT], 512 * 300).expect("written");
    let listed = folder.good(&["ls", "u.img"]);
    for offset in ["70000", "11170h", "0x11170"] {
        assert_eq!(folder.good(&["ls", "pack", "--offset", offset]), listed);
    }
    folder.good(&["rm", "u.img", "PASS"]);
    folder.good(&["rm", "pack", "PASS", "--offset", "70000"]);
    let pack = folder.read("pack");
    assert_eq!(pack.len(), 512 * 110_000);
    let (before, rest) = pack.split_at(512 * 70_000);
    let (unit, behind) = rest.split_at(UNIT);
    assert!(unit == folder.read("u.img"));
    assert!(before.iter().chain(behind).all(|byte| *byte == 0));
}

#[test]
fn places_past_the_end_are_told() {
    let folder = folder();
    for (offset, status, words) in [
        ("20", 4, "u.img: not a unit image: it has no sector 20"),
        (
            "70000",
            4,
            "u.img: not a unit image: it has no sector 70000",
        ),
        (
            "99999999999999",
            4,
            "u.img: not a unit image: it has no sector 99999999999999",
        ),
        ("11", 4, "(the kit is read at sector 19 of the file)"),
        ("0x7FFFFFFFFFFFFFFF", 2, "is past the end of any file"),
        ("-1", 2, "--offset: '-1' is no number"),
        ("x", 2, "--offset: 'x' is no number"),
    ] {
        folder.bad(&["ls", "u.img", "--offset", offset], status, words);
        let create = ["create", "u.img", "NEW", "--offset", offset];
        folder.bad(&create, status, words);
    }
    // From sector 15 on there is no kit to be read.
    let done = folder.bad(&["ls", "u.img", "--offset", "15"], 4, "rule 1");
    assert!(!done.err.contains("the kit is read"), "{done:?}");
    let sample = ["sample", "u.img", "--force", "--offset", "99999999999999"];
    let room = "u.img: no room for 250 sectors from sector 99999999999999 on: the file has 20";
    folder.bad(&sample, 3, room);
}

/// The other byte order is told where it makes a kit within limits.
#[test]
fn the_other_byte_order_is_told() {
    let folder = folder();
    let unit = folder.read("u.img");
    folder.write("low.img", &turned(&unit));
    // N is 0014h, 1400h the other way round.
    let lengths = "the image has 20 sectors (10240 bytes), the kit says 5120 sectors";
    let with = "with --low-byte-first its kit is within limits: N = 20";
    let without = with.replace("with --low", "without --low");
    let commands = COMMANDS
        .iter()
        .filter(|command| !["check", "run"].contains(&command[0]));
    for arguments in commands {
        let low: Vec<&str> = arguments
            .iter()
            .map(|argument| argument.replace("u.img", "low.img").leak() as &str)
            .collect();
        let done = folder.bad(&low, 4, &format!("({with})"));
        assert!(done.err.contains(lengths), "{done:?}");
        let wrong = [arguments, &["--low-byte-first"][..]].concat();
        folder.bad(&wrong, 4, &format!("({without})"));
    }
    folder.bad(&["run", "low.img", "script"], 1, with);
    let checked = folder
        .bad(&["check", "low.img"], 4, "low.img: not a sound unit")
        .out;
    for said in [lengths, &format!("note: {with}\n")] {
        assert!(checked.contains(said), "{checked}");
    }
    // Of a file that is no whole number of sectors, too.
    folder.write("low.img", &turned(&unit)[..512 * 19 + 2]);
    let lengths = "it has 9730 bytes, no whole number of sectors of 512, the kit says 5120 sectors";
    folder.bad(
        &["ls", "low.img"],
        4,
        &format!("{lengths} (2621440 bytes) ({with})"),
    );
    // In a pack, too.
    folder.write("pack", &packed(&turned(&unit)));
    let hint = "with --low-byte-first its kit is within limits: N = 20";
    let done = folder.bad(&["ls", "pack", "--offset", OFFSET], 4, hint);
    // 11 sectors before it, and 8 in it.
    let place = "the kit is read at sector 19 of the file";
    assert!(done.err.contains(place), "{done:?}");
}

/// Where the kit is right, nothing is told of byte orders.
#[test]
fn no_byte_order_is_told_where_the_kit_is_right() {
    let folder = folder();
    let mut unit = folder.read("u.img");
    // A word of the map: a free slice becomes a used one that no file has.
    unit[9 * 512] ^= 0x08;
    folder.write("u.img", &unit);
    let done = folder.bad(&["ls", "u.img"], 4, "u.img: not a sound unit");
    assert!(!done.err.contains("low-byte-first"), "{done:?}");
    assert!(!done.err.contains("offset"), "{done:?}");
}

#[test]
fn both_lengths_are_told_and_where_a_unit_may_be() {
    let folder = folder();
    let unit = folder.read("u.img");
    folder.write("cut.img", &unit[..512 * 19]);
    let lengths = "the image has 19 sectors (9728 bytes), the kit says 20 sectors (10240 bytes)";
    folder.bad(&["ls", "cut.img"], 4, lengths);
    folder.write("long.img", &[&unit[..], &[0; 1024]].concat());
    let told = "the image has 22 sectors (11264 bytes), the kit says 20 sectors (10240 bytes) (a \
                unit may begin at sector 0 of it: --offset 0)";
    folder.bad(&["ls", "long.img"], 4, told);
    folder.good(&["ls", "long.img", "--offset", "0"]);
    folder.write("pack", &[&[0; 512 * 11][..], &unit].concat());
    let place = "a unit may begin at sector 11 of it: --offset 11)";
    folder.bad(&["ls", "pack"], 4, place);
    folder.write("pack", &[&[0; 512 * 11][..], &turned(&unit)].concat());
    let place = "a unit may begin at sector 11 of it: --offset 11 --low-byte-first)";
    folder.bad(&["ls", "pack"], 4, place);
    folder.bad(&["ls", "pack", "--low-byte-first"], 4, place);
}

/// A pack of two units of one number: each is changed alone.
#[test]
fn two_units_of_a_pack_are_apart() {
    let folder = folder();
    let unit = folder.read("u.img");
    folder.write("pack", &[&unit[..], &unit].concat());
    folder.good(&["rm", "pack", "PASS", "--offset", "20"]);
    let pack = folder.read("pack");
    assert!(pack[..UNIT] == unit);
    folder.good(&["rm", "u.img", "PASS"]);
    assert!(pack[UNIT..] == folder.read("u.img"));
}
