//! `diff`: what is told of two units, and the exit status.

mod common;

use common::{numbers, Done, Folder};

/// A folder with the small unit twice, `a.img` with PASS and GATE, and a copy of it.
fn folder() -> Folder {
    let folder = Folder::new();
    folder.small("a.img");
    let set = [
        "set",
        "a.img",
        "PASS",
        "--size",
        "2",
        "--tail",
        "1,2,3,4,5,6",
    ];
    folder.good(&set);
    folder.good(&["create", "a.img", "GATE"]);
    std::fs::copy(folder.file("a.img"), folder.file("b.img")).expect("copied");
    folder
}

/// What differs, as `diff` prints it; it has to say so in the status.
fn differences(folder: &Folder, options: &[&str], words: &str) -> String {
    let arguments = [&["diff", "a.img", "b.img"][..], options].concat();
    folder.bad(&arguments, 1, words).out
}

#[test]
fn a_unit_does_not_differ_from_its_copy() {
    let folder = folder();
    for options in [&[][..], &["--layout"]] {
        let arguments = [&["diff", "a.img", "b.img"][..], options].concat();
        assert_eq!(folder.good(&arguments), "a.img and b.img: no difference\n");
    }
}

#[test]
fn files_of_one_side_only_are_told() {
    let folder = folder();
    folder.good(&["create", "a.img", "AAA"]);
    folder.good(&["create", "b.img", "Pass"]);
    folder.good(&["rm", "b.img", "GATE"]);
    let said = differences(&folder, &[], "ruzkemp: a.img and b.img differ in 3 files\n");
    assert_eq!(
        said,
        "AAA: only in a.img\nGATE: only in a.img\nPass: only in b.img\n"
    );
}

#[test]
fn both_values_of_an_entry_are_told() {
    let folder = folder();
    let change = [
        "change",
        "b.img",
        "PASS",
        "--size",
        "3",
        "--extendable",
        "--permanent",
        "--optional",
        "7,8,0xABCD",
        "--tail",
        "0,0,0,0,0,1",
    ];
    folder.good(&change);
    let said = differences(&folder, &[], "ruzkemp: a.img and b.img differ in 1 file\n");
    let wanted = "\
PASS: attributes: 0000h (none) in a.img, 0011h (permanent, extendable) in b.img
PASS: length: 2 in a.img, 3 in b.img
PASS: optional words: 0000 0000 0000 in a.img, 0007 0008 ABCD in b.img
PASS: tail: 0001 0002 0003 0004 0005 0006 in a.img, 0000 0000 0000 0000 0000 0001 in b.img
";
    assert_eq!(said, wanted);
}

#[test]
fn differing_blocks_are_counted_and_the_first_is_named() {
    let folder = Folder::new();
    folder.good(&["format", "a.img"]);
    let mut host = vec![1_u8; 512 * 20];
    folder.write("host", &host);
    folder.good(&["put", "a.img", "PASS", "host"]);
    folder.good(&["put", "a.img", "SAME", "host"]);
    std::fs::copy(folder.file("a.img"), folder.file("b.img")).expect("copied");
    // One byte in blocks 3, 4 and 19, the last byte of the file among them.
    for place in [512 * 3, 512 * 5 - 1, 512 * 20 - 1] {
        host[place] = 2;
    }
    folder.write("host", &host);
    folder.good(&["put", "b.img", "PASS", "host", "--replace"]);
    let said = differences(&folder, &[], "differ in 1 file\n");
    assert_eq!(said, "PASS: blocks: 3 of 20 differ, the first is block 3\n");
    // Of files of two lengths the blocks that both have are compared.
    folder.write("host", &host[..512 * 4]);
    folder.good(&["put", "b.img", "PASS", "host", "--replace"]);
    let said = differences(&folder, &[], "differ in 1 file\n");
    let wanted = "\
PASS: length: 20 in a.img, 4 in b.img
PASS: blocks: 1 of 4 differ, the first is block 3
";
    assert_eq!(said, wanted);
}

#[test]
fn where_slices_lie_is_a_difference_of_the_layout() {
    let folder = Folder::new();
    for (image, names) in [("a.img", ["PASS", "GATE"]), ("b.img", ["GATE", "PASS"])] {
        folder.small(image);
        for name in names {
            folder.good(&["create", image, name, "--size", "1"]);
        }
    }
    assert_eq!(
        folder.good(&["diff", "a.img", "b.img"]),
        "a.img and b.img: no difference\n"
    );
    let said = differences(&folder, &["--layout"], "differ in 2 files\n");
    let wanted = "GATE: slices: 3 in a.img, 2 in b.img\nPASS: slices: 2 in a.img, 3 in b.img\n";
    assert_eq!(said, wanted);
    // PASS grows behind GATE in one, and on in the other.
    for image in ["a.img", "b.img"] {
        folder.good(&["change", image, "PASS", "--size", "3"]);
    }
    let said = differences(&folder, &["--layout"], "differ in 2 files\n");
    assert!(
        said.ends_with("PASS: slices: 2 4 in a.img, 3-4 in b.img\n"),
        "{said}"
    );
    for image in ["a.img", "b.img"] {
        folder.good(&["change", image, "GATE", "--size", "0"]);
    }
    let said = differences(&folder, &["--layout"], "differ in 1 file\n");
    assert!(said.starts_with("PASS: slices: "), "{said}");
}

#[test]
fn the_length_of_the_catalog_is_a_difference_of_the_layout() {
    let folder = folder();
    // With H = 1 a layer has 16 places: SYS, MAP, PASS, GATE and 12 more.
    let names: Vec<String> = (0..13).map(|number| format!("N{number}")).collect();
    for name in &names {
        folder.good(&["create", "b.img", name]);
    }
    let names: Vec<&str> = names.iter().map(String::as_str).collect();
    folder.good(&[&["rm", "b.img"][..], &names].concat());
    assert_eq!(
        folder.good(&["diff", "a.img", "b.img"]),
        "a.img and b.img: no difference\n"
    );
    let said = differences(&folder, &["--layout"], "differ in 1 file\n");
    assert_eq!(said, "SYS: length: 1 in a.img, 2 in b.img\n");
}

#[test]
fn the_numbers_of_the_unit_are_compared() {
    let folder = folder();
    let format = ["format", "b.img", "--words", "1,0xF", "--force", "--new"];
    let others = numbers(["32", "11", "3", "2"]);
    folder.good(&[&format[..], &others].concat());
    let numbers = "a.img and b.img differ in the unit's numbers and 2 files\n";
    let said = differences(&folder, &[], numbers);
    let wanted = "\
unit: sectors (N): 20 in a.img, 32 in b.img
unit: first data sector (F): 10 in a.img, 11 in b.img
unit: sectors of a slice (s): 2 in a.img, 3 in b.img
unit: keys (H): 1 in a.img, 2 in b.img
unit: kit words 6 and 7: 0000 0000 in a.img, 0001 000F in b.img
GATE: only in a.img
PASS: only in a.img
";
    assert_eq!(said, wanted);
    folder.good(&["rm", "a.img", "GATE", "PASS"]);
    differences(
        &folder,
        &[],
        "a.img and b.img differ in the unit's numbers\n",
    );
}

/// Each image has options of its own that say how it lies in its file.
#[test]
fn images_of_either_byte_order_and_units_in_packs_are_compared() {
    let folder = folder();
    let turned = |bytes: Vec<u8>| -> Vec<u8> {
        let pairs = bytes.chunks_exact(2);
        pairs.flat_map(|pair| [pair[1], pair[0]]).collect()
    };
    let (a, b) = (folder.read("a.img"), folder.read("b.img"));
    folder.write("low.img", &turned(a.clone()));
    folder.write(
        "pack",
        &[&[7; 512 * 3][..], &a, &turned(b), &[7; 512]].concat(),
    );
    let (low, other_low) = ("--low-byte-first", "--other-low-byte-first");
    for (arguments, title) in [
        (&["low.img", "a.img", low][..], "low.img and a.img"),
        (&["a.img", "low.img", other_low], "a.img and low.img"),
        (
            &["low.img", "low.img", low, other_low],
            "low.img and low.img",
        ),
        (
            &["pack", "low.img", "--offset", "3", other_low],
            "pack at sector 3 and low.img",
        ),
        (
            &["b.img", "pack", other_low, "--other-offset", "23"],
            "b.img and pack at sector 23",
        ),
    ] {
        let arguments = [&["diff"][..], arguments].concat();
        let said = folder.good(&arguments);
        assert_eq!(said, format!("{title}: no difference\n"), "{arguments:?}");
    }
    folder.good(&["rm", "pack", "GATE", "--offset", "23", low]);
    let both = "diff pack pack --offset 3 --other-offset 23 --other-low-byte-first";
    let both: Vec<&str> = both.split(' ').collect();
    let done = folder.bad(&both, 1, "pack at sector 3 and pack at sector 23 differ in");
    assert_eq!(done.out, "GATE: only in pack at sector 3\n");
}

#[test]
fn how_the_second_image_lies_is_hinted_by_its_own_options() {
    let folder = Folder::new();
    folder.good(&["sample", "a.img"]);
    folder.good(&["sample", "low.img", "--low-byte-first"]);
    let within = "with --low-byte-first its kit is within limits: N = 250";
    let here = "; here the options are --other-low-byte-first and --other-offset\n";
    for (arguments, hinted) in [
        (&["diff", "low.img", "a.img"][..], false),
        (&["diff", "a.img", "low.img"], true),
        (&["diff", "low.img", "low.img", "--low-byte-first"], true),
    ] {
        let done = folder.bad(arguments, 4, within);
        assert_eq!(done.err.ends_with(here), hinted, "{done:?}");
    }
    let wrong = ["diff", "a.img", "low.img", "--other-offset", "x"];
    folder.bad(&wrong, 2, "diff: --other-offset: 'x' is no number");
}

#[test]
fn standard_input_is_one_of_the_two_at_most() {
    let folder = folder();
    let image = folder.read("a.img");
    for arguments in [["diff", "-", "b.img"], ["diff", "b.img", "-"]] {
        let done = folder.run_with(&arguments, &image);
        assert_eq!((done.status, done.err.as_str()), (0, ""), "{arguments:?}");
    }
    let twice = "diff: standard input can be one of the two only";
    folder.bad(&["diff", "-", "-"], 2, twice);
}

#[test]
fn trouble_has_a_status_above_1() {
    let folder = folder();
    folder.write("odd.img", &[0; 700]);
    folder.write("zero.img", &[0; 512 * 20]);
    for (arguments, status, words) in [
        (
            &["diff", "a.img"][..],
            2,
            "diff: it takes the operands IMAGE OTHER",
        ),
        (&["diff", "a.img", "no.img"], 3, "no.img: No such file"),
        (&["diff", "no.img", "a.img"], 3, "no.img: No such file"),
        (
            &["diff", "a.img", "odd.img"],
            4,
            "odd.img: not a unit image",
        ),
        (
            &["diff", "a.img", "zero.img"],
            4,
            "zero.img: not a sound unit",
        ),
        (
            &["diff", "zero.img", "a.img"],
            4,
            "zero.img: not a sound unit",
        ),
    ] {
        folder.bad(arguments, status, words);
    }
    let full = std::fs::File::create("/dev/full").expect("/dev/full");
    let mut command = folder.command(&["diff", "a.img", "b.img"]);
    let done = Done::from(command.stdout(full).output().expect("the tool runs"));
    assert_eq!(done.status, 3, "{done:?}");
}

/// The status 1 says that there is a difference.
#[test]
fn a_unit_that_cannot_be_is_no_difference() {
    let folder = folder();
    let words = "init of unit 4: refused with 1200h: the unit is not known: 4 is not 0 to 3";
    folder.bad(&["diff", "a.img", "a.img", "--unit", "4"], 2, words);
}
