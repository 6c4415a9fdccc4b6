//! Bad input: each is refused with its exit status and a clear message, and every file stays as
//! it was.

mod common;

use std::fs;
use std::os::unix::fs::{symlink, PermissionsExt};
use std::process::{Command, Stdio};

use common::{numbers, Done, Folder, NUMBERS, TOOL};

/// Every command that works on an image, with operands that suit the small unit with PASS.
const ON_IMAGE: [&[&str]; 11] = [
    &["check", "a.img"],
    &["ls", "a.img"],
    &["show", "a.img", "PASS"],
    &["map", "a.img"],
    &["create", "a.img", "NEW"],
    &["set", "a.img", "NEW"],
    &["change", "a.img", "PASS", "--size", "1"],
    &["rename", "a.img", "PASS", "NEW"],
    &["rm", "a.img", "PASS"],
    &["put", "a.img", "NEW", "host"],
    &["get", "a.img", "PASS", "out"],
];
/// Those of them that change it.
const CHANGING: usize = 4;

/// A folder with the small unit, PASS on it, a host file and a script.
fn folder() -> Folder {
    let folder = Folder::new();
    folder.small("a.img");
    folder.good(&["create", "a.img", "PASS", "--size", "2", "--extendable"]);
    folder.write("host", &[1; 600]);
    folder.write("script", b"init\nlist\n");
    folder
}

#[test]
fn the_operands_used_here_are_good_ones() {
    for arguments in ON_IMAGE {
        folder().good(arguments);
    }
    folder().good(&["run", "a.img", "script"]);
}

#[test]
fn a_missing_image_is_host_trouble() {
    let folder = folder();
    fs::remove_file(folder.file("a.img")).expect("it was there");
    for arguments in ON_IMAGE {
        folder.bad(arguments, 3, "a.img: No such file");
    }
    folder.bad(&["run", "a.img", "script"], 3, "a.img: No such file");
}

#[test]
fn an_image_of_odd_length_is_no_unit() {
    let folder = folder();
    let whole = folder.read("a.img");
    for bytes in [1, 511, 513, whole.len() - 1] {
        folder.write("a.img", &whole[..bytes]);
        for arguments in ON_IMAGE {
            // What is whole words and no whole sectors is judged by check.
            let words = match (arguments[0], bytes) {
                ("check", 511 | 514..) => "a.img: not a sound unit",
                (_, 1) => "a.img: not a unit image: it has 1 byte, no whole number of sectors",
                (_, 513) => "a.img: not a unit image: it has 1 sector and one byte more (--unsound",
                _ => &format!("a.img: not a unit image: it has {bytes} bytes, no whole number"),
            };
            folder.bad(arguments, 4, words);
        }
    }
    folder.write("a.img", &[]);
    folder.bad(
        &["check", "a.img"],
        4,
        "a.img: not a unit image: the file is empty",
    );
}

#[test]
fn an_image_past_the_largest_unit_is_not_read() {
    let folder = folder();
    let file = fs::File::create(folder.file("a.img")).expect("created");
    file.set_len(512 * 32_768).expect("a sparse file");
    let done = folder.run(&["check", "a.img"]);
    assert_eq!(done.status, 4, "{done:?}");
    assert!(done.err.contains("32768 sectors"), "{done:?}");
}

#[test]
fn what_is_no_unit_is_told_with_the_rule() {
    let folder = folder();
    for bytes in [vec![0; 512 * 20], vec![0xFF; 512 * 20], vec![0; 512]] {
        folder.write("a.img", &bytes);
        for arguments in ON_IMAGE {
            folder.bad(arguments, 4, "a.img: not a sound unit");
        }
        // A script's messages are refused one by one.
        folder.bad(
            &["run", "a.img", "script"],
            1,
            "line 1, init: refused with 9000h",
        );
    }
}

#[test]
fn a_truncated_or_lengthened_unit_is_told() {
    let folder = folder();
    let whole = folder.read("a.img");
    folder.write("a.img", &whole[..512 * 19]);
    folder.bad(
        &["ls", "a.img"],
        4,
        "the image has 19 sectors (9728 bytes), the kit says 20 sectors (10240 bytes)",
    );
    folder.write("a.img", &[&whole[..], &[0; 512]].concat());
    folder.bad(
        &["ls", "a.img"],
        4,
        "the image has 21 sectors (10752 bytes), the kit says 20 sectors (10240 bytes)",
    );
}

#[test]
fn a_read_only_image_is_read_and_not_changed() {
    let folder = folder();
    let read_only = fs::Permissions::from_mode(0o444);
    fs::set_permissions(folder.file("a.img"), read_only).expect("permissions set");
    for arguments in &ON_IMAGE[..CHANGING] {
        folder.good(arguments);
    }
    for arguments in &ON_IMAGE[CHANGING..10] {
        let done = folder.bad(arguments, 3, "a.img: ");
        let told = ["read-only", "Permission denied"];
        assert!(told.iter().any(|told| done.err.contains(told)), "{done:?}");
    }
    folder.good(ON_IMAGE[10]);
    folder.bad(&["run", "a.img", "script"], 3, "a.img: ");
}

#[test]
fn what_is_no_regular_file_is_refused() {
    let folder = folder();
    fs::create_dir(folder.file("dir")).expect("created");
    folder.bad(&["ls", "dir"], 3, "dir: this is no regular file");
    folder.bad(
        &["ls", "/dev/null"],
        4,
        "/dev/null: not a unit image: the file is empty",
    );
    folder.bad(
        &["create", "/dev/null", "A"],
        3,
        "/dev/null: this is no regular file",
    );
    let get = ["get", "a.img", "PASS", "/dev/null", "--force"];
    folder.bad(&get, 3, "/dev/null: this is no regular file");
    folder.bad(&["put", "a.img", "NEW", "dir"], 3, "dir: Is a directory");
}

/// Runs the tool where no file may grow past so many blocks of 512 bytes: writing fails as on
/// a full disc.
fn on_full_disc(folder: &Folder, blocks: usize, arguments: &[&str]) -> Done {
    let mut shell = Command::new("sh");
    shell
        .arg("-c")
        .arg(format!("ulimit -f {blocks}; exec \"$0\" \"$@\""));
    shell.arg(TOOL).args(arguments).current_dir(folder.path());
    shell.stdin(Stdio::null()).output().expect("sh runs").into()
}

#[test]
fn on_a_full_host_disc_nothing_is_lost() {
    let folder = folder();
    let changing: Vec<&[&str]> = ON_IMAGE[CHANGING..].to_vec();
    let other = numbers(["20", "10", "5", "1"]);
    let others: [&[&str]; 5] = [
        &["sample", "new.img"],
        &["sample", "a.img", "--force"],
        &["map", "a.img", "--svg", "map.svg"],
        &[&["format", "new.img"], &NUMBERS[..]].concat(),
        &[&["format", "a.img", "--force"], &other[..]].concat(),
    ];
    for arguments in changing.into_iter().chain(others) {
        let before = folder.snapshot();
        let done = on_full_disc(&folder, 1, arguments);
        folder.judge(arguments, &before, &done, 3, "not written: File too large");
    }
}

#[test]
fn a_limit_that_is_not_reached_does_no_harm() {
    let folder = folder();
    let done = on_full_disc(&folder, 40, &["create", "a.img", "NEW"]);
    assert_eq!(done.status, 0, "{done:?}");
}

#[test]
fn output_that_cannot_be_written_is_told() {
    let folder = folder();
    for arguments in [ON_IMAGE[1], &["get", "a.img", "PASS", "-"], &["help"]] {
        let full = fs::File::create("/dev/full").expect("/dev/full");
        let before = folder.snapshot();
        let mut command = folder.command(arguments);
        let output = command.stdout(full).output().expect("the tool runs");
        let done = Done::from(output);
        folder.judge(
            arguments,
            &before,
            &done,
            3,
            "standard output: No space left",
        );
    }
}

#[test]
fn a_folder_in_which_nothing_can_be_made_is_told() {
    let folder = folder();
    folder.bad(
        &["sample", "no/new.img"],
        3,
        "no/new.img: not written: No such file",
    );
    folder.bad(
        &["get", "a.img", "PASS", "no/out"],
        3,
        "no/out: not written: No such file",
    );
}

#[test]
fn unit_number_4_is_refused_by_the_unit() {
    let folder = folder();
    for arguments in ON_IMAGE.iter().filter(|arguments| arguments[0] != "check") {
        let arguments = [arguments, &["--unit", "4"][..]].concat();
        folder.bad(
            &arguments,
            1,
            "init of unit 4: refused with 1200h: the unit is not known",
        );
    }
    let run = ["run", "a.img", "script", "--unit", "4"];
    folder.bad(&run, 1, "line 1, init: refused with 1200h");
    let format = [&["format", "b.img", "--unit", "4"], &NUMBERS[..]].concat();
    folder.bad(&format, 1, "format of unit 4: refused with 1200h");
    folder.bad(&["sample", "b.img", "--unit", "4"], 1, "refused with 1200h");
    folder.bad(&["ls", "a.img", "--unit", "256"], 2, "--unit: unit 256");
    folder.bad(
        &["ls", "a.img", "--unit", "-1"],
        2,
        "--unit: '-1' is no number",
    );
}

#[test]
fn names_of_0_and_6_characters_and_illegal_ones_are_wrong_usage() {
    let folder = folder();
    for (name, why) in [
        ("", "a name has one to five characters"),
        ("ABCDEF", "a name has one to five characters"),
        ("1ABC", "a name begins with a letter"),
        ("A-B", "is neither a letter"),
        ("ÆØÅ", "is neither a letter"),
        ("A B", "is neither a letter"),
    ] {
        for arguments in [
            &["show", "a.img", name][..],
            &["create", "a.img", name],
            &["set", "a.img", name],
            &["change", "a.img", name, "--size", "1"],
            &["change", "a.img", "PASS", "--name", name],
            &["rename", "a.img", name, "NEW"],
            &["rename", "a.img", "PASS", name],
            &["rm", "a.img", "PASS", name],
            &["put", "a.img", name, "host"],
            &["get", "a.img", name, "out"],
        ] {
            folder.bad(arguments, 2, why);
        }
    }
}

#[test]
fn wrong_usage_is_told() {
    let folder = folder();
    for (arguments, words) in [
        (&[][..], "no command is given"),
        (&["nosuch"], "there is no command 'nosuch'"),
        (
            &["change", "a.img", "PASS", "--unit", "0"],
            "change: there is nothing to change",
        ),
        (&["help", "nosuch"], "there is no command 'nosuch'"),
        (&["ls"], "ls: it takes the operands IMAGE"),
        (&["ls", "a.img", "b.img"], "ls: it takes the operands IMAGE"),
        (&["rm", "a.img"], "rm: it takes the operands IMAGE NAME..."),
        (
            &["ls", "a.img", "--size", "1"],
            "ls: there is no option --size",
        ),
        (&["ls", "a.img", "-x"], "ls: there is no option -x"),
        (&["ls", "a.img", "--json=1"], "ls: --json takes no value"),
        (
            &["ls", "a.img", "--json", "--json"],
            "ls: --json is given twice",
        ),
        (
            &["create", "a.img", "NEW", "--size"],
            "--size needs a value N",
        ),
        (
            &["create", "a.img", "NEW", "--size", "big"],
            "--size: 'big' is no number",
        ),
        (
            &["create", "a.img", "NEW", "--size", "65536"],
            "--size: 65536 does not fit",
        ),
        (
            &["create", "a.img", "NEW", "--attributes", "odd"],
            "'odd' is no attribute",
        ),
        (
            &["set", "a.img", "NEW", "--tail", "1,2"],
            "--tail: 6 words expected, 2 given",
        ),
        (
            &["get", "a.img", "PASS", "out", "--bytes", "x"],
            "--bytes: 'x' is no number",
        ),
        (
            &["get", "a.img", "PASS", "out", "--bytes", "1025"],
            "PASS has only 1024",
        ),
    ] {
        folder.bad(arguments, 2, words);
    }
}

#[test]
fn a_file_that_exists_is_replaced_by_force_only() {
    let folder = folder();
    folder.write("out", b"old");
    for arguments in [
        &["sample", "a.img"][..],
        &["get", "a.img", "PASS", "out"],
        &["map", "a.img", "--svg", "out"],
        &[&["format", "a.img"], &NUMBERS[..]].concat(),
        &[&["format", "a.img", "--new"], &NUMBERS[..]].concat(),
    ] {
        folder.bad(
            arguments,
            3,
            "the file exists already (--force replaces it)",
        );
    }
    folder.good(&["get", "a.img", "PASS", "out", "--force"]);
    assert_eq!(folder.read("out"), [0; 1024]);
}

#[test]
fn the_image_itself_is_not_written_over_even_by_force() {
    let folder = folder();
    symlink("a.img", folder.file("link.img")).expect("a link");
    for target in ["a.img", "link.img", "./a.img"] {
        let words = format!("{target} is the image itself");
        folder.bad(&["get", "a.img", "PASS", target, "--force"], 2, &words);
        folder.bad(&["map", "a.img", "--svg", target, "--force"], 2, &words);
    }
}

#[test]
fn the_limits_of_format_are_told() {
    let folder = folder();
    for (given, why) in [
        (["20", "10", "2", "0"], "H (--keys) has to be 1 to 64"),
        (["20", "10", "2", "65"], "H (--keys) has to be 1 to 64"),
        (["20", "10", "1", "1"], "s (--slice) has to be 2 to 64"),
        (["85", "10", "65", "1"], "s (--slice) has to be 2 to 64"),
        (["20", "9", "2", "1"], "F (--first) has to be at least 10"),
        (["10", "10", "2", "1"], "N (--sectors) has to be above F"),
        (["32768", "10", "2", "1"], "N (--sectors) has to be above F"),
        (["21", "10", "2", "1"], "s (--slice) has to divide N - F"),
        (["8204", "10", "2", "1"], "there are more than 4096 slices"),
        (["20", "10", "2", "11"], "there are too few slices for SYS"),
    ] {
        let format = [&["format", "b.img"], &numbers(given)[..]].concat();
        let done = folder.bad(&format, 1, "refused with 1200h");
        assert!(done.err.contains(why), "{done:?}");
    }
    // An old image of another length.
    let longer = numbers(["22", "10", "2", "1"]);
    let format = [&["format", "a.img", "--force"], &longer[..]].concat();
    folder.bad(&format, 1, "the file has 20 sectors, and N is 22");
}

#[test]
fn refusals_of_the_catalog_are_told_with_their_word() {
    let folder = folder();
    folder.good(&["create", "a.img", "FIX", "--permanent"]);
    for (arguments, word) in [
        (&["create", "a.img", "PASS"][..], "1010h"),
        (&["create", "a.img", "NEW", "--size", "4"], "1100h"),
        (
            &["create", "a.img", "NEW", "--attributes", "0002h"],
            "1200h",
        ),
        (&["set", "a.img", "PASS"], "1010h"),
        (&["change", "a.img", "GATE", "--size", "1"], "5000h"),
        (&["change", "a.img", "SYS", "--size", "1"], "1200h"),
        (&["change", "a.img", "FIX", "--size", "1"], "1200h"),
        (&["rename", "a.img", "PASS", "FIX"], "1010h"),
        (&["rename", "a.img", "GATE", "NEW"], "5000h"),
        (&["rename", "a.img", "FIX", "NEW"], "1200h"),
        (&["rm", "a.img", "MAP"], "1200h"),
        (&["rm", "a.img", "FIX"], "1200h"),
        (&["show", "a.img", "GATE"], "5000h"),
        (&["get", "a.img", "SYS", "out"], "0A00h"),
        (&["get", "a.img", "GATE", "out"], "4800h"),
        (&["put", "a.img", "SYS", "host"], "1010h"),
        (&["put", "a.img", "SYS", "host", "--replace"], "1200h"),
        (&["put", "a.img", "FIX", "host", "--replace"], "1200h"),
    ] {
        folder.bad(arguments, 1, &format!("refused with {word}: "));
    }
}

#[test]
fn a_link_to_an_image_stays_a_link() {
    let folder = folder();
    symlink("a.img", folder.file("link.img")).expect("a link");
    folder.good(&["create", "link.img", "NEW"]);
    let link = fs::symlink_metadata(folder.file("link.img")).expect("it is there");
    assert!(link.is_symlink());
    folder.good(&["show", "a.img", "NEW"]);
}

#[test]
fn an_image_keeps_its_permissions() {
    let folder = folder();
    let mode = |name: &str| {
        let metadata = fs::metadata(folder.file(name)).expect("it is there");
        metadata.permissions().mode() & 0o7777
    };
    for wanted in [0o600, 0o640, 0o664] {
        let permissions = fs::Permissions::from_mode(wanted);
        fs::set_permissions(folder.file("a.img"), permissions).expect("permissions set");
        folder.good(&[
            "change",
            "a.img",
            "PASS",
            "--tail",
            &format!("{wanted},0,0,0,0,0"),
        ]);
        assert_eq!(mode("a.img"), wanted);
    }
}

#[test]
fn a_command_that_changes_nothing_leaves_the_file_alone() {
    let folder = folder();
    let before = fs::metadata(folder.file("a.img")).expect("it is there");
    folder.good(&["change", "a.img", "PASS", "--size", "2"]);
    folder.good(&["run", "a.img", "script"]);
    let after = fs::metadata(folder.file("a.img")).expect("it is there");
    assert_eq!(
        before.modified().expect("a time"),
        after.modified().expect("a time")
    );
}
