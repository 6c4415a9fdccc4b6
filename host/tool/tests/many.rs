//! `put` and `get` of many files: all or none, each complete or not at all.

mod common;

use std::collections::BTreeMap;
use std::fs;
use std::os::unix::fs::symlink;
use std::path::Path;

use common::{Done, Folder};

/// The files of a folder with their bytes.
fn files(path: &Path) -> BTreeMap<String, Vec<u8>> {
    let found = fs::read_dir(path).expect("the folder is there");
    let read = found.map(|file| {
        let file = file.expect("an entry of the folder");
        let name = file.file_name().into_string().expect("UTF-8");
        (name, fs::read(file.path()).unwrap_or_default())
    });
    read.collect()
}

/// Bytes in which every block and every file differs from every other.
fn bytes(seed: usize, number: usize) -> Vec<u8> {
    let byte = |place: usize| (place * 31 + place / 512 * 7 + seed * 13 + 1) as u8;
    (0..number).map(byte).collect()
}

/// A folder with an empty unit of 63 slices of 8 sectors, and host files in `in`.
fn folder(hosts: &[(&str, usize)]) -> Folder {
    let folder = Folder::new();
    folder.good(&["format", "a.img", "--sectors", "514", "--slice", "8"]);
    fs::create_dir(folder.file("in")).expect("created");
    for (seed, (name, number)) in hosts.iter().enumerate() {
        folder.write(&format!("in/{name}"), &bytes(seed, *number));
    }
    folder
}

/// Runs the tool, which has to fail as [`Folder::bad`] says, and to leave a folder as it was too.
fn bad(folder: &Folder, inside: &str, arguments: &[&str], status: i32, words: &str) {
    let before = files(&folder.file(inside));
    folder.bad(arguments, status, words);
    assert!(files(&folder.file(inside)) == before, "{arguments:?}");
}

#[test]
fn all_files_go_out_and_into_another_unit() {
    let folder = Folder::new();
    folder.good(&["sample", "disc.img"]);
    let said = folder.good(&["get", "disc.img", "--all", "out"]);
    assert!(
        said.starts_with("GATE1: 7680 bytes written to out/GATE1\n"),
        "{said}"
    );
    assert!(said.ends_with("\n9 files written to out\n"), "{said}");
    let out = files(&folder.file("out"));
    let names: Vec<&str> = out.keys().map(String::as_str).collect();
    let wanted = [
        "GATE1", "LOG", "NOTE", "PASS", "PRICE", "RENT", "SKI", "TILL1", "TILL2",
    ];
    assert_eq!(names, wanted);
    for (name, bytes) in &out {
        folder.good(&["get", "disc.img", name, "one", "--force"]);
        assert!(folder.read("one") == *bytes, "{name}");
    }
    folder.good(&["format", "new.img", "--slice", "7"]);
    let said = folder.good(&["put", "new.img", "--all", "out"]);
    assert!(
        said.starts_with("GATE1: 7680 bytes put into 15 blocks\n"),
        "{said}"
    );
    assert!(said.ends_with("\n9 files put\n"), "{said}");
    folder.good(&["check", "new.img"]);
    folder.good(&["get", "new.img", "--all", "again"]);
    assert!(files(&folder.file("again")) == out);
}

/// Eight area processes can be open at a time, and names have both cases.
#[test]
fn many_files_are_put_in_the_order_of_the_listing() {
    let names = [
        "A", "A1", "AB", "Aa", "B", "C1", "C2", "Pass", "PASS", "Z", "a", "pass", "z9",
    ];
    let hosts: Vec<(&str, usize)> = names.iter().map(|name| (*name, 700)).collect();
    let folder = folder(&hosts);
    let said = folder.good(&["put", "a.img", "--all", "in"]);
    let put: Vec<&str> = said
        .lines()
        .filter_map(|line| line.split(':').next())
        .collect();
    let mut wanted = names.to_vec();
    wanted.sort_unstable();
    wanted.push("13 files put");
    assert_eq!(put, wanted);
    folder.good(&["get", "a.img", "--all", "out"]);
    for (name, mut bytes) in files(&folder.file("in")) {
        bytes.resize(1_024, 0);
        assert!(folder.read(&format!("out/{name}")) == bytes, "{name}");
    }
}

#[test]
fn some_files_are_put_and_got_by_name() {
    let folder = folder(&[("A", 1), ("B", 600), ("C", 2_000)]);
    let said = folder.good(&["put", "a.img", "C", "A", "--from", "in"]);
    let wanted = "C: 2000 bytes put into 4 blocks\nA: 1 byte put into 1 block\n2 files put\n";
    assert_eq!(said, wanted);
    let said = folder.good(&["get", "a.img", "--into", "out", "C"]);
    assert_eq!(
        said,
        "C: 2048 bytes written to out/C\n1 file written to out\n"
    );
    assert_eq!(files(&folder.file("out")).len(), 1);
    let done = folder.run(&["show", "a.img", "B"]);
    assert_eq!(done.status, 1, "{done:?}");
}

#[test]
fn a_unit_without_files_and_an_empty_folder_have_none() {
    let folder = folder(&[]);
    assert_eq!(
        folder.good(&["put", "a.img", "--all", "in"]),
        "0 files put\n"
    );
    let said = folder.good(&["get", "a.img", "--all", "out"]);
    assert_eq!(said, "0 files written to out\n");
    assert!(files(&folder.file("out")).is_empty());
}

#[test]
fn if_one_host_file_exists_none_is_written() {
    let folder = folder(&[("A", 100), ("B", 100), ("C", 100)]);
    folder.good(&["put", "a.img", "--all", "in"]);
    fs::create_dir(folder.file("out")).expect("created");
    folder.write("out/B", b"old");
    let exists = "out/B: the file exists already (--force replaces it)";
    bad(&folder, "out", &["get", "a.img", "--all", "out"], 3, exists);
    let some = ["get", "a.img", "A", "B", "--into", "out"];
    bad(&folder, "out", &some, 3, exists);
    folder.good(&["get", "a.img", "--all", "out", "--force"]);
    let mut wanted = bytes(1, 100);
    wanted.resize(512, 0);
    assert!(folder.read("out/B") == wanted);
}

/// Nothing but a regular file is replaced, and that is found before the first is written.
#[test]
fn if_one_path_is_no_regular_file_none_is_written() {
    let folder = folder(&[("A", 100), ("B", 100), ("C", 100)]);
    folder.good(&["put", "a.img", "--all", "in"]);
    let all = ["get", "a.img", "--all", "out"];
    let some = ["get", "a.img", "A", "B", "--into", "out"];
    let refused = |words: &str| {
        for get in [&all[..], &some] {
            for options in [&[][..], &["--force"]] {
                let get = [get, options].concat();
                let before = folder.snapshot();
                let done = folder.run(&get);
                folder.judge(&get, &before, &done, 3, words);
                assert!(!done.err.contains("--force"), "{done:?}");
                assert_eq!(files(&folder.file("out")).len(), 1, "{get:?}");
            }
        }
    };
    fs::create_dir_all(folder.file("out/B")).expect("created");
    refused("out/B: this is no regular file\n");
    fs::remove_dir(folder.file("out/B")).expect("removed");
    folder.write("victim", b"old");
    for to in ["../victim", "nowhere"] {
        symlink(to, folder.file("out/B")).expect("a link");
        refused("out/B: this is a link, which is not followed\n");
        fs::remove_file(folder.file("out/B")).expect("removed");
    }
    // The link that is named itself is followed, as ever.
    symlink("victim", folder.file("link")).expect("a link");
    folder.good(&["get", "a.img", "B", "link", "--force"]);
    assert_eq!(folder.read("victim").len(), 512);
}

#[test]
fn if_one_file_is_refused_none_is_written() {
    let folder = folder(&[("A", 100)]);
    folder.good(&["put", "a.img", "--all", "in"]);
    for (name, words) in [
        ("GATE", "create-area GATE: refused with 4800h"),
        ("SYS", "create-area SYS: refused with 0A00h"),
    ] {
        folder.bad(&["get", "a.img", "A", name, "--into", "out"], 1, words);
        assert!(!folder.file("out").exists());
    }
}

#[test]
fn if_one_file_is_refused_none_is_put() {
    // 62 slices of 8 sectors are free: B has room, and beside it C has none.
    let folder = folder(&[("A", 100), ("B", 512 * 400), ("C", 512 * 100)]);
    let full = "output C: refused with 0900h: no slice is free: 100 blocks and the index take 13 \
                slices; free before: 10\n";
    bad(&folder, "in", &["put", "a.img", "--all", "in"], 1, full);
    folder.good(&["put", "a.img", "B", "--from", "in"]);
    let exists = "create B (--replace replaces its words): refused with 1010h";
    let some = ["put", "a.img", "A", "B", "--from", "in"];
    bad(&folder, "in", &some, 1, exists);
    folder.write("in/B", &bytes(9, 300));
    folder.good(&["put", "a.img", "--all", "in", "--replace"]);
    folder.good(&["get", "a.img", "B", "b", "--bytes", "300"]);
    assert!(folder.read("b") == bytes(9, 300));
    folder.good(&["check", "a.img"]);
}

#[test]
fn what_cannot_be_replaced_is_told_without_that_advice() {
    for name in ["SYS", "MAP"] {
        let folder = folder(&[("A", 100), (name, 100)]);
        let put = ["put", "a.img", "--all", "in"];
        bad(
            &folder,
            "in",
            &put,
            1,
            &format!("create {name}: refused with 1010h"),
        );
        let replace = [&put[..], &["--replace"]].concat();
        bad(
            &folder,
            "in",
            &replace,
            1,
            &format!("change {name}: refused"),
        );
    }
}

/// A file of /proc has length 0 and yet bytes; one that is empty has a known length.
#[test]
fn a_host_file_that_says_it_is_empty_is_read_to_its_end() {
    let folder = folder(&[("EMPTY", 0)]);
    folder.good(&["put", "a.img", "A", "/proc/version"]);
    let version = fs::read_to_string("/proc/version").expect("/proc");
    assert_eq!(folder.good(&["get", "a.img", "A", "-", "--text"]), version);
    folder.good(&["create", "a.img", "FIX", "--size", "3"]);
    let unknown = ["put", "a.img", "FIX", "/proc/version", "--replace"];
    folder.bad(&unknown, 2, "its new length has to be known first");
    let said = folder.good(&["put", "a.img", "FIX", "in/EMPTY", "--replace"]);
    assert_eq!(said, "FIX: 0 bytes put into 0 blocks\n");
}

#[test]
fn a_folder_with_what_cannot_be_put_is_refused() {
    let folder = folder(&[("A", 100), ("notes.txt", 5), ("TOOLONG", 5), ("1A", 5)]);
    fs::create_dir(folder.file("in/SUB")).expect("created");
    symlink("nowhere", folder.file("in/LOST")).expect("a link");
    let put = ["put", "a.img", "--all", "in"];
    let before = folder.snapshot();
    let done = folder.run(&put);
    folder.judge(&put, &before, &done, 2, "put: in has what cannot be put: ");
    for named in [
        "1A (a name begins with a letter)",
        "LOST (no regular file)",
        "SUB (no regular file)",
        "TOOLONG (a name has one to five characters)",
        "notes.txt ('.' is neither a letter",
    ] {
        assert!(done.err.contains(named), "{done:?}");
    }
    assert!(!done.err.contains(" A ("), "{done:?}");
    folder.good(&["put", "a.img", "A", "--from", "in"]);
    // A link to a file is a file.
    let folder = self::folder(&[("A", 100)]);
    symlink("A", folder.file("in/B")).expect("a link");
    assert!(folder
        .good(&["put", "a.img", "--all", "in"])
        .ends_with("\n2 files put\n"));
}

#[test]
fn host_files_and_folders_that_are_missing_are_told() {
    let folder = folder(&[("A", 100)]);
    folder.good(&["put", "a.img", "--all", "in"]);
    let missing = ["put", "a.img", "A", "B", "--from", "in", "--replace"];
    folder.bad(&missing, 3, "in/B: No such file");
    folder.bad(&["put", "a.img", "--all", "no"], 3, "no: No such file");
    folder.bad(
        &["put", "a.img", "--all", "a.img"],
        3,
        "a.img: Not a directory",
    );
    for options in [&[][..], &["--unsound"]] {
        let beyond = [&["get", "a.img", "--all", "no/out"][..], options].concat();
        folder.bad(&beyond, 3, "no/out: no folder can be made: No such file");
        let file = [&["get", "a.img", "--all", "a.img"][..], options].concat();
        folder.bad(&file, 3, "a.img: no folder can be made: File exists");
    }
}

#[test]
fn wrong_usage_is_told() {
    let folder = folder(&[("A", 100)]);
    folder.good(&["put", "a.img", "--all", "in"]);
    let get = "get: it takes NAME HOSTFILE, or NAME... --into DIR, or --all DIR";
    let put = "put: it takes NAME HOSTFILE, or NAME... --from DIR, or --all DIR";
    for (arguments, words) in [
        (&["get", "a.img"][..], get),
        (&["get", "a.img", "A"], get),
        (&["get", "a.img", "A", "B", "C"], get),
        (&["get", "a.img", "--into", "out"], get),
        (&["get", "a.img", "A", "--all", "out"], get),
        (&["get", "a.img", "--all", "out", "--into", "out"], get),
        (
            &["get", "a.img", "A", "A", "--into", "out"],
            "get: A is given twice",
        ),
        (
            &["get", "a.img", "A", "B-", "--into", "out"],
            "'B-' is no name",
        ),
        (
            &["get", "a.img", "--all", "out", "--bytes", "1"],
            "--bytes is for one file",
        ),
        (
            &["get"],
            "get: it takes the operands IMAGE [NAME...] [HOSTFILE]",
        ),
        (&["put", "a.img"], put),
        (&["put", "a.img", "A"], put),
        (&["put", "a.img", "A", "--all", "in"], put),
        (&["put", "a.img", "--from", "in"], put),
        (
            &["put", "a.img", "B", "B", "--from", "in"],
            "put: B is given twice",
        ),
    ] {
        folder.bad(arguments, 2, words);
    }
}

#[test]
fn the_image_in_the_folder_is_not_written_over() {
    let folder = folder(&[("A", 100), ("B", 100)]);
    folder.good(&["put", "a.img", "--all", "in"]);
    fs::create_dir(folder.file("out")).expect("created");
    fs::rename(folder.file("a.img"), folder.file("out/B")).expect("moved");
    let get = ["get", "out/B", "--all", "out", "--force"];
    bad(&folder, "out", &get, 2, "out/B is the image itself");
}

/// No file may grow past 4 blocks of 512 bytes, and C has 5.
#[test]
fn a_host_file_that_cannot_be_written_is_told_with_those_that_were() {
    let folder = folder(&[("A", 100), ("B", 512 * 4), ("C", 512 * 5), ("D", 100)]);
    folder.good(&["put", "a.img", "--all", "in"]);
    for (out, options) in [("out", &[][..]), ("unsound", &["--unsound"])] {
        let get = [&["get", "a.img", "--all", out][..], options].concat();
        let done = folder.limited("-f 4", &get);
        assert_eq!(done.status, 3, "{done:?}");
        let why = "not written: File too large (os error 27)";
        let told = format!("{out}/C: {why}; 2 of 4 files were written before\n");
        assert!(done.err.ends_with(&told), "{done:?}");
        // The files that are there were reported.
        let told = format!("B: 2048 bytes written to {out}/B\n");
        assert!(done.out.ends_with(&told), "{done:?}");
        let lengths = files(&folder.file(out));
        let lengths: Vec<_> = lengths
            .iter()
            .map(|(name, bytes)| (name.as_str(), bytes.len()))
            .collect();
        assert_eq!(lengths, [("A", 512), ("B", 2_048)]);
    }
}

#[test]
fn a_folder_that_was_made_for_nothing_goes_again() {
    let folder = folder(&[("C", 512 * 5)]);
    folder.good(&["put", "a.img", "--all", "in"]);
    for get in [
        &["get", "a.img", "C", "--into", "new"][..],
        &["get", "a.img", "--all", "new"],
        &["get", "a.img", "--all", "new", "--unsound"],
    ] {
        let done = folder.limited("-f 4", get);
        assert_eq!(done.status, 3, "{done:?}");
        assert!(!folder.file("new").exists(), "{get:?}");
    }
}

#[test]
fn what_is_done_and_cannot_be_printed_is_done() {
    let folder = folder(&[("A", 100)]);
    for arguments in [
        ["put", "a.img", "--all", "in"],
        ["get", "a.img", "--all", "out"],
    ] {
        let full = fs::File::create("/dev/full").expect("/dev/full");
        let mut command = folder.command(&arguments);
        let done = Done::from(command.stdout(full).output().expect("the tool runs"));
        assert_eq!(done.status, 0, "{done:?}");
        assert!(done.err.contains("warning"), "{done:?}");
    }
    assert_eq!(folder.read("out/A").len(), 512);
}

#[test]
fn a_dry_run_of_many_puts_none() {
    let folder = folder(&[("A", 100), ("B", 100)]);
    let before = folder.snapshot();
    let said = folder.good(&["put", "a.img", "--all", "in", "--dry-run"]);
    assert!(said.contains("\nB: 100 bytes put into 1 block"), "{said}");
    assert!(folder.snapshot() == before);
}

#[test]
fn many_files_of_a_pack_with_the_low_byte_first_go_in_and_out() {
    let folder = folder(&[("A", 1_000), ("B", 512)]);
    folder.write("pack", &[7; 512 * 300]);
    let place = ["--offset", "20", "--low-byte-first"];
    let format = ["format", "pack", "--sectors", "200", "--force"];
    folder.good(&[&format[..], &place].concat());
    folder.good(&[&["put", "pack", "--all", "in"][..], &place].concat());
    folder.good(&[&["get", "pack", "--all", "out"][..], &place].concat());
    let wanted = [bytes(0, 1_000), bytes(1, 512)];
    assert!(folder.read("out/A") == [&wanted[0][..], &[0; 24]].concat());
    assert!(folder.read("out/B") == wanted[1]);
    let pack = folder.read("pack");
    assert!(pack[..512 * 20]
        .iter()
        .chain(&pack[512 * 220..])
        .all(|byte| *byte == 7));
}
