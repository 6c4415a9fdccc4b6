//! What the tool takes in: images from pipes, numbers in two bases, paths of any characters.

mod common;

use std::ffi::OsStr;
use std::fs::{self, File};
use std::os::unix::ffi::OsStrExt;
use std::os::unix::fs::PermissionsExt;
use std::process::{Command, Stdio};

use common::{Done, Folder, TOOL};

/// Commands that only read an image, which is named `IMAGE` here.
const READING: [&[&str]; 6] = [
    &["check", "IMAGE"],
    &["ls", "IMAGE"],
    &["show", "IMAGE", "PASS"],
    &["map", "IMAGE"],
    &["get", "IMAGE", "PASS", "-"],
    &["get", "IMAGE", "PASS", "-", "--bytes", "0x10"],
];

/// Commands that change an image.
const CHANGING: [&[&str]; 7] = [
    &["create", "IMAGE", "NEW"],
    &["set", "IMAGE", "NEW"],
    &["change", "IMAGE", "PASS", "--size", "1"],
    &["rename", "IMAGE", "PASS", "NEW"],
    &["rm", "IMAGE", "PASS"],
    &["put", "IMAGE", "NEW", "host"],
    &["run", "IMAGE", "script"],
];

fn on<'a>(image: &'a str, arguments: &[&'a str]) -> Vec<&'a str> {
    let part = |argument: &&'a str| match *argument {
        "IMAGE" => image,
        other => other,
    };
    arguments.iter().map(part).collect()
}

fn folder() -> Folder {
    let folder = Folder::new();
    folder.small("a.img");
    folder.write("host", &b"sixteen letters.".repeat(64));
    folder.good(&["put", "a.img", "PASS", "host"]);
    folder.write("script", b"init\n");
    folder
}

#[test]
fn an_image_that_is_only_read_may_come_from_a_pipe() {
    let folder = folder();
    let image = folder.read("a.img");
    let pack = [&[1; 512 * 3][..], &image, &[2; 100]].concat();
    for arguments in READING {
        let wanted = folder.good(&on("a.img", arguments));
        for (name, called) in [("-", "standard input"), ("/dev/stdin", "/dev/stdin")] {
            let wanted = wanted.replace("a.img", called);
            let from_pipe = on(name, arguments);
            let done = folder.run_with(&from_pipe, &image);
            assert_eq!((done.status, done.err.as_str()), (0, ""), "{from_pipe:?}");
            assert_eq!(done.out, wanted, "{from_pipe:?}");
            let in_pack = [&from_pipe[..], &["--offset", "3"]].concat();
            let done = folder.run_with(&in_pack, &pack);
            assert_eq!((done.status, done.err.as_str()), (0, ""), "{in_pack:?}");
            assert_eq!(done.out, wanted, "{in_pack:?}");
        }
    }
}

/// Sixteen bytes are 10h.
#[test]
fn bytes_are_numbers_like_all_others() {
    let folder = folder();
    for (number, wanted) in [
        ("16", "sixteen letters."),
        ("0x10", "sixteen letters."),
        ("10h", "sixteen letters."),
        ("7", "sixteen"),
        ("0", ""),
    ] {
        let get = ["get", "a.img", "PASS", "-", "--bytes", number];
        assert_eq!(folder.good(&get), wanted, "{number}");
    }
    for number in ["0x", "1F", "-1", "1.5", "18446744073709551616"] {
        let get = ["get", "a.img", "PASS", "-", "--bytes", number];
        folder.bad(&get, 2, "get: --bytes: ");
    }
    let get = ["get", "a.img", "PASS", "-", "--bytes", "0x10001"];
    folder.bad(&get, 2, "--bytes 65537: PASS has only 1024");
}

#[test]
fn what_a_pipe_has_too_much_or_too_little_is_told() {
    let folder = folder();
    let image = folder.read("a.img");
    for (bytes, words) in [
        (&b""[..], "/dev/stdin: not a unit image: the file is empty"),
        (
            &image[..700],
            "/dev/stdin: not a unit image: it has 700 bytes",
        ),
        (&image[..5_120], "/dev/stdin: not a sound unit"),
    ] {
        let done = folder.run_with(&["ls", "/dev/stdin"], bytes);
        assert_eq!(done.status, 4, "{done:?}");
        assert!(done.err.contains(words), "{done:?}");
    }
    // What has no end is read only as far as a unit can go.
    let most = "/dev/zero: not a unit image: it has at least 32768 sectors";
    folder.bad(&["ls", "/dev/zero"], 4, most);
}

#[test]
fn an_image_that_is_changed_has_to_be_a_file() {
    let folder = folder();
    let image = folder.read("a.img");
    for arguments in CHANGING {
        for (name, words) in [
            ("-", "-: standard input cannot be changed"),
            ("/dev/stdin", "/dev/stdin: this is no regular file"),
        ] {
            let arguments = on(name, arguments);
            let before = folder.snapshot();
            let done = folder.run_with(&arguments, &image);
            folder.judge(&arguments, &before, &done, 3, words);
        }
    }
    folder.bad(&["sample", "-"], 2, "a new image needs a file with a name");
}

/// Commands that write host files, over q/PASS if they are let.
const WRITING: [&[&str]; 7] = [
    &["get", "IMAGE", "PASS", "q/PASS", "--force"],
    &["get", "IMAGE", "PASS", "--into", "q", "--force"],
    &["get", "IMAGE", "--all", "q", "--force"],
    &["get", "IMAGE", "PASS", "q/PASS", "--force", "--unsound"],
    &["get", "IMAGE", "--all", "q", "--force", "--unsound"],
    &["map", "IMAGE", "--svg", "q/PASS", "--force"],
    &["report", "IMAGE", "-o", "q/PASS", "--force"],
];

/// Runs the tool with a file as its standard input.
fn run_from(folder: &Folder, arguments: &[&str], input: &str) -> Done {
    let input = File::open(folder.file(input)).expect("it is there");
    let output = folder.command(arguments).stdin(input).output();
    output.expect("the tool runs").into()
}

#[test]
fn an_image_that_is_read_is_not_written_over() {
    let folder = folder();
    let image = folder.read("a.img");
    fs::create_dir(folder.file("q")).expect("a folder");
    for arguments in WRITING {
        for name in ["-", "/dev/stdin", "q/PASS"] {
            folder.write("q/PASS", &image);
            let arguments = on(name, arguments);
            let done = run_from(&folder, &arguments, "q/PASS");
            assert_eq!(done.status, 2, "{arguments:?}: {done:?}");
            let words = "q/PASS is the image itself\n";
            assert!(done.err.contains(words), "{arguments:?}: {done:?}");
            assert!(folder.read("q/PASS") == image, "{arguments:?}");
        }
    }
}

/// The image is what standard input is, and not a file that is called so.
#[test]
fn another_file_is_written_over_where_the_image_is_standard_input() {
    let folder = folder();
    fs::create_dir(folder.file("q")).expect("a folder");
    for arguments in WRITING {
        folder.write("q/PASS", b"old");
        fs::remove_file(folder.file("-")).ok();
        fs::hard_link(folder.file("q/PASS"), folder.file("-")).expect("a link");
        let arguments = on("-", arguments);
        let done = run_from(&folder, &arguments, "a.img");
        assert_eq!(done.status, 0, "{arguments:?}: {done:?}");
        assert!(folder.read("q/PASS") != b"old", "{arguments:?}");
    }
}

#[test]
fn help_and_version_take_no_more_than_they_need() {
    let folder = folder();
    for (arguments, words) in [
        (&["help", "ls", "extra"][..], "help: too much is given"),
        (&["help", "ls", "rm", "put"], "help: too much is given"),
        (&["--help", "ls"], "--help: too much is given"),
        (&["-h", "ls"], "-h: too much is given"),
        (&["--version", "extra"], "--version: too much is given"),
        (&["-V", "extra"], "-V: too much is given"),
    ] {
        folder.bad(arguments, 2, words);
    }
    folder.good(&["help", "ls"]);
}

/// Runs the tool with arguments that are no UTF-8.
fn run_bytes(folder: &Folder, arguments: &[&[u8]]) -> Done {
    let mut command = Command::new(TOOL);
    let arguments = arguments.iter().map(|bytes| OsStr::from_bytes(bytes));
    command.args(arguments).current_dir(folder.path());
    let output = command.stdin(Stdio::null()).output();
    output.expect("the tool runs").into()
}

/// Of all characters XML allows few below the blank, and the heading is the image's name.
#[test]
fn a_picture_is_well_formed_whatever_the_image_is_called() {
    let folder = folder();
    for (name, heading) in [
        (&b"a\x1b[31m\x01.img"[..], "a\u{FFFD}[31m\u{FFFD}.img"),
        (b"\xFF\xC3.img", "\u{FFFD}\u{FFFD}.img"),
        ("\u{FFFE}\u{FFFF}.img".as_bytes(), "\u{FFFD}\u{FFFD}.img"),
        (b"a<b&c>.img", "a&lt;b&amp;c&gt;.img"),
        ("smørrebrød 雪.img".as_bytes(), "smørrebrød 雪.img"),
    ] {
        let path = folder.path().join(OsStr::from_bytes(name));
        fs::copy(folder.file("a.img"), &path).expect("copied");
        let done = run_bytes(&folder, &[b"map", name, b"--svg", b"-"]);
        assert_eq!((done.status, done.err.as_str()), (0, ""));
        assert!(
            done.out.contains(&format!(">{heading}</text>")),
            "{heading}"
        );
        assert!(
            done.out.contains(&format!("<title>{heading}: ")),
            "{heading}"
        );
        let forbidden = |character: char| {
            let kept = ['\t', '\n', '\r'].contains(&character);
            character < ' ' && !kept || ['\u{FFFE}', '\u{FFFF}'].contains(&character)
        };
        assert!(!done.out.contains(forbidden), "{heading}");
        fs::remove_file(&path).expect("it was there");
    }
}

/// The value of an option is any bytes, apart from its name and behind it in the same word.
#[test]
fn a_value_need_not_be_utf_8() {
    let folder = folder();
    for (option, name) in [(&b"--into"[..], &b"d\xFFr"[..]), (b"--all", b"\xC3")] {
        let attached = [option, b"=", name].concat();
        let given: &[&[u8]] = match option {
            b"--all" => &[b"get", b"a.img", &attached],
            _ => &[b"get", b"a.img", b"PASS", &attached],
        };
        let done = run_bytes(&folder, given);
        assert_eq!((done.status, done.err.as_str()), (0, ""));
        let path = folder.path().join(OsStr::from_bytes(name)).join("PASS");
        assert!(path.is_file(), "{done:?}");
    }
    let done = run_bytes(&folder, &[b"ls", b"a.img", b"--no\xFFne=1"]);
    let words = "ls: there is no option --no\u{FFFD}ne\n";
    assert!(done.status == 2 && done.err.contains(words), "{done:?}");
}

/// What is wrong about an argument is told in one line, and how it is used in another.
#[test]
fn arguments_are_printed_in_one_line() {
    let folder = folder();
    for (arguments, words) in [
        (
            &["no\nsuch\u{1b}"][..],
            "there is no command 'no\\nsuch\\u{1b}' (see",
        ),
        (
            &["ls", "a.img", "--\n"],
            "ls: there is no option --\\n\nUsage: ",
        ),
        (
            &["ls", "a.img", "--unit", "1\n2"],
            "--unit: '1\\n2' is no number",
        ),
        (&["show", "a.img", "P\nQ"], "'P\\nQ' is no name: "),
        (
            &["show", "a.img", "1\n:2", "--unsound"],
            "'1\\n' is no number",
        ),
    ] {
        folder.bad(arguments, 2, words);
    }
}

/// Force is advised only where it helps.
#[test]
fn what_force_does_not_replace_is_told() {
    let folder = folder();
    fs::create_dir(folder.file("folder")).expect("made");
    std::os::unix::fs::symlink("nowhere", folder.file("link")).expect("made");
    folder.write("kept", b"x");
    let kept = fs::Permissions::from_mode(0o444);
    fs::set_permissions(folder.file("kept"), kept).expect("set");
    for (path, words) in [
        ("/dev/null", "/dev/null: this is no regular file"),
        ("folder", "folder: this is no regular file"),
        ("link", "link: this is a link that leads to no file"),
        ("kept", "kept: the file exists already, read-only"),
        ("a.img", "is the image itself"),
    ] {
        let arguments = ["get", "a.img", "PASS", path];
        let done = folder.run(&arguments);
        assert!(done.status > 1 && done.err.contains(words), "{done:?}");
        let forced = folder.run(&[&arguments[..], &["--force"]].concat());
        assert!(forced.status > 1, "{path}: {forced:?}");
        assert!(!done.err.contains("--force replaces"), "{done:?}");
    }
}

/// What a terminal would obey is not sent there as part of a path.
#[test]
fn paths_are_printed_without_control_characters() {
    let folder = folder();
    let name = b"a\x1b]0;title\x07\n\xC2\x9B.img";
    let shown = "a\\u{1b}]0;title\\u{7}\\n\\u{9b}.img";
    let script = b"no\x1b\nscript";
    let done = run_bytes(&folder, &[b"ls", name]);
    assert_eq!(done.status, 3);
    assert!(
        done.err
            .starts_with(&format!("ruzkemp: {shown}: No such file")),
        "{done:?}"
    );
    let done = run_bytes(&folder, &[b"sample", name]);
    assert_eq!(done.out, format!("{shown}: sample disc made\n"));
    for arguments in [
        &[&b"check"[..], name][..],
        &[b"run", name, script],
        &[b"put", name, b"NEW", script],
        &[b"get", name, b"PASS", name],
        &[b"get", name, b"PASS", script],
        &[b"map", name, b"--svg", name],
        &[b"sample", name],
        &[b"nos\x1buch", name],
        &[b"ls", name, b"--nos\x1buch"],
        &[b"ls", name, b"--unit", b"\x1b"],
        &[b"show", name, b"\x1b"],
    ] {
        let done = run_bytes(&folder, arguments);
        let control = |character: char| character.is_control() && character != '\n';
        assert!(!done.out.contains(control), "{done:?}");
        assert!(!done.err.contains(control), "{done:?}");
        let lines = done.err.lines();
        let ours = |line: &str| line.starts_with("ruzkemp: ") || line.starts_with("Usage: ");
        assert!(lines.clone().all(ours), "{done:?}");
    }
}

/// A word in base 16 may begin with a letter.
#[test]
fn attributes_are_numbers_like_all_others() {
    let folder = folder();
    for word in ["A000h", "C000h", "ffffh", "0xA000"] {
        let create = ["create", "a.img", "NEW", "--attributes", word];
        folder.bad(&create, 2, "has bit 0, which is only for SYS and MAP");
    }
    let create = ["create", "a.img", "NEW", "--attributes", "FFFFFh"];
    folder.bad(&create, 2, "FFFFFh does not fit in 16 bits");
    let create = ["create", "a.img", "NEW", "--attributes", "Fh"];
    folder.bad(&create, 1, "create NEW: refused with ");
    let create = ["create", "a.img", "NEW", "--attributes", "path"];
    folder.bad(&create, 2, "'path' is no attribute");
}

/// A fixed file of 1 sector has 1 of the 4 slices that SYS leaves, 3 are free. 200 sectors and the
/// index need 101 slices of 2.
#[test]
fn a_host_file_too_large_for_a_fixed_file_is_told_why() {
    let folder = Folder::new();
    folder.small("a.img");
    folder.good(&["create", "a.img", "FIX", "--size", "1"]);
    let put = ["put", "a.img", "FIX", "host", "--replace"];
    folder.write("host", &vec![1; 102_400]);
    folder.bad(
        &put,
        1,
        "change FIX: refused with 1100h: there are not enough free slices: 100 more are needed and \
         3 are free\n",
    );
    // 7 sectors and the index need the 4 slices, 8 do not fit in them.
    folder.write("host", &[1; 512 * 7 + 1]);
    folder.bad(&put, 1, "4 more are needed and 3 are free\n");
    folder.write("host", &[1; 512 * 7]);
    folder.good(&put);
    // A word that is negative would keep the length.
    for sectors in [32_768, 40_000, 65_535, 65_536, 70_000] {
        let file = fs::File::create(folder.file("host")).expect("created");
        file.set_len(512 * sectors).expect("a sparse file");
        let words = format!(
            "FIX: {} bytes need {sectors} sectors, and a unit has at most 32767",
            512 * sectors
        );
        folder.bad(&put, 3, &words);
    }
    let file = fs::File::create(folder.file("host")).expect("created");
    file.set_len(512 * 32_767).expect("a sparse file");
    folder.bad(&put, 1, "16380 more are needed and 0 are free\n");
}

/// Runs the tool as the shell does, with redirections; it has to fail and to change nothing.
fn fails_in_shell(folder: &Folder, line: &str, status: i32, words: &str) {
    let before = folder.snapshot();
    let mut shell = Command::new("sh");
    shell.args(["-c", &format!("'{TOOL}' {line}")]);
    let done = shell.current_dir(folder.path()).output();
    let done = done.expect("the shell runs").into();
    folder.judge(&[line], &before, &done, status, words);
}

/// A standard input that is not there, or only open for writing, is no empty one.
#[test]
fn a_closed_standard_input_is_a_failure() {
    let folder = folder();
    for line in [
        "put a.img PASS INPUT --replace",
        "put a.img NEW INPUT",
        "run a.img INPUT",
        "check INPUT",
        "ls INPUT",
    ] {
        for (path, input) in [("-", "standard input"), ("/dev/stdin", "/dev/stdin")] {
            let line = line.replace("INPUT", path);
            let words = format!("{input}: it is not open for reading");
            for redirection in ["<&-", "0>/dev/null"] {
                fails_in_shell(&folder, &format!("{line} {redirection}"), 3, &words);
            }
        }
    }
}

/// What is printed does not go into the image that it is about.
#[test]
fn standard_output_is_not_the_image() {
    let folder = folder();
    for line in [
        "get a.img PASS - >> a.img",
        "map a.img --svg - 1<> a.img",
        "report a.img -o - 1<> a.img",
        "ls a.img >> a.img",
        "ls - < a.img >> a.img",
        "create a.img NEW >> a.img",
    ] {
        fails_in_shell(&folder, line, 2, "standard output is the image itself");
    }
}
