//! `run`: scripts, their answers and their ends.

mod common;

use common::{sector, Done, Folder};

/// The small unit, and a script run on it.
fn run(folder: &Folder, script: &str, options: &[&str]) -> Done {
    let arguments = [&["run", "a.img", "-"], options].concat();
    folder.run_with(&arguments, script.as_bytes())
}

fn small() -> Folder {
    let folder = Folder::new();
    folder.small("a.img");
    folder
}

/// A script that has to fail and to leave the image as it was.
fn bad(folder: &Folder, script: &str, options: &[&str], status: i32, words: &str) -> Done {
    let before = folder.snapshot();
    let done = run(folder, script, options);
    folder.judge(&[script], &before, &done, status, words);
    done
}

#[test]
fn the_paper_cases_p5_to_p8_run() {
    let folder = Folder::new();
    folder.write("a.img", &[0; 512 * 20]);
    let p5 = "format keys=1 slice=2 sectors=20 first=10\n";
    assert_eq!(run(&folder, p5, &[]).status, 0);
    let words = folder.words("a.img");
    assert_eq!(
        (sector(&words, 9, 0, 1)[0], sector(&words, 8, 3, 1)[0]),
        (0x7800, 8)
    );
    let p6 = "init\ncreate PASS size=2 attributes=0001h\n";
    assert_eq!(run(&folder, p6, &[]).status, 0);
    let words = folder.words("a.img");
    assert_eq!(
        (sector(&words, 9, 0, 1)[0], sector(&words, 8, 3, 1)[0]),
        (0x1800, 4)
    );
    assert_eq!(sector(&words, 12, 0, 3), [1, 4, 12]);
    let p7 = "init\ncreate-area PASS\nreserve PASS sender=7\noutput PASS sender=7 block=2 fill=5\n\
              output PASS sender=7 words=6,7\nlook-up PASS\nrelease PASS sender=7\n\
              remove-area PASS\nlook-up PASS\n";
    let done = run(&folder, p7, &[]);
    let entry = |length: &str, reserved: &str| {
        format!(
            "result=0000h bytes=0 block=0 entries=0 words=5041h,5353h,0000h,0000h,0000h,0000h,\
             0001h,{length},000Ch,{reserved},0000h,0000h,0000h,0000h,0000h,0000h\n"
        )
    };
    let wanted = format!(
        "1 init: result=0000h bytes=0 block=0 entries=0\n\
         2 create-area PASS: result=0000h bytes=0 block=0 entries=0\n\
         3 reserve PASS: result=0000h bytes=0 block=0 entries=0\n\
         4 output PASS: result=0000h bytes=512 block=2 entries=0\n\
         5 output PASS: result=0000h bytes=512 block=3 entries=0\n\
         6 look-up PASS: {}\
         7 release PASS: result=0000h bytes=0 block=0 entries=0\n\
         8 remove-area PASS: result=0000h bytes=0 block=0 entries=0\n\
         9 look-up PASS: {}",
        entry("0002h", "0004h"),
        entry("0004h", "0006h")
    );
    assert_eq!(done.out, wanted);
    let words = folder.words("a.img");
    assert_eq!(sector(&words, 12, 0, 3), [1, 6, 12]);
    assert_eq!(sector(&words, 8, 3, 1), [2]);
    assert_eq!(sector(&words, 15, 254, 2), [5, 5]);
    assert_eq!(sector(&words, 16, 0, 3), [6, 7, 0]);
}

#[test]
fn a_fourth_user_is_refused_as_on_paper() {
    let folder = small();
    let script = "init\ncreate PASS\ncreate-area PASS\nreserve PASS sender=1\n\
                  reserve PASS sender=2\nreserve PASS sender=3\nexpect 0808h reserve PASS sender=4\n";
    let done = run(&folder, script, &["--close"]);
    assert_eq!(done.status, 0, "{done:?}");
    let refused =
        "7 reserve PASS: result=0808h bytes=0 block=0 entries=0  # all three user entries \
                   are taken\n";
    assert!(done.out.contains(refused), "{done:?}");
    let ends = done.out.lines().filter(|line| line.starts_with("end "));
    let ends: Vec<&str> = ends
        .map(|line| line.split(':').next().unwrap_or(""))
        .collect();
    let release = "end release PASS";
    assert_eq!(ends, [release, release, release, "end remove-area PASS"]);
}

#[test]
fn a_refusal_ends_the_script_and_nothing_is_written() {
    let folder = small();
    let script = "init\ncreate PASS size=2\ncreate PASS\ncreate NEW\n";
    let done = bad(
        &folder,
        script,
        &[],
        1,
        "line 3, create PASS: refused with 1010h",
    );
    assert_eq!(done.out.lines().count(), 3, "{done:?}");
}

#[test]
fn a_refusal_that_is_expected_is_no_failure() {
    let folder = small();
    let script = "init\ncreate PASS size=2\nexpect 0x1010 create PASS\nexpect 0 create NEW\n";
    let done = run(&folder, script, &[]);
    assert_eq!(done.status, 0, "{done:?}");
    folder.good(&["show", "a.img", "NEW"]);
}

#[test]
fn an_answer_that_is_not_the_expected_one_is_a_failure() {
    let folder = small();
    let script = "init\nexpect 1010h create PASS\n";
    let words = "line 2, create PASS: answered 0000h, and 1010h is expected";
    bad(&folder, script, &[], 1, words);
    bad(&folder, script, &["--keep-going"], 1, words);
}

#[test]
fn with_keep_going_refusals_are_answers_like_any_other() {
    let folder = small();
    let script = "init\ncreate PASS size=2\ncreate PASS\nremove NEW\ncreate NEW\n";
    let done = run(&folder, script, &["--keep-going"]);
    assert_eq!(done.status, 0, "{done:?}");
    assert_eq!(done.out.lines().count(), 5, "{done:?}");
    folder.good(&["show", "a.img", "NEW"]);
}

#[test]
fn area_processes_left_open_are_a_failure() {
    let folder = small();
    let script = "init\ncreate PASS attributes=extendable\ncreate-area PASS\nreserve PASS\n\
                  output PASS text=\"one\"\n";
    bad(
        &folder,
        script,
        &[],
        2,
        "the script leaves area processes open (PASS)",
    );
    bad(
        &folder,
        script,
        &["--keep-going"],
        2,
        "the script leaves area processes open (PASS)",
    );
    // With users left, Remove area is a dummy.
    let script = format!("{script}remove-area PASS\n");
    bad(
        &folder,
        &script,
        &[],
        2,
        "the script leaves area processes open (PASS)",
    );
}

#[test]
fn area_processes_left_open_are_closed_if_asked_for() {
    let folder = small();
    let script = "init\ncreate PASS attributes=extendable\ncreate GATE\ncreate-area PASS\n\
                  create-area GATE\nreserve PASS sender=9\nreserve PASS sender=9\n\
                  output PASS sender=9 text=\"one\"\n";
    let done = run(&folder, script, &["--close"]);
    assert_eq!(done.status, 0, "{done:?}");
    let ends = "end release PASS: result=0000h bytes=0 block=0 entries=0\n\
                end release PASS: result=0000h bytes=0 block=0 entries=0\n\
                end remove-area PASS: result=0000h bytes=0 block=0 entries=0\n\
                end remove-area GATE: result=0000h bytes=0 block=0 entries=0\n";
    assert!(done.out.ends_with(ends), "{done:?}");
    folder.good(&["check", "a.img"]);
    let shown = folder.good(&["show", "a.img", "PASS"]);
    assert!(
        shown.contains("length      1 sector (512 bytes)"),
        "{shown}"
    );
}

#[test]
fn words_handed_back_are_printed_as_asked_for() {
    let folder = small();
    let script =
        "init\ncreate PASS attributes=extendable\ncreate-area PASS\nreserve PASS as=exclusive\n\
                  output PASS text=\"a \\\"b\\\" # c\\n\"\n\
                  input PASS block=0\ninput PASS block=0 show=text\n\
                  describe\nlist\nlook-up PASS show=none\nrelease PASS\nremove-area PASS\n";
    let done = run(&folder, script, &[]);
    assert_eq!(done.status, 0, "{done:?}");
    let lines: Vec<&str> = done.out.lines().collect();
    assert_eq!(
        lines[5],
        "6 input PASS: result=0000h bytes=512 block=0 entries=0"
    );
    let text = "7 input PASS: result=0000h bytes=512 block=0 entries=0 text=\"a \\\"b\\\" # c\\n\"";
    assert_eq!(lines[6], text);
    let described = "8 describe: result=0000h bytes=32 block=0 entries=0 words=0000h,0000h,0000h,\
                     0014h,554Eh,4954h,0000h,0000h,0000h,0000h,0000h,0000h,0001h,0002h,0014h,0006h";
    assert_eq!(lines[7], described);
    let listed = "9 list: result=0000h bytes=0 block=0 entries=3 names=MAP,PASS,SYS";
    assert_eq!(lines[8], listed);
    assert_eq!(
        lines[9],
        "10 look-up PASS: result=0000h bytes=0 block=0 entries=0"
    );
}

#[test]
fn every_message_can_be_said() {
    let folder = small();
    let script = "\
# Every verb, with the answers worked out from documents 01 and 02.
init
expect 1200h init unit=1
set PASS size=1 attributes=extendable+permanent optional=1,2,3 tail=1,2,3,4,5,6
change PASS attributes=extendable
change PASS name=GATE size=0 optional=3,2,1
expect 5000h look-up PASS
expect 5000h look-up 1A
expect 1200h look-up GATE:1
create-area GATE
reserve GATE as=writer sender=2
expect 0A00h reserve GATE as=2 sender=3
expect 0A00h reserve GATE as=exclusive sender=3
reserve GATE as=user sender=3
sense GATE sender=3
expect 0A00h output GATE sender=3 fill=1
output GATE sender=2 fill=1
output GATE sender=2 operation=19 words=1,2,3
expect 0880h output GATE sender=2 bytes=511
expect 0A00h input GATE sender=3 operation=9
expect 0A00h other GATE number=9
expect 0810h input GATE sender=1
expect 0810h position GATE block=3 sender=3
expect 0A00h position GATE block=FFFFh sender=3
position GATE block=1 sender=3
input GATE sender=3 show=text
expect 0810h input GATE sender=3
release GATE sender=3
release GATE sender=2
remove-area GATE
expect 1200h describe bytes=31
expect 1200h list unit=4
remove GATE
expect 1080h format keys=1 slice=2 sectors=20 first=10 bytes=17
expect 1200h format keys=1 slice=2 sectors=20 first=10 free=9
expect 1200h format keys=1 slice=2 sectors=20 first=10 top=21
format keys=1 slice=5 sectors=20 first=10 words=1,2
";
    let done = run(&folder, script, &[]);
    assert_eq!(done.status, 0, "{done:?}");
    assert!(
        done.out
            .contains("text=\"\\x00\\x01\\x00\\x02\\x00\\x03\"\n"),
        "{done:?}"
    );
    assert_eq!(
        sector(&folder.words("a.img"), 8, 0, 8),
        [1, 5, 20, 5, 10, 20, 1, 2]
    );
}

/// What is told of an input at the end of a fixed file.
const FIXED_END: &str =
    "0A00h bytes=0 block=2 entries=0  # the position is at the end of a fixed file";
/// What is told of one at the end of an extendable file.
const OTHER_END: &str =
    "0810h bytes=0 block=2 entries=0  # the position is at the end of an extendable file";
/// What is told of one past the end of any file.
const PAST_END: &str =
    "0810h bytes=0 block=2 entries=0  # the position is past the length: 3 is above 2";

#[test]
fn the_end_of_a_file_is_told_by_its_kind() {
    let folder = small();
    folder.good(&["create", "a.img", "FIX", "--size", "2"]);
    folder.good(&["create", "a.img", "LOG", "--size", "2", "--extendable"]);
    for (name, end) in [("FIX", FIXED_END), ("LOG", OTHER_END)] {
        let open = format!("init\ncreate-area {name}\nreserve {name}\ninput {name} block=1\n");
        let inputs =
            format!("input {name}\ninput {name} block=2\ninput {name} block=3\ninput {name}\n");
        let script = format!("{open}{inputs}");
        let done = run(&folder, &script, &["--keep-going", "--close"]);
        assert_eq!(done.status, 0, "{done:?}");
        let lines: Vec<&str> = done.out.lines().skip(4).take(4).collect();
        let line = |number, words| format!("{number} input {name}: result={words}");
        let expected = [line(5, end), line(6, end), line(7, PAST_END), line(8, end)];
        assert_eq!(lines, expected);
        // Where a script does not expect the end, it stops there.
        let (word, means) = (&end[..5], end.split_once("# ").expect("it is told").1);
        let words = format!("line 5, input {name}: refused with {word}: {means}");
        bad(&folder, &script, &[], 1, &words);
    }
}

/// Document 02, R-8: both are open at once, each with its own position and blocks.
#[test]
fn a_script_names_two_files_that_differ_in_case_only() {
    let folder = small();
    let script = "\
init
create PASS size=1 attributes=extendable
create Pass attributes=extendable
create-area PASS
create-area Pass
expect 4800h create-area pass
reserve PASS sender=5
reserve Pass sender=5 as=exclusive
expect 4800h sense pass sender=5
output Pass sender=5 text=\"small\"
input PASS sender=5 show=text
input Pass sender=5 block=0 show=text
expect 0810h input PASS sender=5
release PASS sender=5
release Pass sender=5
remove-area PASS
remove-area Pass
expect 1010h change Pass name=PASS
change Pass name=pass
list
";
    let done = run(&folder, script, &[]);
    assert_eq!(done.status, 0, "{done:?}");
    let lines: Vec<&str> = done.out.lines().collect();
    let ends =
        |line: usize, end: &str| assert!(lines[line - 1].ends_with(end), "{}", lines[line - 1]);
    ends(11, "block=0 entries=0 text=\"\"");
    ends(12, "block=0 entries=0 text=\"small\"");
    ends(20, "entries=4 names=MAP,PASS,SYS,pass");
    let absent = "line 2, look-up Pass: refused with 5000h";
    bad(&folder, "init\nlook-up Pass\n", &[], 1, absent);
}

#[test]
fn a_script_that_cannot_be_read_is_not_begun() {
    let folder = small();
    for (line, words) in [
        ("creat PASS", "'creat' is no message"),
        ("create", "a name is missing"),
        ("create \"\"", "'' is no name"),
        ("create ABCDEF", "'ABCDEF' is no name"),
        ("create PASS 2", "create: '2' is too much"),
        ("create PASS sise=2", "create has no further sise="),
        ("create PASS size=2 size=3", "create has no further size="),
        ("create PASS size=two", "size: 'two' is no number"),
        (
            "create PASS attributes=big",
            "attributes: 'big' is no attribute",
        ),
        ("create PASS:x", "'x' is no number"),
        ("set PASS tail=1", "tail: 6 words expected, 1 given"),
        ("position PASS", "block= is missing"),
        ("reserve PASS as=boss", "as: 'boss' is no number"),
        (
            "output PASS text=a fill=1",
            "one of words=, text= and fill= is enough",
        ),
        ("output PASS text=\"a", "a quotation mark is not closed"),
        ("output PASS text=\"\\x\"", "after \\ comes one of"),
        ("input PASS show=all", "show: 'all' is none of"),
        ("format keys=1", "slice= is missing"),
        ("expect", "expect needs a result word"),
        ("expect 0", "expect needs a message"),
        ("expect create PASS", "'create' is no number"),
    ] {
        let script = format!("init\n# a comment\n\ncreate PASS\n{line}\n");
        let done = bad(
            &folder,
            &script,
            &[],
            2,
            &format!("standard input: line 5: {words}"),
        );
        assert_eq!(done.out, "", "no message is sent");
    }
    let long = format!("output PASS text={}", "x".repeat(513));
    bad(
        &folder,
        &long,
        &[],
        2,
        "a block has 256 words, 257 are given",
    );
    folder.bad(&["run", "a.img", "nosuch"], 3, "nosuch: No such file");
    folder.write("binary", &[0xFF, 0xFE]);
    folder.bad(&["run", "a.img", "binary"], 3, "binary: ");
}

/// Whatever a name is, its answer is one line that a terminal prints and does not obey.
#[test]
fn an_answer_is_one_line() {
    let folder = Folder::new();
    folder.good(&["sample", "a.img"]);
    let script = "init\nexpect 5000h look-up \"a\\nb\"\nexpect 5000h look-up \"\u{1b}[1m\"\n";
    let done = run(&folder, script, &[]);
    let lines: Vec<&str> = done.out.lines().collect();
    assert_eq!((done.status, lines.len()), (0, 3), "{done:?}");
    assert!(
        lines[1].starts_with("2 look-up a\\nb: result=5000h "),
        "{done:?}"
    );
    assert!(
        lines[2].starts_with("3 look-up \\u{1b}[1m: result=5000h "),
        "{done:?}"
    );
}

#[test]
fn the_sample_disc_is_sound_and_read_as_it_was_written() {
    let folder = Folder::new();
    folder.good(&["sample", "a.img"]);
    folder.good(&["check", "a.img"]);
    let script =
        "init\ncreate-area PASS\nreserve PASS\ninput PASS show=text\ninput PASS show=text\n\
                  input PASS block=47 show=text\nrelease PASS\nremove-area PASS\n";
    let done = run(&folder, script, &[]);
    assert!(
        done.out
            .contains("block=0 entries=0 text=\"0001 SEASON ANNA HOLM\\n\""),
        "{done:?}"
    );
    assert!(
        done.out
            .contains("block=1 entries=0 text=\"0002 WEEK JENS BERG\\n\""),
        "{done:?}"
    );
    assert!(
        done.out
            .contains("block=47 entries=0 text=\"0003 DAY KAI LUND\\n\""),
        "{done:?}"
    );
}
