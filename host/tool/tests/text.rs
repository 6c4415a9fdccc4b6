//! Texts and Danish letters on the way in and out.

mod common;

use common::{sector, Folder};

/// A folder with the small unit: PASS's first block is in sector 13.
fn folder() -> Folder {
    let folder = Folder::new();
    folder.small("a.img");
    folder
}

/// The first bytes of the first block of the first file.
fn stored(folder: &Folder, number: usize) -> Vec<u8> {
    let words = folder.words("a.img");
    let words = sector(&words, 13, 0, 256);
    let bytes = words.iter().flat_map(|word| word.to_be_bytes());
    bytes.take(number).collect()
}

/// Pseudo-random numbers, the same in each run.
struct Random(u64);

impl Random {
    fn below(&mut self, limit: usize) -> usize {
        self.0 = self
            .0
            .wrapping_mul(6_364_136_223_846_793_005)
            .wrapping_add(1);
        (self.0 >> 33) as usize % limit
    }
}

#[test]
fn a_text_has_cr_lf_on_the_unit() {
    let folder = folder();
    for host in [&b"ab\ncd\n"[..], b"ab\r\ncd\r\n", b"ab\rcd\r"] {
        folder.write("host", host);
        let said = folder.good(&["put", "a.img", "PASS", "host", "--text", "--replace"]);
        assert_eq!(said, "PASS: 8 bytes put into 1 block\n");
        assert_eq!(stored(&folder, 10), b"ab\r\ncd\r\n\0\0");
    }
}

#[test]
fn a_text_of_the_unit_may_have_any_line_end() {
    let folder = folder();
    for unit in [
        &b"ab\r\ncd\r\n"[..],
        b"ab\ncd\n",
        b"ab\rcd\r",
        b"ab\rcd\r\n\0\0\0",
    ] {
        folder.write("host", unit);
        folder.good(&["put", "a.img", "PASS", "host", "--replace"]);
        let said = folder.good(&["get", "a.img", "PASS", "out", "--text", "--force"]);
        assert_eq!(said, "PASS: 6 bytes written to out\n");
        assert_eq!(folder.read("out"), b"ab\ncd\n");
        assert_eq!(
            folder.good(&["get", "a.img", "PASS", "-", "--text"]),
            "ab\ncd\n"
        );
    }
    // The first bytes of the unit's file are taken, and then as a text.
    folder.write("host", b"ab\r\ncd");
    folder.good(&["put", "a.img", "PASS", "host", "--replace"]);
    let part = ["get", "a.img", "PASS", "-", "--text", "--bytes", "4"];
    assert_eq!(folder.good(&part), "ab\n");
}

/// Puts a host file and gets it back.
fn there_and_back(folder: &Folder, host: &[u8], option: &str) {
    folder.write("host", host);
    folder.good(&["put", "a.img", "PASS", "host", "--replace", option]);
    folder.good(&["get", "a.img", "PASS", "back", "--force", option]);
    assert!(
        folder.read("back") == host,
        "{option}: {:?}",
        host.escape_ascii()
    );
}

#[test]
fn every_text_without_zero_and_cr_comes_back() {
    let folder = folder();
    let mut random = Random(19);
    let alphabet: Vec<u8> = (1..=255).filter(|byte| *byte != b'\r').collect();
    there_and_back(&folder, &alphabet, "--text");
    for length in [0, 1, 2, 255, 256, 257, 511, 512, 513, 1_024] {
        let mut text: Vec<u8> = (0..length).map(|_| alphabet[random.below(254)]).collect();
        there_and_back(&folder, &text, "--text");
        for byte in text.iter_mut().step_by(3) {
            *byte = b'\n';
        }
        there_and_back(&folder, &text, "--text");
    }
}

#[test]
fn danish_letters_have_their_codes_on_the_unit() {
    let folder = folder();
    folder.write("host", "RØDGRØD\nÆØÅæøå\n".as_bytes());
    folder.good(&["put", "a.img", "PASS", "host", "--danish"]);
    let wanted = b"R\x5CDGR\x5CD\r\n\x5B\x5C\x5D\x7B\x7C\x7D\r\n\0";
    assert_eq!(stored(&folder, wanted.len()), wanted);
    let text = folder.good(&["get", "a.img", "PASS", "-", "--danish"]);
    assert_eq!(text, "RØDGRØD\nÆØÅæøå\n");
    let plain = folder.good(&["get", "a.img", "PASS", "-", "--text"]);
    assert_eq!(plain, "R\\DGR\\D\n[\\]{|}\n");
}

#[test]
fn every_danish_text_comes_back() {
    let folder = folder();
    let mut random = Random(646);
    let ascii = (1..128_u8).filter(|code| !b"\r[\\]{|}".contains(code));
    let alphabet: Vec<char> = ascii.map(char::from).chain("ÆØÅæøå".chars()).collect();
    assert_eq!(alphabet.len(), 126);
    there_and_back(&folder, String::from_iter(&alphabet).as_bytes(), "--danish");
    for length in [1, 100, 511, 512, 513, 1_000] {
        let text: String = (0..length).map(|_| alphabet[random.below(126)]).collect();
        there_and_back(&folder, text.as_bytes(), "--danish");
    }
}

#[test]
fn what_has_no_code_is_refused_with_its_place() {
    let folder = folder();
    for (host, words) in [
        (
            "Å\nø é\n".as_bytes(),
            "host: line 2, column 3: 'é' is not in the Danish 7-bit set",
        ),
        (
            "A\r\nB\rÜ".as_bytes(),
            "host: line 3, column 1: 'Ü' is not in",
        ),
        (
            b"a[0]",
            "host: line 1, column 2: '[' would become the letter Æ",
        ),
        (b"\\", "line 1, column 1: '\\' would become the letter Ø"),
        (b"a ]", "line 1, column 3: ']' would become the letter Å"),
        (
            "øø{".as_bytes(),
            "line 1, column 3: '{' would become the letter æ",
        ),
        (b"|", "line 1, column 1: '|' would become the letter ø"),
        (b"\n\n}", "line 3, column 1: '}' would become the letter å"),
        (b"R\xD8D", "host: line 1, column 2: this is no UTF-8"),
        (
            "A\u{30A}".as_bytes(),
            "line 1, column 2: '\\u{30a}' is not in",
        ),
        (b"a\0", "host: line 1, column 2: a text has no zero bytes"),
    ] {
        folder.write("host", host);
        folder.bad(&["put", "a.img", "PASS", "host", "--danish"], 3, words);
    }
    folder.write("host", b"one\ntwo\0");
    let zero = "host: line 2, column 4: a text has no zero bytes";
    folder.bad(&["put", "a.img", "PASS", "host", "--text"], 3, zero);
}

#[test]
fn a_file_of_eight_bits_is_no_danish_text() {
    let folder = folder();
    folder.write("host", b"ab\r\nc\x85");
    folder.good(&["put", "a.img", "PASS", "host"]);
    let words = "ruzkemp: PASS: line 2, column 2: the byte 85h is no character of 7 bits\n";
    folder.bad(&["get", "a.img", "PASS", "out", "--danish"], 3, words);
    folder.bad(&["get", "a.img", "PASS", "-", "--danish"], 3, words);
    folder.bad(&["get", "a.img", "--all", "dir", "--danish"], 3, words);
    assert!(!folder.file("dir").exists());
}

/// A text is read whole, so that its length is known.
#[test]
fn a_text_from_a_pipe_replaces_a_file_of_fixed_length() {
    let folder = folder();
    folder.good(&["create", "a.img", "PASS", "--size", "3"]);
    let put = ["put", "a.img", "PASS", "-", "--replace", "--text"];
    let done = folder.run_with(&put, b"one\n");
    assert_eq!((done.status, done.err.as_str()), (0, ""));
    assert_eq!(stored(&folder, 6), b"one\r\n\0");
    let shown = folder.good(&["show", "a.img", "PASS"]);
    assert!(
        shown.contains("attributes  0000h: none\nlength      1 sector "),
        "{shown}"
    );
}

#[test]
fn a_text_too_long_for_any_unit_is_not_read_to_its_end() {
    let folder = folder();
    let put = ["put", "a.img", "PASS", "/dev/zero", "--text"];
    folder.bad(&put, 3, "/dev/zero: the text is longer than a unit");
    folder.write("host", &[b'\n'; 2_000]);
    let put = ["put", "a.img", "PASS", "host", "--text"];
    // 2000 lines of CR LF.
    let full = "output PASS: refused with 0900h: no slice is free: 8 blocks and the index take \
                5 slices; free before: 4\n";
    folder.bad(&put, 1, full);
}

#[test]
fn many_texts_go_in_and_out() {
    let folder = folder();
    std::fs::create_dir(folder.file("in")).expect("created");
    folder.write("in/A", "Sæson 1979\n".as_bytes());
    folder.write("in/B", "Påske\n".as_bytes());
    folder.good(&["put", "a.img", "--all", "in", "--danish"]);
    folder.good(&["get", "a.img", "--all", "out", "--danish"]);
    for name in ["A", "B"] {
        let [host, back] = ["in", "out"].map(|place| folder.read(&format!("{place}/{name}")));
        assert!(host == back, "{name}");
    }
    folder.write("in/B", "Påske {1979}\n".as_bytes());
    let put = ["put", "a.img", "--all", "in", "--danish", "--replace"];
    folder.bad(&put, 3, "in/B: line 1, column 7: '{' would become");
}
