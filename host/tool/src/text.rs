//! Texts on the way between unit and host: line ends, the zeros at the end, and letters.
//!
//! The catalog system says nothing of what a text is. One that comes in gets CR LF at its line
//! ends, which printers and terminals of the time need; one that goes out may have CR LF, CR or
//! LF there.

use std::fmt;

use crate::arguments::{flag, Choice, Given};
use crate::letters;

/// The option for texts.
pub const TEXT: Choice = flag("--text", "a text: line ends changed, no zeros at its end");
/// The option for Danish letters.
pub const DANISH: Choice = flag(
    "--danish",
    "a text (as --text) with Danish letters: [ is Æ ..",
);

/// How a file's bytes are taken.
#[derive(Clone, Copy, PartialEq, Eq, Debug)]
pub enum Wording {
    /// As they are.
    Bytes,
    /// As a text.
    Text,
    /// As a text in the Danish 7-bit set, which is UTF-8 on the host.
    Danish,
}

impl Wording {
    /// As the options say.
    pub fn of(given: &Given) -> Wording {
        match (given.flag(DANISH.name), given.flag(TEXT.name)) {
            (true, _) => Wording::Danish,
            (false, true) => Wording::Text,
            (false, false) => Wording::Bytes,
        }
    }

    /// A host file's bytes as they stand on the unit.
    pub fn to_unit(self, bytes: Vec<u8>) -> Result<Vec<u8>, Stray> {
        if self == Wording::Bytes {
            return Ok(bytes);
        }
        let mut text = with_lf(&bytes);
        if let Some(place) = text.iter().position(|&byte| byte == 0) {
            let what = "a text has no zero bytes".into();
            return Err(Stray::after(&text[..place], what));
        }
        if self == Wording::Danish {
            text = letters::to_unit(&text)?;
        }
        Ok(with_cr_lf(&text))
    }

    /// A file's bytes as they stand on the host.
    pub fn to_host(self, bytes: Vec<u8>) -> Result<Vec<u8>, Stray> {
        if self == Wording::Bytes {
            return Ok(bytes);
        }
        let used = bytes.iter().rposition(|&byte| byte != 0);
        let text = with_lf(&bytes[..used.map_or(0, |last| last + 1)]);
        match self {
            Wording::Danish => letters::to_host(&text),
            _ => Ok(text),
        }
    }
}

/// What a text must not have, and where it has it: line and column count from 1.
#[derive(PartialEq, Eq, Debug)]
pub struct Stray {
    line: usize,
    column: usize,
    what: String,
}

impl Stray {
    /// What stands behind a part of a text whose lines end in LF.
    pub fn after(before: &[u8], what: String) -> Stray {
        let before = String::from_utf8_lossy(before);
        let last = before.rsplit('\n').next().unwrap_or_default();
        Stray {
            line: before.matches('\n').count() + 1,
            column: last.chars().count() + 1,
            what,
        }
    }
}

impl fmt::Display for Stray {
    fn fmt(&self, to: &mut fmt::Formatter) -> fmt::Result {
        let Stray { line, column, what } = self;
        write!(to, "line {line}, column {column}: {what}")
    }
}

/// A text with LF at its line ends, which may be CR LF, CR or LF.
fn with_lf(text: &[u8]) -> Vec<u8> {
    let mut lines = Vec::with_capacity(text.len());
    let mut before = 0;
    for &byte in text {
        match (before, byte) {
            (b'\r', b'\n') => {}
            (_, b'\r') => lines.push(b'\n'),
            _ => lines.push(byte),
        }
        before = byte;
    }
    lines
}

/// A text with CR LF at its line ends, which are LF.
fn with_cr_lf(text: &[u8]) -> Vec<u8> {
    let mut lines = Vec::with_capacity(text.len());
    for &byte in text {
        if byte == b'\n' {
            lines.push(b'\r');
        }
        lines.push(byte);
    }
    lines
}

#[cfg(test)]
mod tests {
    use super::*;

    #[test]
    fn the_three_line_ends_become_one() {
        for (text, wanted) in [
            (&b"a\r\nb\rc\nd"[..], &b"a\nb\nc\nd"[..]),
            (b"\r\r\n\n", b"\n\n\n"),
            (b"\n\r", b"\n\n"),
            (b"", b""),
        ] {
            assert_eq!(with_lf(text), wanted);
        }
    }

    #[test]
    fn a_text_goes_in_with_cr_lf_and_out_without_zeros() {
        let form = Wording::Text;
        let host = b"a\n\nb".to_vec();
        let unit = form.to_unit(host.clone()).expect("no zeros");
        assert_eq!(unit, b"a\r\n\r\nb");
        let filled = [&unit[..], &[0; 9]].concat();
        assert_eq!(form.to_host(filled), Ok(host));
        // Zeros elsewhere stay.
        assert_eq!(form.to_host(b"a\0b\0".to_vec()), Ok(b"a\0b".to_vec()));
    }

    #[test]
    fn a_zero_byte_is_told_with_its_place() {
        let stray = Wording::Text
            .to_unit(b"a\r\nbc\0".to_vec())
            .expect_err("zero");
        assert_eq!(
            stray.to_string(),
            "line 2, column 3: a text has no zero bytes"
        );
    }
}
