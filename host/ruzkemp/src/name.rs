//! Names of files.

use std::fmt;
use std::str::FromStr;

/// A name as a message has it: five characters, the high half of a word first, and as sixth
/// character the number of the unit.
pub type NameWords = [u16; 3];

/// The name of a file: up to five characters, as given.
///
/// Two names are equal exactly if they name the same file on a unit, that is if all five characters
/// are: `Pass` and `PASS` are two files. The sixth character, the unit, is left out. The order is
/// that of the listing, by the words as unsigned numbers, the first word first: the end of a name
/// comes before digits, these before capitals, and these before small letters.
#[derive(Clone, Copy, PartialEq, Eq, PartialOrd, Ord, Hash, Debug)]
pub struct Name([u8; 5]);

/// Why a text is no name.
#[derive(Clone, Copy, PartialEq, Eq, Debug)]
pub enum NameError {
    /// The text is empty or has more than five characters.
    Length,
    /// The first character is no letter from A to Z or a to z.
    First,
    /// A character is neither a letter from A to Z or a to z nor a digit.
    Character(char),
}

impl Name {
    /// The name of the catalog; `sys` is an ordinary file's.
    pub const SYS: Name = Name(*b"SYS\0\0");
    /// The name of the map; `map` is an ordinary file's.
    pub const MAP: Name = Name(*b"MAP\0\0");

    /// The name of a text: one to five characters, a letter and then letters or digits.
    pub fn new(text: &str) -> Result<Name, NameError> {
        let wrong = |c: &char| !c.is_ascii_alphanumeric();
        if let Some(character) = text.chars().find(wrong) {
            return Err(NameError::Character(character));
        }
        if !(1..=5).contains(&text.len()) {
            return Err(NameError::Length);
        }
        if !text.as_bytes()[0].is_ascii_alphabetic() {
            return Err(NameError::First);
        }
        let mut characters = [0; 5];
        characters[..text.len()].copy_from_slice(text.as_bytes());
        Ok(Name(characters))
    }

    /// The name in three words, whatever they are; the sixth character is left out.
    pub fn from_words(words: NameWords) -> Name {
        let [[a, b], [c, d], [e, _]] = words.map(u16::to_be_bytes);
        Name([a, b, c, d, e])
    }

    /// The name in three words, the sixth character 0.
    pub fn words(self) -> NameWords {
        self.on_unit(0)
    }

    /// The name in three words, with the unit as sixth character. That has eight bits: any unit above
    /// 254 is 255 there, which no unit is.
    pub fn on_unit(self, unit: u16) -> NameWords {
        let [a, b, c, d, e] = self.0;
        let unit = u8::try_from(unit).unwrap_or(u8::MAX);
        [[a, b], [c, d], [e, unit]].map(u16::from_be_bytes)
    }

    /// Whether a file may have the name: a letter, then letters or digits, then zeros.
    pub fn is_legal(self) -> bool {
        let used = self.0.iter().take_while(|&&c| c != 0).count();
        let (text, rest) = self.0.split_at(used);
        text.first().is_some_and(u8::is_ascii_alphabetic)
            && text.iter().all(u8::is_ascii_alphanumeric)
            && rest.iter().all(|&c| c == 0)
    }
}

impl fmt::Display for Name {
    /// The characters up to the last that is not 0; one that is no visible ASCII is escaped.
    fn fmt(&self, f: &mut fmt::Formatter<'_>) -> fmt::Result {
        let used = self
            .0
            .iter()
            .rposition(|&c| c != 0)
            .map_or(0, |last| last + 1);
        f.pad(&self.0[..used].escape_ascii().to_string())
    }
}

impl FromStr for Name {
    type Err = NameError;

    fn from_str(text: &str) -> Result<Name, NameError> {
        Name::new(text)
    }
}

impl TryFrom<&str> for Name {
    type Error = NameError;

    fn try_from(text: &str) -> Result<Name, NameError> {
        Name::new(text)
    }
}

impl fmt::Display for NameError {
    fn fmt(&self, f: &mut fmt::Formatter<'_>) -> fmt::Result {
        match self {
            NameError::Length => f.write_str("a name has one to five characters"),
            NameError::First => f.write_str("a name begins with a letter"),
            NameError::Character(wrong) => {
                write!(
                    f,
                    "{wrong:?} is neither a letter from A to Z or a to z nor a digit"
                )
            }
        }
    }
}

impl std::error::Error for NameError {}
