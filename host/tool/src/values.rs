//! Numbers, names and attributes as a user writes them.

use ruzkemp::{Attributes, NameWords};

/// The attributes that are given by name; bit 1 is carried without meaning and set by number only.
pub const ATTRIBUTES: [(&str, Attributes); 3] = [
    ("extendable", Attributes::EXTENDABLE),
    ("permanent", Attributes::PERMANENT),
    ("write-protected", Attributes::WRITE_PROTECTED),
];

/// A 16-bit word: decimal, or base 16 as `0x1F` or `1Fh`.
pub fn number(text: &str) -> Result<u16, String> {
    let number = long(text).map_err(|wrong| wrong.text(text, 16))?;
    u16::try_from(number).map_err(|_| Wrong::TooLarge.text(text, 16))
}

/// The same, but for a number past 16 bits the largest word.
pub fn nearest_word(text: &str) -> Result<u16, String> {
    match long(text) {
        Ok(number) => Ok(u16::try_from(number).unwrap_or(u16::MAX)),
        Err(Wrong::TooLarge) => Ok(u16::MAX),
        Err(wrong) => Err(wrong.text(text, 16)),
    }
}

/// A number of bytes of a file, in the same two bases.
pub fn bytes(text: &str) -> Result<u64, String> {
    long(text).map_err(|wrong| wrong.text(text, 64))
}

/// A sector of a file of any length, in the same two bases.
pub fn sector(text: &str) -> Result<u64, String> {
    // The last byte of the largest unit that begins there has a place in a file.
    const LAST: u64 = i64::MAX as u64 / 512 - 32_768;
    match bytes(text)? {
        sector @ 0..=LAST => Ok(sector),
        _ => Err(format!("{text} is past the end of any file")),
    }
}

/// Why a text is no number.
enum Wrong {
    Form,
    TooLarge,
}

impl Wrong {
    fn text(self, given: &str, bits: u8) -> String {
        match self {
            Wrong::Form => format!("'{given}' is no number (write 31, 0x1F or 1Fh)"),
            Wrong::TooLarge => format!("{given} does not fit in {bits} bits"),
        }
    }
}

/// A number of at most 64 bits: decimal, or base 16 as `0x1F` or `1Fh`.
fn long(text: &str) -> Result<u64, Wrong> {
    let lower = text.to_ascii_lowercase();
    let (digits, base) = match (lower.strip_prefix("0x"), lower.strip_suffix('h')) {
        (Some(digits), _) | (None, Some(digits)) => (digits, 16),
        (None, None) => (lower.as_str(), 10),
    };
    let plain = !digits.is_empty() && digits.chars().all(|digit| digit.is_digit(base));
    if !plain {
        return Err(Wrong::Form);
    }
    u64::from_str_radix(digits, base).map_err(|_| Wrong::TooLarge)
}

/// A file's length in sectors. Above 32,767 the word is negative: Create and Set would refuse it,
/// and Change would read it as 'keep'.
pub fn sectors(text: &str) -> Result<u16, String> {
    match number(text)? {
        sectors @ 0..=0x7FFF => Ok(sectors),
        sectors => Err(format!(
            "{sectors} is too large: a file has 0 to 32767 sectors"
        )),
    }
}

/// Words divided by commas, exactly so many.
pub fn words<const N: usize>(text: &str) -> Result<[u16; N], String> {
    let words = word_list(text)?;
    let given = words.len();
    let word = if N == 1 { "word" } else { "words" };
    <[u16; N]>::try_from(words).map_err(|_| format!("{N} {word} expected, {given} given"))
}

/// Words divided by commas.
pub fn word_list(text: &str) -> Result<Vec<u16>, String> {
    text.split(',').map(number).collect()
}

/// A unit number as a message can carry it: it has one character.
pub fn unit(text: &str) -> Result<u16, String> {
    match number(text)? {
        unit @ 0..=255 => Ok(unit),
        unit => Err(format!(
            "unit {unit} does not fit in a name's sixth character"
        )),
    }
}

/// The words of a name of one to five characters, with the unit as sixth. Whether its
/// characters are legal is for the unit to say.
pub fn name_words(text: &str, unit: u16) -> Result<NameWords, String> {
    let fits = (1..=5).contains(&text.len()) && text.is_ascii();
    if !fits {
        return Err(format!(
            "'{}' is no name: a name has one to five characters of ASCII",
            text.escape_default()
        ));
    }
    let mut characters = [0; 6];
    characters[..text.len()].copy_from_slice(text.as_bytes());
    let [a, b, c, d, e, _] = characters;
    Ok([[a, b], [c, d], [e, unit as u8]].map(u16::from_be_bytes))
}

/// Attributes by number, or by name with `+` between them; `none` is 0.
pub fn attributes(text: &str) -> Result<Attributes, String> {
    if text == "none" {
        return Ok(Attributes::NONE);
    }
    let has_digit = text.starts_with(|first: char| first.is_ascii_digit());
    if has_digit || !matches!(long(text), Err(Wrong::Form)) {
        return number(text).map(Attributes::from_bits);
    }
    let mut word = Attributes::NONE;
    for part in text.split('+') {
        let named = ATTRIBUTES.iter().find(|(name, _)| *name == part);
        let (_, bit) = named.ok_or_else(|| match part {
            "entry-only" => "entry-only files are no longer created".into(),
            _ => format!("'{part}' is no attribute"),
        })?;
        word |= *bit;
    }
    Ok(word)
}

/// A number of things, in words.
pub fn count(number: impl Into<u64>, thing: &str) -> String {
    match number.into() {
        1 => format!("1 {thing}"),
        many => format!("{many} {thing}s"),
    }
}

/// Neighbouring things from a first to a last, in words.
pub fn range(thing: &str, first: usize, last: usize) -> String {
    match first == last {
        true => format!("{thing} {first}"),
        false => format!("{thing}s {first} to {last}"),
    }
}

/// Words in base 16.
pub fn hex(words: &[u16]) -> String {
    let words: Vec<String> = words.iter().map(|word| format!("{word:04X}")).collect();
    words.join(" ")
}

#[cfg(test)]
mod tests {
    use super::*;

    #[test]
    fn numbers_come_in_two_bases() {
        for (text, wanted) in [
            ("0", 0),
            ("31", 31),
            ("65535", 65_535),
            ("0x1F", 31),
            ("0X1f", 31),
            ("1Fh", 31),
            ("8010H", 0x8010),
            ("0010h", 16),
        ] {
            assert_eq!(number(text), Ok(wanted), "{text}");
        }
    }

    #[test]
    fn what_is_no_number_is_refused() {
        for text in [
            "", "h", "0x", "-1", "+1", "1F", "65536", "10000h", "1 ", "0x+1", "12_0",
        ] {
            assert!(number(text).is_err(), "{text}");
        }
    }

    #[test]
    fn numbers_past_16_bits_have_a_nearest_word() {
        for text in ["65535", "65536", "0x10000", "18446744073709551616"] {
            assert_eq!(nearest_word(text), Ok(u16::MAX), "{text}");
        }
        assert_eq!(nearest_word("1Fh"), Ok(31));
        assert!(nearest_word("-1").is_err());
    }

    #[test]
    fn a_length_is_not_negative() {
        assert_eq!(sectors("0"), Ok(0));
        assert_eq!(sectors("7FFFh"), Ok(32_767));
        for text in ["32768", "8000h", "65535", "65536", "-1", "ten"] {
            assert!(sectors(text).is_err(), "{text}");
        }
    }

    #[test]
    fn bytes_and_sectors_may_be_past_16_bits() {
        assert_eq!(bytes("0x10"), Ok(16));
        assert_eq!(bytes("10h"), Ok(16));
        assert_eq!(bytes("65536"), Ok(65_536));
        assert_eq!(bytes("0xFFFFFFFFFFFFFFFF"), Ok(u64::MAX));
        assert!(bytes("18446744073709551616").is_err());
        assert!(bytes("-1").is_err());
        assert_eq!(sector("70000"), Ok(70_000));
        assert!(sector("0xFFFFFFFFFFFFFFFF").is_err());
    }

    #[test]
    fn names_have_one_to_five_characters() {
        assert_eq!(name_words("PASS", 3), Ok([0x5041, 0x5353, 0x0003]));
        assert_eq!(name_words("ZZZZZ", 0), Ok([0x5A5A, 0x5A5A, 0x5A00]));
        assert_eq!(name_words("1 b", 0), Ok([0x3120, 0x6200, 0]));
        for text in ["", "ABCDEF", "Å"] {
            assert!(name_words(text, 0).is_err(), "{text}");
        }
    }

    #[test]
    fn attributes_have_names() {
        let bits = |text| attributes(text).map(Attributes::bits);
        assert_eq!(bits("extendable+permanent"), Ok(0x0011));
        assert_eq!(bits("write-protected"), Ok(0x0008));
        let withdrawn = "entry-only files are no longer created";
        assert_eq!(bits("permanent+entry-only"), Err(withdrawn.into()));
        assert_eq!(bits("none"), Ok(0));
        assert_eq!(bits("4001h"), Ok(0x4001));
        assert_eq!(bits("A000h"), Ok(0xA000));
        assert_eq!(bits("ffffH"), Ok(0xFFFF));
        assert_eq!(bits("FFFFFh"), Err("FFFFFh does not fit in 16 bits".into()));
        assert!(attributes("extendible").is_err());
    }

    #[test]
    fn word_lists_have_their_length() {
        assert_eq!(words::<3>("1,2,0x3"), Ok([1, 2, 3]));
        assert!(words::<3>("1,2").is_err());
        assert!(words::<3>("1,2,3,4").is_err());
        assert!(words::<3>("1,,3").is_err());
    }
}
