//! Danish letters: the 7-bit set of the unit's texts (ISO 646-DK) and the host's UTF-8.

use crate::text::Stray;

/// The codes that are letters in the Danish set; in ASCII they are brackets, bar and backslash.
const LETTERS: [(u8, char); 6] = [
    (b'[', 'Æ'),
    (b'\\', 'Ø'),
    (b']', 'Å'),
    (b'{', 'æ'),
    (b'|', 'ø'),
    (b'}', 'å'),
];

/// The UTF-8 of a text in the Danish set. A byte of eight bits is no character of it.
pub fn to_host(codes: &[u8]) -> Result<Vec<u8>, Stray> {
    let mut text = String::with_capacity(codes.len());
    for (place, &code) in codes.iter().enumerate() {
        if !code.is_ascii() {
            let what = format!("the byte {code:02X}h is no character of 7 bits");
            return Err(Stray::after(&codes[..place], what));
        }
        let letter = LETTERS.iter().find(|(wanted, _)| *wanted == code);
        text.push(letter.map_or(char::from(code), |(_, letter)| *letter));
    }
    Ok(text.into_bytes())
}

/// The codes of a text of UTF-8.
pub fn to_unit(text: &[u8]) -> Result<Vec<u8>, Stray> {
    let valid = std::str::from_utf8(text).map_err(|wrong| {
        let before = &text[..wrong.valid_up_to()];
        Stray::after(before, "this is no UTF-8".into())
    })?;
    let coded = valid.char_indices().map(|(place, character)| {
        code(character).map_err(|what| Stray::after(&text[..place], what))
    });
    coded.collect()
}

/// The code of a character. One whose code is a letter's is refused: it would come back as the
/// letter.
fn code(character: char) -> Result<u8, String> {
    let letter = LETTERS.iter().find(|(_, letter)| *letter == character);
    if let Some((code, _)) = letter {
        return Ok(*code);
    }
    let taken = LETTERS
        .iter()
        .find(|(code, _)| char::from(*code) == character);
    match taken {
        Some((_, letter)) => Err(format!("'{character}' would become the letter {letter}")),
        None if character.is_ascii() => Ok(character as u8),
        None => Err(format!("{character:?} is not in the Danish 7-bit set")),
    }
}

#[cfg(test)]
mod tests {
    use super::*;

    #[test]
    fn the_six_letters_have_their_codes() {
        let codes = [0x5B, 0x5C, 0x5D, 0x7B, 0x7C, 0x7D];
        let text = "ÆØÅæøå".as_bytes();
        assert_eq!(to_host(&codes).ok().as_deref(), Some(text));
        assert_eq!(to_unit(text).ok().as_deref(), Some(&codes[..]));
    }

    #[test]
    fn every_code_is_one_character_and_comes_back() {
        let codes: Vec<u8> = (0..128).collect();
        let text = to_host(&codes).expect("all have 7 bits");
        assert_eq!(String::from_utf8_lossy(&text).chars().count(), 128);
        assert_eq!(to_unit(&text).ok(), Some(codes));
    }

    #[test]
    fn what_has_no_code_is_told_with_its_place() {
        let told = |text: &[u8]| to_unit(text).expect_err("refused").to_string();
        assert_eq!(
            told("Å\nå é".as_bytes()),
            "line 2, column 3: 'é' is not in the Danish 7-bit set"
        );
        assert_eq!(
            told(b"ab|"),
            "line 1, column 3: '|' would become the letter ø"
        );
        assert_eq!(told(b"ok\n\xE6"), "line 2, column 1: this is no UTF-8");
        let stray = to_host(b"A\nBC\x85").expect_err("8 bits").to_string();
        assert_eq!(
            stray,
            "line 2, column 3: the byte 85h is no character of 7 bits"
        );
    }
}
