//! Names: legal, and as a text.

use crate::types::Name;

/// The unit that a message's name asks for.
pub(super) fn unit_in(name: Name) -> u16 {
    name[2] % 256
}

/// The text of a legal name: its characters as they are, so that two texts are equal only when all
/// five characters are.
pub(super) fn text(name: Name) -> Option<String> {
    let bytes: Vec<u8> = vec![
        (name[0] / 256) as u8,
        (name[0] % 256) as u8,
        (name[1] / 256) as u8,
        (name[1] % 256) as u8,
        (name[2] / 256) as u8,
    ];
    let end = bytes.iter().position(|&byte| byte == 0).unwrap_or(5);
    let (used, rest) = bytes.split_at(end);
    let digit = |byte: u8| (48..=57).contains(&byte);
    let letter = |byte: u8| (65..=90).contains(&byte) || (97..=122).contains(&byte);
    let first = used.first().is_some_and(|&byte| letter(byte));
    let all = used.iter().all(|&byte| letter(byte) || digit(byte));
    if !first || !all || rest.iter().any(|&byte| byte != 0) {
        return None;
    }
    Some(used.iter().map(|&byte| byte as char).collect())
}

/// The words of a name's text, sixth character 0.
pub(super) fn words_of(text: &str) -> [u16; 3] {
    let at = |place: usize| text.as_bytes().get(place).map_or(0, |&byte| byte as u16);
    [
        at(0) * 256 + at(1),
        at(2) * 256 + at(3),
        if text.len() > 4 { at(4) * 256 } else { 0 },
    ]
}
