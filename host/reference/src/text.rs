//! Names and numbers as they are read by people, and what two names are to them.

use crate::types::Name;

/// The most names in a line.
pub(crate) const NAMED: usize = 16;

/// The six characters of a name.
pub(crate) fn characters_of(name: Name) -> [u8; 6] {
    let mut characters = [0; 6];
    for (pair, word) in characters.chunks_exact_mut(2).zip(name) {
        pair.copy_from_slice(&word.to_be_bytes());
    }
    characters
}

/// Whether two names differ, and in case only; sixth characters are not looked at.
pub fn differ_in_case(one: Name, other: Name) -> bool {
    let (one, other) = (characters_of(one), characters_of(other));
    one[..5] != other[..5] && one[..5].eq_ignore_ascii_case(&other[..5])
}

/// A name in letters and digits, with all else as `%` and two digits of base 16; the zeros at its
/// end are left out.
pub fn name_text(name: Name) -> String {
    let characters = characters_of(name);
    let used = characters.iter().rposition(|&character| character != 0);
    let characters = &characters[..used.map_or(1, |last| last + 1)];
    let escaped = |&character: &u8| match character.is_ascii_alphanumeric() {
        true => (character as char).to_string(),
        false => format!("%{character:02X}"),
    };
    characters.iter().map(escaped).collect()
}

/// Names in a line; `more` are counted only.
pub(crate) fn names_text(names: &[Name], more: usize) -> String {
    let shown = &names[..names.len().min(NAMED)];
    let more = more + names.len() - shown.len();
    let mut text: Vec<String> = shown.iter().map(|&name| name_text(name)).collect();
    if more > 0 {
        text.push(format!("{more} more"));
    }
    match text.split_last() {
        Some((last, before)) if !before.is_empty() => format!("{} and {last}", before.join(", ")),
        _ => text.concat(),
    }
}

/// A number of things, in words.
pub(crate) fn count(number: usize, thing: &str) -> String {
    match number {
        1 => format!("1 {thing}"),
        many => format!("{many} {thing}s"),
    }
}

#[cfg(test)]
mod tests {
    use super::*;

    #[test]
    fn names_differ_in_case_only_by_their_letters() {
        assert!(differ_in_case([0x4161, 0x6200, 0], [0x6141, 0x4200, 7]));
        assert!(!differ_in_case([0x4100, 0, 0], [0x4200, 0, 0]));
        // 40h and 60h, 5Bh and 7Bh differ in the same bit, and are no letters.
        assert!(!differ_in_case([0x4140, 0, 0], [0x4160, 0, 0]));
        assert!(!differ_in_case([0x415B, 0, 0], [0x417B, 0, 0]));
    }

    #[test]
    fn a_name_is_shown_without_the_zeros_at_its_end() {
        assert_eq!(name_text([0x4100, 0, 0]), "A");
        assert_eq!(name_text([0x2E2E, 0x2F58, 0]), "%2E%2E%2FX");
        assert_eq!(name_text([0x4100, 0x4200, 0]), "A%00B");
        assert_eq!(name_text([0, 0, 0]), "%00");
    }
}
