//! Names, legal and as messages bring them.

use std::collections::HashMap;

use crate::layout::{key, MAP, SYS};
use crate::random::Random;
use crate::text::characters_of;
use crate::types::Name;

/// Capitals and digits, the capitals first.
const CAPITALS: &[u8; 36] = b"ABCDEFGHIJKLMNOPQRSTUVWXYZ0123456789";
/// What no name has: the characters next to the letters' and digits' ranges, and some others.
const ILLEGAL: &[u8; 12] = b"@[`{/: \x01\x5C\x7D\xC1\xE1";

/// A legal name of capitals and digits, sixth character 0.
pub fn name_in_capitals(random: &mut Random) -> Name {
    let mut characters = [0u8; 6];
    characters[0] = CAPITALS[random.below(26)];
    let length = random.between(1, 5);
    for character in &mut characters[1..length] {
        *character = CAPITALS[random.below(36)];
    }
    words_of(characters)
}

/// A legal name, sixth character 0: of capitals, or with small letters.
pub fn name(random: &mut Random) -> Name {
    let name = name_in_capitals(random);
    if random.chance(50) {
        other_case(random, name)
    } else {
        name
    }
}

/// A name that differs from another in case only: at least one letter is small where it was a
/// capital, or the reverse. Words without a letter stay as they are.
pub fn other_case(random: &mut Random, name: Name) -> Name {
    let mut characters = characters_of(name);
    let is_letter = |place: &usize| characters[*place].is_ascii_alphabetic();
    let letters: Vec<usize> = (0..5).filter(is_letter).collect();
    let certain = random.below(letters.len().max(1));
    for (number, place) in letters.into_iter().enumerate() {
        if number == certain || random.chance(50) {
            characters[place] ^= b'a' - b'A';
        }
    }
    words_of(characters)
}

/// Those of the names beside which another one stands that differs in case only.
pub(super) fn in_two_cases(names: &[Name]) -> Vec<Name> {
    let capitals = |name: &Name| characters_of(*name).map(|c| c.to_ascii_uppercase());
    let mut number: HashMap<[u8; 6], usize> = HashMap::new();
    for name in names {
        *number.entry(capitals(name)).or_default() += 1;
    }
    let is_one_of_two = |name: &&Name| number[&capitals(name)] > 1;
    names.iter().filter(is_one_of_two).copied().collect()
}

/// A legal name that has another one's characters but for the last, or one character more: the
/// listing's order hangs on their last word.
fn neighbour(random: &mut Random, other: Name) -> Name {
    let mut characters = characters_of(other);
    let length = characters.iter().take_while(|&&c| c != 0).count();
    let place = random.between((length - 1).max(1), length.min(4));
    characters[place] = CAPITALS[random.below(36)];
    if random.chance(40) {
        characters[place].make_ascii_lowercase();
    }
    words_of(characters)
}

/// Distinct legal names, many of them of one key, SYS and MAP not among them.
pub fn names(random: &mut Random, h: usize, number: usize) -> Vec<Name> {
    let crowded_key = match random.below(3) {
        0 => key(SYS, h),
        1 => key(MAP, h),
        _ => random.below(h),
    };
    names_of(random, h, number, crowded_key)
}

/// Distinct legal names, most of them of the given key, some of them neighbours and some that differ
/// in case only, from each other or from SYS and MAP; these two are not among them.
pub(super) fn names_of(
    random: &mut Random,
    h: usize,
    number: usize,
    crowded_key: usize,
) -> Vec<Name> {
    let mut names = vec![SYS, MAP];
    while names.len() < number + 2 {
        let other = random.pick(&names);
        let candidate = match random.below(20) {
            0..=2 => neighbour(random, other),
            3..=6 => other_case(random, other),
            7 => {
                let system = random.pick(&[SYS, MAP]);
                other_case(random, system)
            }
            _ => name_of(random, h, crowded_key),
        };
        if !names.contains(&candidate) {
            names.push(candidate);
        }
    }
    names.split_off(2)
}

/// A legal name, most of the time of the given key.
fn name_of(random: &mut Random, h: usize, crowded_key: usize) -> Name {
    let mut candidate = name(random);
    if random.chance(70) {
        while key(candidate, h) != crowded_key {
            candidate = name(random);
        }
    }
    candidate
}

/// The name of six characters.
fn words_of(characters: [u8; 6]) -> Name {
    let mut name = [0; 3];
    for (word, pair) in name.iter_mut().zip(characters.chunks_exact(2)) {
        *word = u16::from_be_bytes([pair[0], pair[1]]);
    }
    name
}

/// A character that no name has, most of the time one next to the letters or digits.
pub(super) fn illegal(random: &mut Random) -> u8 {
    let number = random.pick(&[6, 6, ILLEGAL.len()]);
    ILLEGAL[random.below(number)]
}

/// A name as a message may bring it: in another case, with an illegal character or one too many or
/// too few, with a wrong unit.
pub(super) fn in_message(random: &mut Random, name: Name, unit: u16) -> Name {
    let mut characters = characters_of(name);
    if random.chance(8) {
        characters = characters_of(other_case(random, name));
    }
    match random.below(100) {
        0 | 1 => characters[random.below(5)] = illegal(random),
        2 => characters[random.below(5)] = random.pick(&[0, b'0', b'a', b'A']),
        _ => {}
    }
    characters[5] = unit as u8;
    if random.chance(2) {
        characters[5] = random.pick(&[0, 1, 2, 3, 4, 255, b' ']);
    }
    words_of(characters)
}

#[cfg(test)]
mod tests {
    use super::*;
    use crate::layout::legal;
    use crate::text::differ_in_case;

    #[test]
    fn names_are_legal_and_in_both_cases() {
        let random = &mut Random::new(8);
        let made = names(random, 3, 400);
        assert!(made.iter().all(|name| legal(*name) == Some(*name)));
        let is_small = |name: &&Name| characters_of(**name).iter().any(u8::is_ascii_lowercase);
        let small = made.iter().filter(is_small).count();
        assert!((100..300).contains(&small), "{small}");
        let twice = in_two_cases(&made);
        assert!(twice.len() > 50, "{}", twice.len());
        for name in &twice {
            assert!(made.iter().any(|other| differ_in_case(*name, *other)));
        }
        let of_system = |name: &&Name| differ_in_case(**name, SYS) || differ_in_case(**name, MAP);
        assert!(made.iter().filter(of_system).count() > 5);
    }

    #[test]
    fn another_case_differs_in_case_only() {
        let random = &mut Random::new(9);
        for _ in 0..1_000 {
            let one = name(random);
            let other = other_case(random, one);
            assert!(differ_in_case(one, other) && differ_in_case(other, one));
            assert_eq!(legal(other), Some(other));
            assert!(!differ_in_case(one, one));
        }
        assert_eq!(other_case(random, [0x3131, 0, 7]), [0x3131, 0, 7]);
    }

    #[test]
    fn no_name_has_an_illegal_character() {
        for character in ILLEGAL {
            let word = u16::from_be_bytes([b'A', *character]);
            assert_eq!(legal([word, 0, 0]), None, "{character:02X}h");
        }
        let random = &mut Random::new(10);
        assert!((0..100).all(|_| ILLEGAL.contains(&illegal(random))));
    }
}
