//! Entry-only files, withdrawn by R-9: worked on paper, on the unit of P5 (H = 1, s = 2, N = 20,
//! F = 10) as an old disc has it, with NOTE in place 2 of sector 10, behind SYS and MAP.

mod common;

use common::{record, Pair};
use reference::layout::{legal_attributes, may_be_given};
use reference::{Message, Operation};

const KEPT: u16 = 0xFFFF;

/// NOTE ('NO' 4E4Fh, 'TE' 5445h): optional 1 to 3, bit 13, no length, index or slices, tail 11 to 16.
const NOTE: [u16; 16] = [
    0x4E4F, 0x5445, 0, 1, 2, 3, 0x0004, 0, 0, 0, 11, 12, 13, 14, 15, 16,
];

/// The unit with NOTE written into its image, with these attributes.
fn with_note(attributes: u16) -> Pair {
    let mut unit = Pair::new(1, 2, 20, 10).unit;
    unit.image[256 * 10 + 32..][..16].copy_from_slice(&NOTE);
    unit.image[256 * 10 + 32 + 6] = attributes;
    Pair::over(unit)
}

/// The words of place 2, where NOTE stands.
fn place(pair: &Pair) -> &[u16] {
    &pair.unit.image[256 * 10 + 32..][..16]
}

/// Lent words of a Change: no new name, optional 7 to 9, tail 21 to 26.
fn lent(attributes: u16, length: u16) -> Vec<u16> {
    let mut entry = record("", attributes, length);
    entry[3..6].copy_from_slice(&[7, 8, 9]);
    entry[10..].copy_from_slice(&[21, 22, 23, 24, 25, 26]);
    entry
}

/// NOTE after a Change by such words: optional and tail are the lent ones.
fn changed(attributes: u16, [length, index, reserved]: [u16; 3]) -> [u16; 16] {
    let mut entry = NOTE;
    entry[3..6].copy_from_slice(&[7, 8, 9]);
    entry[6..10].copy_from_slice(&[attributes, length, index, reserved]);
    entry[10..].copy_from_slice(&[21, 22, 23, 24, 25, 26]);
    entry
}

/// Says that no slice is held but SYS's: P5's map 7800h, free 8.
fn is_free(pair: &Pair) {
    assert_eq!((pair.word(9, 0), pair.free()), (0x7800, 8));
}

#[test]
fn it_is_found_and_listed() {
    let mut pair = with_note(0x0004);
    assert_eq!(pair.entry("NOTE"), NOTE);
    let (answer, lent) = pair.call(Message::Listing { unit: 0 }, &[9; 48]);
    assert_eq!((answer.result, answer.entries), (0, 3));
    // 'MA' 4D41h, 'NO' 4E4Fh, 'SY' 5359h.
    let second: Vec<u16> = lent[16..32].to_vec();
    assert_eq!((lent[0], second, lent[32]), (0x4D41, NOTE.to_vec(), 0x5359));
}

#[test]
fn it_is_kept() {
    // Any negative word keeps the attributes, one with bit 13 too; a length of 0 is the old one.
    for attributes in [0x0004, 0x4004, 0x000C] {
        for keeping in [KEPT, 0x8000, 0x8004] {
            for length in [KEPT, 0] {
                let mut pair = with_note(attributes);
                assert_eq!(pair.change("NOTE", &lent(keeping, length)), 0);
                assert_eq!(place(&pair), changed(attributes, [0, 0, 0]));
                is_free(&pair);
            }
        }
    }
    // need(1) = 1: a slice and bit 13, after the message.
    let mut pair = with_note(0x0004);
    for keeping in [KEPT, 0x8000, 0x8004] {
        assert_eq!(pair.change("NOTE", &lent(keeping, 1)), 0x1200);
    }
    assert_eq!(place(&pair), NOTE);
}

#[test]
fn it_is_renamed() {
    let mut pair = with_note(0x0004);
    assert_eq!(pair.create("PASS", 0, 0), 0);
    assert_eq!(pair.change("NOTE", &record("PASS", KEPT, KEPT)), 0x1010);
    // The own place counts as unused. 'ME' 4D45h, 'MO' 4D4Fh.
    let mut memo = lent(KEPT, 0);
    memo[..2].copy_from_slice(&[0x4D45, 0x4D4F]);
    let mut renamed = changed(0x0004, [0, 0, 0]);
    renamed[..2].copy_from_slice(&[0x4D45, 0x4D4F]);
    assert_eq!(pair.change("NOTE", &memo), 0);
    assert_eq!(place(&pair), renamed);
    assert_eq!(pair.change("NOTE", &memo), 0x5000);
    // With a new name it has no slices either.
    assert_eq!(pair.change("MEMO", &record("NOTE", KEPT, 1)), 0x1200);
    is_free(&pair);
}

#[test]
fn it_is_made_an_ordinary_file() {
    for attributes in [0x0000, 0x0001, 0x4000, 0x0008, 0x0010, 0x4019] {
        for length in [KEPT, 0] {
            let mut pair = with_note(0x0004);
            assert_eq!(pair.change("NOTE", &lent(attributes, length)), 0);
            assert_eq!(place(&pair), changed(attributes, [0, 0, 0]));
            is_free(&pair);
            // And stays one.
            assert_eq!(pair.change("NOTE", &record("", 0x0004, KEPT)), 0x1200);
        }
    }
    // A permanent file may change in nothing else; optional and tail stay.
    let mut pair = with_note(0x0014);
    assert_eq!(pair.change("NOTE", &lent(0x0010, 1)), 0x1200);
    assert_eq!(pair.change("NOTE", &record("MEMO", 0x0010, KEPT)), 0x1200);
    assert_eq!(pair.change("NOTE", &lent(0x0010, 0)), 0);
    let mut permanent = NOTE;
    permanent[6] = 0x0010;
    assert_eq!(place(&pair), permanent);
}

#[test]
fn it_is_made_an_ordinary_file_with_a_length() {
    // P6 in one message: need(2) = 2, slices 2 and 3 from sector 12 on, 1800h and 4 free.
    let mut pair = with_note(0x0004);
    assert_eq!(pair.change("NOTE", &lent(0x0001, 2)), 0);
    assert_eq!(place(&pair), changed(0x0001, [2, 12, 4]));
    assert_eq!(pair.unit.image[256 * 12..][..3], [1, 4, 12]);
    assert_eq!((pair.word(9, 0), pair.free()), (0x1800, 4));
    // Blocks 0 and 1 are zero, the slack keeps its words.
    assert_eq!(pair.unit.image[256 * 13..256 * 15], [0; 512]);
    assert_eq!(pair.unit.image[256 * 15..256 * 16], [0x5555; 256]);
    // need(7) = 4 slices are free, need(8) = 5 are not. A new name goes with it.
    let mut pair = with_note(0x0004);
    assert_eq!(pair.change("NOTE", &lent(0, 8)), 0x1100);
    assert_eq!(place(&pair), NOTE);
    assert_eq!(pair.change("NOTE", &record("MEMO", 0, 7)), 0);
    assert_eq!(pair.entry("MEMO")[6..10], [0, 7, 12, 8]);
    assert_eq!((pair.word(9, 0), pair.free()), (0, 0));
}

#[test]
fn it_is_removed() {
    for attributes in [0x0004, 0x400C] {
        let mut pair = with_note(attributes);
        assert_eq!(pair.remove("NOTE"), 0);
        assert_eq!(place(&pair), [0; 16]);
        is_free(&pair);
    }
    assert_eq!(with_note(0x0014).remove("NOTE"), 0x1200);
}

#[test]
fn it_is_opened_and_closed() {
    for (attributes, output) in [(0x0004, 0x0A00), (0x000C, 0x0C00)] {
        let mut pair = with_note(attributes);
        let before = place(&pair).to_vec();
        assert_eq!(pair.create_area("NOTE"), 0);
        let area = pair.unit.state.areas[0];
        assert_eq!((area.index, area.length), (0, 0));
        assert_eq!(pair.change("NOTE", &record("", 0, KEPT)), 0x1200);
        assert_eq!(pair.remove("NOTE"), 0x1200);
        assert_eq!(pair.area("NOTE", 1, Operation::Reserve(3)), 0);
        // No bit 15: the end is at 0 and no block is appended.
        for (operation, block, result) in [
            (1, 0, 0x0A00),
            (5, 0, 0x0A00),
            (5, 1, 0x0810),
            (3, 0, output),
            (7, 0, output),
            (19, 0, output),
        ] {
            assert_eq!(pair.transput("NOTE", 1, operation, block, 9).0, result);
        }
        assert_eq!(pair.area("NOTE", 1, Operation::Position(0)), 0);
        assert_eq!(pair.area("NOTE", 1, Operation::Position(1)), 0x0810);
        assert_eq!(pair.area("NOTE", 1, Operation::Sense), 0);
        assert_eq!(pair.area("NOTE", 1, Operation::Reserve(0)), 0);
        assert_eq!(pair.remove_area("NOTE"), 0);
        assert_eq!(place(&pair), before);
        is_free(&pair);
    }
}

#[test]
fn it_is_written_once_it_is_extendable() {
    let mut pair = with_note(0x0004);
    assert_eq!(pair.change("NOTE", &lent(0x0001, KEPT)), 0);
    assert_eq!(pair.create_area("NOTE"), 0);
    assert_eq!(pair.area("NOTE", 1, Operation::Reserve(3)), 0);
    assert_eq!(pair.transput("NOTE", 1, 3, 0, 0x1111).0, 0);
    assert_eq!(pair.area("NOTE", 1, Operation::Reserve(0)), 0);
    assert_eq!(pair.remove_area("NOTE"), 0);
    // One block in slice 2: sectors 12 and 13.
    assert_eq!(place(&pair), changed(0x0001, [1, 12, 2]));
    assert_eq!(pair.unit.image[256 * 13..256 * 14], [0x1111; 256]);
}

/// Attributes that are not negative and contain bit 13: alone, with bits that may be given, with bit
/// 15, with bits that no file has.
const GIVEN: [u16; 10] = [
    0x0004, 0x4004, 0x0014, 0x000C, 0x401C, 0x0005, 0x401D, 0x0006, 0x2004, 0x7FFF,
];

#[test]
fn no_call_gives_bit_13() {
    for given in GIVEN {
        // The file is NOTE, which has bit 13, FIXED, which has one slice, or BARE, which has none.
        let mut pair = with_note(0x0004);
        assert_eq!(pair.create("FIXED", 1, 0), 0);
        assert_eq!(pair.create("BARE", 0, 0), 0);
        for size in [0, 1] {
            assert_eq!(pair.create("NEW", size, given), 0x1200);
            assert_eq!(pair.set("NEW", &record("", given, size)), 0x1200);
        }
        for file in ["NOTE", "FIXED", "BARE"] {
            for length in [KEPT, 0, 1] {
                assert_eq!(pair.change(file, &record("", given, length)), 0x1200);
                assert_eq!(pair.change(file, &record("NEW", given, length)), 0x1200);
            }
        }
        assert_eq!(place(&pair), NOTE);
    }
    // Negative: none given in Change, illegal in Set and Create.
    let mut pair = with_note(0x0004);
    assert_eq!(pair.create("BARE", 0, 0x0008), 0);
    assert_eq!(pair.change("BARE", &record("", 0x8004, KEPT)), 0);
    assert_eq!(pair.entry("BARE")[6], 0x0008);
    assert_eq!(pair.create("NEW", 0, 0x8004), 0x1200);
    assert_eq!(pair.set("NEW", &record("", 0x8004, 0)), 0x1200);
}

#[test]
fn it_is_question_4() {
    let mut pair = with_note(0x0004);
    assert_eq!(pair.create("FIXED", 1, 0), 0);
    // After the third.
    assert_eq!(pair.change("NONE", &record("", 0x0004, KEPT)), 0x5000);
    // Before the sixth, where the name is used, and the seventh, where the slices are too few.
    assert_eq!(pair.create("FIXED", 0, 0x0004), 0x1200);
    assert_eq!(pair.set("FIXED", &record("", 0x0004, 0)), 0x1200);
    assert_eq!(pair.change("NOTE", &record("FIXED", 0x0004, KEPT)), 0x1200);
    assert_eq!(pair.change("NOTE", &record("FIXED", 0x0000, KEPT)), 0x1010);
    assert_eq!(pair.create("NEW", 0x7FFF, 0x0004), 0x1200);
    assert_eq!(pair.create("NEW", 0x7FFF, 0x0000), 0x1100);
}

#[test]
fn what_may_be_given_is_what_a_file_may_have_without_bit_13() {
    for attributes in 0..=0xFFFF {
        let may_have = legal_attributes(attributes, 0);
        let expected = may_have && attributes & 0x0004 == 0;
        assert_eq!(may_be_given(attributes), expected, "{attributes:04X}h");
    }
    // The units of before stay sound: 13 without slices and without 15, beside 1, 11 and 12.
    let kept: Vec<u16> = (0..=0xFFFF)
        .filter(|a| a & 4 != 0 && legal_attributes(*a, 0))
        .collect();
    let bits = [0, 8, 16, 24, 0x4000, 0x4008, 0x4010, 0x4018];
    assert_eq!(kept, bits.map(|others| others | 4));
    assert!(kept
        .iter()
        .all(|attributes| !legal_attributes(*attributes, 1)));
}
