//! The cases worked on paper, and cases that fix one sentence each.

mod common;

use common::{record, Pair};
use reference::generate::Unit;
use reference::layout::{key, legal, name_of, need, stretches, sum, MAP, SYS};
use reference::random::Random;
use reference::{format, perform, soundness, Area, Message, Operation, Role, State, Unsound, User};

const KEPT: u16 = 0xFFFF;

/// H = 1, s = 2, N = 20, F = 10.
fn small() -> Pair {
    Pair::new(1, 2, 20, 10)
}

#[test]
fn p1_need() {
    let needs: Vec<usize> = (0..=4).map(|length| need(length, 2)).collect();
    assert_eq!(needs, [0, 1, 2, 2, 3]);
}

#[test]
fn p2_p3_p4_keys() {
    assert_eq!(sum(name_of("PASS", 0)), 0xA394);
    assert_eq!(key(name_of("PASS", 0), 3), 2);
    assert_eq!(sum(name_of("ZZZZZ", 0)), 0x0EB4);
    assert_eq!(key(name_of("ZZZZZ", 0), 3), 2);
    assert_eq!((key(SYS, 3), key(MAP, 3)), (0, 0));
    assert_eq!((SYS, MAP), (name_of("SYS", 0), name_of("MAP", 0)));
}

#[test]
fn p5_to_p8() {
    let mut pair = small();
    // P5
    assert_eq!(pair.word(9, 0), 0x7800);
    assert_eq!(pair.free(), 8);
    // P6
    assert_eq!(pair.create("PASS", 2, 0x0001), 0);
    assert_eq!(pair.plain.files["PASS"].slices, [2, 3]);
    assert_eq!(pair.unit.image[256 * 12..][..3], [1, 4, 12]);
    assert!(pair.unit.image[256 * 12 + 3..256 * 15]
        .iter()
        .all(|&w| w == 0));
    assert_eq!(pair.unit.image[256 * 15..256 * 20], [0x5555; 5 * 256]);
    assert_eq!((pair.word(9, 0), pair.free()), (0x1800, 4));
    // P7
    assert_eq!(pair.create_area("PASS"), 0);
    assert_eq!(pair.area("PASS", 7, Operation::Reserve(3)), 0);
    assert_eq!(pair.area("PASS", 7, Operation::Position(2)), 0);
    assert_eq!(pair.transput("PASS", 7, 3, 0, 0x1111).2, 2);
    assert_eq!(pair.transput("PASS", 7, 3, 0, 0x2222).2, 3);
    assert_eq!(pair.unit.image[256 * 12..][..3], [1, 6, 12]);
    assert_eq!(pair.free(), 2);
    let entry = pair.entry("PASS");
    assert_eq!((entry[7], entry[9]), (2, 4));
    // P8
    assert_eq!(pair.area("PASS", 7, Operation::Reserve(0)), 0);
    assert_eq!(pair.remove_area("PASS"), 0);
    let entry = pair.entry("PASS");
    assert_eq!((entry[7], entry[8], entry[9]), (4, 12, 6));
    assert_eq!(pair.word(15, 0), 0x1111);
    assert_eq!(pair.word(16, 255), 0x2222);
}

#[test]
fn unmarked_cases() {
    assert_eq!(small().create("PASS", 8, 0), 0x1100);
    assert_eq!(small().create("PASS", 7, 0), 0);
    let mut pair = small();
    pair.create("PASS", 2, 0);
    pair.create_area("PASS");
    for sender in 1..=3 {
        assert_eq!(pair.area("PASS", sender, Operation::Reserve(3)), 0);
    }
    assert_eq!(pair.area("PASS", 4, Operation::Reserve(3)), 0x0808);
    assert_eq!(pair.area("PASS", 4, Operation::Reserve(2)), 0x0808);
    assert_eq!(pair.area("PASS", 4, Operation::Reserve(4)), 0x0A00);
    assert_eq!(pair.area("PASS", 2, Operation::Reserve(3)), 0);
}

#[test]
fn the_three_faults() {
    // The index sector is no block: block 0 is the sector behind it.
    let mut pair = small();
    pair.create("PASS", 1, 0);
    pair.create_area("PASS");
    pair.area("PASS", 1, Operation::Reserve(3));
    assert_eq!(pair.transput("PASS", 1, 3, 0, 0x7777).2, 0);
    assert_eq!(pair.word(12, 0), 1);
    assert_eq!(pair.word(13, 0), 0x7777);
    // A new length is not booked when it grows: see P7. An old file's words do not come back.
    pair.area("PASS", 1, Operation::Reserve(0));
    pair.remove_area("PASS");
    pair.remove("PASS");
    assert_eq!(pair.word(13, 0), 0x7777);
    assert_eq!(pair.create("OTHER", 1, 0), 0);
    assert_eq!(pair.word(13, 0), 0);
}

#[test]
fn format_writes_what_it_says() {
    let (h, s, n, f) = (3u16, 2u16, 24u16, 12u16);
    let mut image: Vec<u16> = (0..256 * n).collect();
    let before = image.clone();
    let mut state = State::new(2);
    state.initialized = true;
    let vacant = Area {
        name: [1, 2, 3],
        length: 9,
        ..Area::VACANT
    };
    state.areas[5] = vacant;
    let record = [2, h, s, n, n - f, f, n, 0xAAAA, 0xBBBB, 0xCCCC];
    assert_eq!(format(&mut image, &mut state, 18, &record), 0);
    assert!(!state.initialized);
    assert_eq!((state.unit, state.areas[5]), (2, vacant));
    let mut wanted = before.clone();
    wanted[256 * 6..256 * 10].fill(0);
    wanted[256 * 6..][..3].copy_from_slice(&[1, 4, 12]);
    wanted[256 * 7..][..3].copy_from_slice(&[1, 1, 9]);
    wanted[256 * 8..][..8].copy_from_slice(&[h, s, n, 8, f, n, 0xAAAA, 0xBBBB]);
    wanted[256 * 9] = 0x3C00;
    wanted[256 * 12..256 * 15].fill(0);
    // Both have key 0 with H = 3: SYS in place 0, MAP in place 1.
    wanted[256 * 12..][..10].copy_from_slice(&[0x5359, 0x5300, 0, 0, 0, 0, 0x8010, 3, 6, 4]);
    wanted[256 * 12 + 16..][..10].copy_from_slice(&[0x4D41, 0x5000, 0, 0, 0, 0, 0x8010, 1, 7, 1]);
    assert!(image == wanted);
    assert_eq!(soundness(&image, &state), Ok(1));
}

#[test]
fn format_limits() {
    // H, s, N, F and whether they are accepted.
    let cases = [
        (1, 2, 20, 10, true),
        (0, 2, 20, 10, false),
        (10, 2, 20, 10, true),
        (11, 2, 20, 10, false),
        (9, 2, 20, 10, true),
        (64, 2, 74, 10, true),
        (65, 2, 76, 10, false),
        (1, 1, 20, 10, false),
        (1, 64, 74, 10, true),
        (1, 65, 75, 10, false),
        (1, 2, 19, 9, false),
        (1, 2, 21, 10, false),
        (1, 2, 10, 10, false),
        (1, 2, 12, 10, true),
        (1, 2, 8_202, 10, true),
        (1, 2, 8_204, 10, false),
        (1, 8, 32_767, 10, false),
        (1, 9, 32_767, 10, false),
        (1, 7, 32_767, 14, false),
        (64, 64, 32_767, 63, true),
        (1, 8, 32_767, 15, true),
        (1, 64, 32_768, 64, false),
    ];
    for (h, s, n, f, accepted) in cases {
        let mut unit = Unit {
            image: vec![3; 256 * n as usize],
            state: State::new(0),
        };
        let before = unit.clone();
        let record = [0, h, s, n, n - f, f, n, 0, 0];
        let result = format(&mut unit.image, &mut unit.state, 18, &record);
        assert_eq!(result, if accepted { 0 } else { 0x1200 }, "{record:?}");
        if accepted {
            assert_eq!(soundness(&unit.image, &unit.state), Ok(1));
        } else {
            assert!(unit == before);
        }
    }
}

#[test]
fn format_questions_in_order() {
    let record = [1, 1, 2, 20, 10, 10, 20, 0, 0];
    let put = |bytes: u16, record: &[u16], state: State, words: usize| {
        let mut unit = Unit {
            image: vec![3; words],
            state,
        };
        let before = unit.clone();
        let result = format(&mut unit.image, &mut unit.state, bytes, record);
        assert!(result == 0 || unit == before);
        result
    };
    let state = State::new(1);
    let words = 20 * 256;
    assert_eq!(put(18, &record, state, words), 0);
    assert_eq!(put(17, &record, state, words), 0x1080);
    assert_eq!(put(18, &record[..8], state, words), 0x1080);
    assert_eq!(put(19, &[], State::new(9), 0), 0x1080);
    assert_eq!(put(18, &record, State::new(0), words), 0x1200);
    assert_eq!(put(18, &record, state, words - 1), 0x1200);
    assert_eq!(put(18, &record, state, words + 256), 0x1200);
    assert_eq!(put(18, &record, state, 0), 0x1200);
    let mut other = record;
    other[0] = 4;
    assert_eq!(put(18, &other, State::new(4), words), 0x1200);
    let mut other = record;
    other[4] = 8;
    assert_eq!(put(18, &other, state, words), 0x1200);
    let mut other = record;
    other[6] = 19;
    assert_eq!(put(18, &other, state, words), 0x1200);
    let mut open = state;
    open.areas[7].live = true;
    open.initialized = true;
    assert_eq!(put(18, &record, open, words), 0x1200);
}

#[test]
fn names() {
    // As given, with any sixth character; from A to Z, from a to z and from 0 to 9.
    assert_eq!(legal(name_of("pAs9z", 7)), Some(name_of("pAs9z", 0)));
    assert_eq!(legal(name_of("AZaz0", 0)), Some(name_of("AZaz0", 0)));
    for illegal in ["", "9A", "A B", "A\0B", "A[", "a{", "\x7F", "A\x01", " "] {
        assert_eq!(legal(name_of(illegal, 0)), None, "{illegal:?}");
    }
    // The characters next to the letters and digits, in the first place and behind it.
    for outside in ["@", "[", "`", "{", "/", ":"] {
        assert_eq!(legal(name_of(outside, 0)), None, "{outside:?}");
        let behind = format!("a{outside}");
        assert_eq!(legal(name_of(&behind, 0)), None, "{behind:?}");
    }
    let mut pair = small();
    assert_eq!(pair.create("9A", 0, 0), 0x1200);
    assert_eq!(pair.create("a{", 0, 0), 0x1200);
    assert_eq!(pair.remove("9A"), 0x5000);
    assert_eq!(pair.change("9A", &[]), 0x5000);
    assert_eq!(pair.create_area("9A"), 0x4800);
    assert_eq!(pair.remove_area("9A"), 0);
    assert_eq!(pair.area("9A", 0, Operation::Sense), 0x4800);
}

#[test]
fn units_are_whole_words_and_sixth_characters() {
    let mut pair = small();
    for unit in [1, 4, 0x0100, 0xFFFF] {
        let result = |pair: &mut Pair, message| pair.call(message, &[0; 64]).0.result;
        assert_eq!(result(&mut pair, Message::Init { unit }), 0x1200);
        assert_eq!(result(&mut pair, Message::Listing { unit }), 0x1200);
        let message = Message::UnitDescription { unit, bytes: 32 };
        assert_eq!(result(&mut pair, message), 0x1200);
    }
    let name = name_of("SYS", 1);
    assert_eq!(
        pair.call(Message::LookUp { name }, &[0; 16]).0.result,
        0x1200
    );
    assert_eq!(
        pair.call(Message::RemoveArea { name }, &[]).0.result,
        0x0A00
    );
    let message = Message::AreaMessage {
        name,
        sender: 0,
        operation: Operation::Other(1),
    };
    assert_eq!(pair.call(message, &[]).0.result, 0x0A00);
    // Unit 4 is unknown even to a state of unit 4.
    let mut state = pair.unit.state;
    state.unit = 4;
    let message = Message::Init { unit: 4 };
    let answer = perform(&mut pair.unit.image, &mut state, &message, &mut []);
    assert_eq!(answer.result, 0x1200);
}

#[test]
fn uninitialized_comes_before_unsound() {
    let mut pair = small();
    pair.unit.state.initialized = false;
    pair.unit.image[256 * 8] = 0;
    let (image, state) = (&mut pair.unit.image, &mut pair.unit.state);
    let name = name_of("PASS", 0);
    let mut result = |message: &Message, state: &mut State| {
        let mut lent = [0; 16];
        perform(image, state, message, &mut lent).result
    };
    assert_eq!(result(&Message::LookUp { name }, state), 0x1200);
    assert_eq!(result(&Message::CreateArea { name }, state), 0x0A00);
    assert_eq!(result(&Message::Init { unit: 0 }, state), 0x9000);
    assert!(!state.initialized);
    state.initialized = true;
    assert_eq!(result(&Message::LookUp { name }, state), 0x9000);
    assert_eq!(result(&Message::RemoveArea { name }, state), 0x8800);
    state.areas[0].live = true;
    assert_eq!(result(&Message::Init { unit: 0 }, state), 0x1200);
}

#[test]
fn set_takes_its_words_from_the_right_places() {
    let mut pair = Pair::new(1, 2, 60, 10);
    let mut entry: Vec<u16> = (100..120).collect();
    entry[6] = 0x4001;
    entry[9] = 3;
    assert_eq!(pair.set("NEW", &entry), 0);
    let found = pair.entry("NEW");
    let wanted = [
        0x4E45, 0x5700, 0, 103, 104, 105, 0x4001, 3, 12, 4, 110, 111, 112, 113, 114, 115,
    ];
    assert_eq!(found, wanted);
    assert_eq!(pair.set("TWO", &entry[..15]), 0x1200);
    entry[9] = 0x8000;
    assert_eq!(pair.set("TWO", &entry), 0x1200);
    entry[9] = 0;
    entry[6] = 0x8001;
    assert_eq!(pair.set("TWO", &entry), 0x1200);
    entry[6] = 0;
    assert_eq!(pair.set("TWO", &entry), 0);
    assert_eq!(pair.set("TWO", &entry), 0x1010);
    entry[6] = 0x0002;
    assert_eq!(pair.set("TWO", &entry), 0x1200);
}

#[test]
fn attributes() {
    for bit in 0..16 {
        let attributes = 1u16 << (15 - bit);
        let accepted = [1, 11, 12, 15].contains(&bit);
        let result = small().create("A", 0, attributes);
        assert_eq!(result == 0, accepted, "bit {bit}");
    }
    assert_eq!(small().create("A", 1, 0x4019), 0);
    // Question 4 comes before 6 and 7.
    assert_eq!(small().create("SYS", 0x7FFF, 0x0002), 0x1200);
    assert_eq!(small().create("SYS", 0x7FFF, 0), 0x1010);
    assert_eq!(small().create("A", 0x7FFF, 0), 0x1100);
    assert_eq!(small().create("A", 0x8000, 0), 0x1200);
}

#[test]
fn change_keeps_and_changes() {
    let mut pair = Pair::new(1, 2, 60, 10);
    let mut entry = record("ONE", 0x0001, 3);
    entry[3..6].fill(0x33);
    entry[10..].fill(0x77);
    pair.set("ONE", &entry);
    // All kept: optional and tail are replaced all the same.
    assert_eq!(pair.change("ONE", &record("", KEPT, KEPT)), 0);
    let found = pair.entry("ONE");
    assert_eq!(found[6..10], [1, 3, 12, 4]);
    assert!(found[3..6]
        .iter()
        .chain(&found[10..])
        .all(|&word| word == 0));
    // Words 1 and 2 are not looked at where word 0 is 0.
    let mut kept = record("", KEPT, KEPT);
    kept[1] = 0x1234;
    assert_eq!(pair.change("ONE", &kept), 0);
    kept[0] = 0x0041;
    assert_eq!(pair.change("ONE", &kept), 0x1200);
    // The same name is no new one, with any sixth character.
    let mut same = record("ONE", KEPT, KEPT);
    same[2] |= 0x00EE;
    assert_eq!(pair.change("ONE", &same), 0);
    assert_eq!(pair.change("ONE", &record("SYS", KEPT, KEPT)), 0x1010);
    assert_eq!(pair.change("ONE", &record("TWO", KEPT, KEPT)), 0);
    assert_eq!(pair.change("ONE", &record("TWO", KEPT, KEPT)), 0x5000);
    assert_eq!(pair.change("SYS", &record("", KEPT, KEPT)), 0x1200);
    assert_eq!(pair.change("MAP", &record("", 0, KEPT)), 0x1200);
    assert_eq!(pair.change("TWO", &record("", 0x0002, KEPT)), 0x1200);
    assert_eq!(pair.change("TWO", &record("", KEPT, KEPT)[..15]), 0x1200);
    // Length: down, to nothing, and up again.
    assert_eq!(pair.change("TWO", &record("", KEPT, 1)), 0);
    assert_eq!(pair.entry("TWO")[6..10], [1, 1, 12, 2]);
    assert_eq!(pair.change("TWO", &record("", 0x0008, 0)), 0);
    assert_eq!(pair.entry("TWO")[6..10], [8, 0, 0, 0]);
    assert_eq!(pair.word(12, 0), 1);
    assert_eq!(pair.change("TWO", &record("", 0x0001, 5)), 0);
    assert_eq!(pair.entry("TWO")[6..10], [1, 5, 12, 6]);
    assert_eq!(pair.change("TWO", &record("", KEPT, 1000)), 0x1100);
    // No area process.
    assert_eq!(pair.create_area("TWO"), 0);
    assert_eq!(pair.change("TWO", &record("", KEPT, KEPT)), 0x1200);
    assert_eq!(pair.remove("TWO"), 0x1200);
    assert_eq!(pair.remove_area("TWO"), 0);
    assert_eq!(pair.remove("TWO"), 0);
}

#[test]
fn change_of_a_permanent_file() {
    let mut pair = Pair::new(1, 2, 60, 10);
    let mut entry = record("P", 0x0011, 3);
    entry[3..6].fill(0x33);
    entry[10..].fill(0x77);
    pair.set("P", &entry);
    assert_eq!(pair.remove("P"), 0x1200);
    assert_eq!(pair.change("P", &record("Q", KEPT, KEPT)), 0x1200);
    assert_eq!(pair.change("P", &record("", KEPT, 2)), 0x1200);
    // Equal is no change; optional and tail stay.
    assert_eq!(pair.change("P", &record("P", KEPT, 3)), 0);
    let found = pair.entry("P");
    assert!(found[3..6].iter().all(|&word| word == 0x33));
    assert!(found[10..].iter().all(|&word| word == 0x77));
    // Taking bit 11 away changes the attributes only, and not with another name.
    assert_eq!(pair.change("P", &record("Q", 0, KEPT)), 0x1200);
    assert_eq!(pair.change("P", &record("", 0, KEPT)), 0);
    assert_eq!(pair.entry("P")[3], 0x33);
    // Bringing it may change everything else too.
    assert_eq!(pair.change("P", &record("Q", 0x0010, 7)), 0);
    let found = pair.entry("Q");
    assert_eq!(found[3..10], [0, 0, 0, 0x0010, 7, 12, 8]);
}

#[test]
fn surplus_slices() {
    // A file of length 3 that came in with five slices, and one of length 0 with two.
    let mut pair = Pair::new(1, 2, 60, 10);
    pair.create("A", 9, 0x0001);
    pair.create("B", 3, 0);
    let mut unit = pair.unit.clone();
    let at = |name: &str| {
        let mut places = (0..16).map(|place| 256 * 10 + 16 * place);
        let name = name_of(name, 0);
        places
            .find(|&from| unit.image[from..from + 3] == name)
            .unwrap()
    };
    let (a, b) = (at("A"), at("B"));
    unit.image[a + 7] = 3;
    unit.image[b + 7] = 0;
    let mut pair = Pair::over(unit);
    assert_eq!(pair.plain.files["A"].slices, [2, 3, 4, 5, 6]);
    // A kept or equal length touches no slice.
    assert_eq!(pair.change("A", &record("", KEPT, 3)), 0);
    assert_eq!(pair.entry("A")[7..10], [3, 12, 10]);
    // Appending uses the surplus.
    pair.create_area("A");
    pair.area("A", 1, Operation::Reserve(3));
    for block in 3..9 {
        assert_eq!(pair.transput("A", 1, 7, block, block).0, 0);
        assert_eq!(pair.plain.files["A"].slices.len(), 5);
    }
    pair.area("A", 1, Operation::Reserve(0));
    pair.remove_area("A");
    assert_eq!(pair.entry("A")[7..10], [9, 12, 10]);
    // A longer length may give slices back: 0 with two slices becomes 1 with one.
    assert_eq!(pair.change("B", &record("", KEPT, 1)), 0);
    assert_eq!(pair.entry("B")[7..10], [1, 22, 2]);
}

#[test]
fn sys_grows_in_its_slack_without_a_slice() {
    let mut pair = Pair::new(1, 8, 10 + 8 * 4, 10);
    for number in 0..14 {
        assert_eq!(pair.create(&format!("A{number}"), 0, 0), 0);
    }
    assert_eq!(pair.plain.layers, 1);
    pair.unit.image[256 * 6 + 9] = 77;
    let free = pair.free();
    assert_eq!(pair.create("A14", 0, 0), 0);
    assert_eq!((pair.plain.layers, pair.free()), (2, free));
    // The index is not written, the second block is zeroed and the third keeps its words.
    assert_eq!(pair.word(6, 9), 77);
    assert_eq!(pair.word(11, 0), 0x4131);
    assert!((16..256).all(|word| pair.word(11, word) == 0));
    assert!((0..256).all(|word| pair.word(12, word) == 0x5555));
    assert_eq!(pair.entry("SYS")[6..10], [0x8010, 2, 6, 8]);
    // It never shrinks, and the first unused place is taken.
    assert_eq!(pair.remove("A3"), 0);
    assert_eq!(pair.create("B", 0, 0), 0);
    assert_eq!(pair.word(10, 16 * 5), 0x4200);
    assert_eq!(pair.plain.layers, 2);
}

#[test]
fn sys_takes_before_the_file() {
    // H = 2, s = 2: every layer is a slice. Six slices, names of key 1 and of key 0.
    let mut pair = Pair::new(2, 2, 10 + 2 * 6, 10);
    let mut odd = ('A'..='Z').flat_map(|c| [format!("{c}A"), format!("{c}C")]);
    let mut odd = || odd.next().unwrap();
    assert_eq!((key(SYS, 2), key(MAP, 2)), (1, 1));
    assert_eq!((key(name_of("ZC", 0), 2), key(name_of("B", 0), 2)), (1, 0));
    for _ in 0..14 {
        assert_eq!(pair.create(&odd(), 0, 0), 0);
    }
    // Five slices are free and SYS wants one: eight sectors need five, seven need four.
    let big = odd();
    assert_eq!(pair.create(&big, 8, 0), 0x1100);
    assert_eq!(pair.create(&big, 7, 0), 0);
    assert_eq!(pair.plain.sys, [1, 2]);
    assert_eq!(pair.plain.files[&big].slices, [3, 4, 5, 6]);
    // Key 1 is full again, with the big file under key 0.
    assert_eq!(pair.change(&big, &record("B", KEPT, KEPT)), 0);
    for _ in 0..16 {
        assert_eq!(pair.create(&odd(), 0, 0), 0);
    }
    // SYS wants a slice and cannot have one that the same message gives back.
    let last = odd();
    assert_eq!(pair.create(&last, 0, 0), 0x1100);
    assert_eq!(pair.change("B", &record(&last, KEPT, 0)), 0x1100);
    assert_eq!(pair.change("B", &record("", KEPT, 1)), 0);
    assert_eq!(pair.plain.files["B"].slices, [3]);
    // Now SYS takes 4, not the 3 given back, and the file ends with none.
    assert_eq!(pair.change("B", &record(&last, KEPT, 0)), 0);
    assert_eq!(pair.plain.sys, [1, 2, 4]);
    assert_eq!(pair.unit.image[256 * 6..][..6], [2, 4, 10, 2, 16, 0]);
    assert_eq!(pair.plain.files[&last].slices, []);
    assert_eq!(pair.free(), 6);
}

#[test]
fn rename_within_a_key_counts_its_own_place() {
    let mut pair = small();
    for number in 0..14 {
        assert_eq!(pair.create(&format!("A{number}"), 0, 0), 0);
    }
    // All 16 places are taken; a rename does not make SYS grow.
    assert_eq!(pair.change("A5", &record("B5", KEPT, KEPT)), 0);
    assert_eq!(pair.plain.layers, 1);
    assert_eq!(pair.word(10, 16 * 7), 0x4235);
    // With an earlier place empty the entry moves there.
    assert_eq!(pair.remove("A0"), 0);
    assert_eq!(pair.change("B5", &record("C5", KEPT, KEPT)), 0);
    assert_eq!(pair.word(10, 16 * 2), 0x4335);
    assert!((0..16).all(|word| pair.word(10, 16 * 7 + word) == 0));
}

#[test]
fn slices_are_taken_next_first_then_lowest() {
    let mut pair = Pair::new(1, 2, 10 + 2 * 12, 10);
    for name in ["A", "B", "C", "D"] {
        assert_eq!(pair.create(name, 3, 0x0001), 0);
    }
    assert_eq!(pair.plain.files["B"].slices, [4, 5]);
    pair.remove("A");
    pair.remove("C");
    // B ends at 5; 6 and 7 are free, then 2 and 3, then 10.
    assert_eq!(pair.change("B", &record("", KEPT, 13)), 0);
    assert_eq!(pair.plain.files["B"].slices, [4, 5, 6, 7, 2, 3, 10]);
    assert_eq!(
        pair.unit.image[256 * 16..][..8],
        [3, 8, 16, 4, 12, 2, 28, 0]
    );
    assert_eq!(pair.change("B", &record("", KEPT, 9)), 0);
    assert_eq!(pair.plain.files["B"].slices, [4, 5, 6, 7, 2]);
    assert_eq!(pair.unit.image[256 * 16..][..6], [2, 8, 16, 2, 12, 0]);
    assert_eq!(stretches(&[4, 5, 6, 7, 2]), [(4, 4), (2, 1)]);
}

#[test]
fn blocks_that_join_are_zero_and_slack_keeps_its_words() {
    let mut pair = Pair::new(1, 4, 10 + 4 * 5, 10);
    assert_eq!(pair.create("A", 1, 0x0001), 0);
    assert_eq!(pair.word(16, 0), 0x5555);
    assert_eq!(pair.change("A", &record("", KEPT, 2)), 0);
    assert_eq!(pair.word(16, 0), 0);
    assert_eq!(pair.word(17, 0), 0x5555);
    // Words behind the pairs stay while the slices stay.
    pair.unit.image[256 * 14 + 99] = 5;
    assert_eq!(pair.change("A", &record("", KEPT, 3)), 0);
    assert_eq!(pair.word(14, 99), 5);
    assert_eq!(pair.change("A", &record("", KEPT, 4)), 0);
    assert_eq!(pair.word(14, 99), 0);
}

#[test]
fn areas_open_and_close() {
    let mut pair = Pair::new(1, 2, 60, 10);
    assert_eq!(pair.create_area("A0"), 0x4800);
    assert_eq!(pair.create_area("SYS"), 0x0A00);
    assert_eq!(pair.remove_area("MAP"), 0x0A00);
    for number in 0..9 {
        assert_eq!(pair.create(&format!("A{number}"), 1, 0x0001), 0);
    }
    for number in 0..8 {
        assert_eq!(pair.create_area(&format!("A{number}")), 0);
    }
    assert_eq!(pair.create_area("A8"), 0x0900);
    assert_eq!(pair.create_area("A3"), 0);
    assert_eq!(pair.remove_area("A8"), 0);
    assert_eq!(pair.remove_area("NONE"), 0);
    assert_eq!(pair.area("A3", 5, Operation::Reserve(3)), 0);
    assert_eq!(pair.remove_area("A3"), 0);
    assert!(pair.unit.state.areas[3].live);
    assert_eq!(pair.remove_area("A2"), 0);
    assert_eq!(pair.unit.state.areas[2], Area::VACANT);
    assert_eq!(pair.remove_area("A5"), 0);
    assert_eq!(pair.create_area("A8"), 0);
    assert_eq!(pair.unit.state.areas[2].name, name_of("A8", 0));
    assert_eq!(pair.call(Message::Init { unit: 0 }, &[]).0.result, 0x1200);
}

#[test]
fn reservations() {
    use Operation::Reserve;
    let mut pair = small();
    pair.create("A", 1, 0);
    assert_eq!(pair.area("A", 1, Reserve(3)), 0x4800);
    pair.create_area("A");
    assert_eq!(pair.area("A", 0, Reserve(3)), 0x0810);
    assert_eq!(pair.area("A", 0, Reserve(9)), 0x0810);
    assert_eq!(pair.area("A", 1, Reserve(1)), 0x0A00);
    assert_eq!(pair.area("A", 1, Reserve(0x0103)), 0x0A00);
    assert_eq!(pair.area("A", 1, Reserve(0)), 0x0810);
    assert_eq!(pair.area("A", 1, Operation::Other(3)), 0x0A00);
    assert_eq!(pair.area("A", 1, Operation::Sense), 0x0810);
    assert_eq!(pair.area("A", 1, Reserve(2)), 0);
    assert_eq!(pair.area("A", 2, Reserve(2)), 0x0A00);
    assert_eq!(pair.area("A", 2, Reserve(4)), 0x0A00);
    assert_eq!(pair.area("A", 2, Reserve(3)), 0);
    assert_eq!(pair.area("A", 1, Reserve(4)), 0x0A00);
    // A role only rises, and stays while the count does.
    assert_eq!(pair.area("A", 1, Reserve(3)), 0);
    assert_eq!(
        pair.unit.state.areas[0].users[0].role,
        Role::ExclusiveWriter
    );
    assert_eq!(pair.area("A", 2, Reserve(0)), 0);
    assert_eq!(pair.unit.state.areas[0].users[1], User::VACANT);
    assert_eq!(pair.area("A", 1, Reserve(4)), 0);
    assert_eq!(pair.unit.state.areas[0].users[0].role, Role::ExclusiveUser);
    for operation in [
        Reserve(3),
        Reserve(9),
        Operation::Sense,
        Operation::Other(0),
    ] {
        assert_eq!(pair.area("A", 2, operation), 0x0200);
        assert_eq!(pair.area("A", 0, operation), 0x0200);
    }
    for opens in [2, 1] {
        assert_eq!(pair.area("A", 1, Reserve(0)), 0);
        let user = pair.unit.state.areas[0].users[0];
        assert_eq!((user.role, user.opens), (Role::ExclusiveUser, opens));
    }
    assert_eq!(pair.area("A", 1, Reserve(0)), 0);
    assert_eq!(pair.unit.state.areas[0].users, [User::VACANT; 3]);
    // The lowest vacant entry is taken.
    for sender in [5, 6, 7] {
        pair.area("A", sender, Reserve(3));
    }
    pair.area("A", 6, Reserve(0));
    pair.area("A", 8, Reserve(2));
    let ids: Vec<u16> = pair.unit.state.areas[0]
        .users
        .iter()
        .map(|u| u.id)
        .collect();
    assert_eq!(ids, [5, 8, 7]);
}

#[test]
fn open_counts_end_at_65535() {
    let mut pair = small();
    pair.create("A", 1, 0);
    pair.create_area("A");
    let message = Message::AreaMessage {
        name: name_of("A", 0),
        sender: 9,
        operation: Operation::Reserve(3),
    };
    let (image, state) = (&mut pair.unit.image, &mut pair.unit.state);
    for _ in 0..65_535 {
        assert_eq!(perform(image, state, &message, &mut []).result, 0);
    }
    assert_eq!(state.areas[0].users[0].opens, 65_535);
    assert_eq!(perform(image, state, &message, &mut []).result, 0x0808);
    pair.plain = reference::plain::Plain::read(&pair.unit.image, &pair.unit.state).unwrap();
    // Question order: the writer's and user's questions come before the count.
    assert_eq!(pair.area("A", 9, Operation::Reserve(2)), 0x0808);
    assert_eq!(pair.area("A", 9, Operation::Reserve(4)), 0x0808);
    assert_eq!(pair.area("A", 8, Operation::Reserve(2)), 0);
    assert_eq!(pair.area("A", 9, Operation::Reserve(2)), 0x0A00);
    assert_eq!(pair.area("A", 9, Operation::Reserve(4)), 0x0A00);
    assert_eq!(pair.area("A", 9, Operation::Reserve(0)), 0);
    assert_eq!(pair.area("A", 9, Operation::Reserve(3)), 0);
    assert_eq!(pair.area("A", 9, Operation::Reserve(3)), 0x0808);
}

/// The position of the first user of the first area process.
fn position(pair: &Pair) -> u16 {
    pair.unit.state.areas[0].users[0].position
}

#[test]
fn positions() {
    let mut pair = small();
    pair.create("A", 3, 0);
    pair.create_area("A");
    pair.area("A", 1, Operation::Reserve(3));
    assert_eq!(pair.area("A", 1, Operation::Position(3)), 0);
    assert_eq!(pair.area("A", 1, Operation::Position(2)), 0);
    assert_eq!(pair.area("A", 1, Operation::Position(4)), 0x0810);
    assert_eq!(position(&pair), 3);
    assert_eq!(pair.area("A", 1, Operation::Position(0x8000)), 0x0A00);
    assert_eq!(position(&pair), 0);
    assert_eq!(pair.area("A", 1, Operation::Position(0x7FFF)), 0x0810);
    assert_eq!(position(&pair), 3);
    assert_eq!(pair.area("A", 2, Operation::Position(0)), 0x0810);
    // A transput hands back the position by then.
    let words = |answer: (u16, u16, u16, Vec<u16>)| (answer.0, answer.1, answer.2);
    assert_eq!(words(pair.transput("A", 1, 1, 0, 0)), (0x0A00, 0, 3));
    assert_eq!(words(pair.transput("A", 1, 5, 0xFFFF, 0)), (0x0A00, 0, 0));
    assert_eq!(words(pair.transput("A", 1, 5, 9, 0)), (0x0810, 0, 3));
    assert_eq!(words(pair.transput("A", 1, 5, 3, 0)), (0x0A00, 0, 3));
    assert_eq!(words(pair.transput("A", 1, 5, 2, 0)), (0, 512, 2));
    assert_eq!(position(&pair), 3);
    assert_eq!(words(pair.transput("A", 1, 3, 0, 0)), (0x0A00, 0, 3));
    assert_eq!(words(pair.transput("A", 1, 7, 0, 0)), (0, 512, 0));
    assert_eq!(words(pair.transput("A", 1, 19, 0, 0)), (0, 512, 1));
    assert_eq!(words(pair.transput("A", 1, 2, 0, 0)), (0x0A00, 0, 0));
    assert_eq!(words(pair.transput("A", 2, 1, 0, 0)), (0x0810, 0, 0));
    assert_eq!(words(pair.transput("A", 0, 1, 0, 0)), (0x0810, 0, 0));
}

/// Attributes of files of fixed length and of extendable ones, with the word at their ends: bit 15
/// alone decides (02, R-4).
const ENDS: [(u16, u16); 9] = [
    (0x0000, 0x0A00),
    (0x0008, 0x0A00),
    (0x0010, 0x0A00),
    (0x4018, 0x0A00),
    (0x0001, 0x0810),
    (0x0009, 0x0810),
    (0x0011, 0x0810),
    (0x4001, 0x0810),
    (0x4019, 0x0810),
];

/// A unit with one file, A, open for sender 1.
fn one_open(size: u16, attributes: u16) -> Pair {
    let mut pair = small();
    assert_eq!(pair.create("A", size, attributes), 0);
    open_again(&mut pair);
    pair
}

fn open_again(pair: &mut Pair) {
    assert_eq!(pair.create_area("A"), 0);
    assert_eq!(pair.area("A", 1, Operation::Reserve(3)), 0);
}

/// Input from A: result, bytes, block, and the position afterwards.
fn input(pair: &mut Pair, operation: u16, block: u16) -> [u16; 4] {
    let (result, bytes, at, _) = pair.transput("A", 1, operation, block, 9);
    [result, bytes, at, position(pair)]
}

/// Position of A: result, and the position afterwards.
fn moved(pair: &mut Pair, block: u16) -> [u16; 2] {
    let result = pair.area("A", 1, Operation::Position(block));
    [result, position(pair)]
}

#[test]
fn a_fixed_file_ends_otherwise_than_an_extendable_one() {
    for (attributes, end) in ENDS {
        let mut pair = one_open(2, attributes);
        // Blocks 0 and 1, then the end, where the position stays.
        assert_eq!(input(&mut pair, 1, 0), [0, 512, 0, 1]);
        assert_eq!(input(&mut pair, 1, 0), [0, 512, 1, 2]);
        assert_eq!(input(&mut pair, 1, 0), [end, 0, 2, 2]);
        assert_eq!(input(&mut pair, 1, 0), [end, 0, 2, 2]);
        // 5 moves first. Block 2 is at the end; at block 3 Position refuses, for both kinds.
        assert_eq!(input(&mut pair, 5, 0), [0, 512, 0, 1]);
        assert_eq!(input(&mut pair, 5, 2), [end, 0, 2, 2]);
        assert_eq!(input(&mut pair, 5, 1), [0, 512, 1, 2]);
        assert_eq!(moved(&mut pair, 0), [0, 0]);
        assert_eq!(input(&mut pair, 5, 3), [0x0810, 0, 2, 2]);
        assert_eq!(moved(&mut pair, 0), [0, 0]);
        assert_eq!(moved(&mut pair, 3), [0x0810, 2]);
        assert_eq!(input(&mut pair, 1, 0), [end, 0, 2, 2]);
        assert_eq!(input(&mut pair, 5, 0x8000), [0x0A00, 0, 0, 0]);
    }
}

#[test]
fn output_past_the_end_is_refused_as_position_is() {
    for attributes in [0x0000, 0x0001] {
        let mut pair = one_open(2, attributes);
        let (result, bytes, block, _) = pair.transput("A", 1, 7, 3, 0);
        assert_eq!((result, bytes, block), (0x0810, 0, 2));
        assert_eq!(position(&pair), 2);
    }
}

#[test]
fn a_file_of_no_blocks_ends_where_it_begins() {
    for (attributes, end) in ENDS {
        let mut pair = one_open(0, attributes);
        assert_eq!(input(&mut pair, 1, 0), [end, 0, 0, 0]);
        assert_eq!(input(&mut pair, 5, 0), [end, 0, 0, 0]);
        assert_eq!(input(&mut pair, 5, 1), [0x0810, 0, 0, 0]);
        assert_eq!(moved(&mut pair, 1), [0x0810, 0]);
    }
}

#[test]
fn the_end_is_that_of_the_file_as_it_stands() {
    // The live length, not the booked one: a block appended moves an extendable file's end.
    let mut pair = one_open(1, 0x0001);
    assert_eq!(input(&mut pair, 5, 1), [0x0810, 0, 1, 1]);
    assert_eq!(pair.transput("A", 1, 3, 0, 7).0, 0);
    assert_eq!(input(&mut pair, 5, 1), [0, 512, 1, 2]);
    assert_eq!(input(&mut pair, 1, 0), [0x0810, 0, 2, 2]);
    // The attributes of the entry: a Change that takes bit 15 away makes the file a fixed one.
    assert_eq!(pair.area("A", 1, Operation::Reserve(0)), 0);
    assert_eq!(pair.remove_area("A"), 0);
    assert_eq!(pair.change("A", &record("", 0x0000, KEPT)), 0);
    open_again(&mut pair);
    assert_eq!(input(&mut pair, 5, 2), [0x0A00, 0, 2, 2]);
}

#[test]
fn questions_before_the_end_are_asked_first() {
    for (attributes, end) in [(0x0000, 0x0A00), (0x0001, 0x0810)] {
        let mut pair = one_open(1, attributes);
        assert_eq!(input(&mut pair, 5, 1), [end, 0, 1, 1]);
        let message = |sender, bytes| Message::AreaMessage {
            name: name_of("A", 0),
            sender,
            operation: Operation::Transput {
                operation: 1,
                bytes,
                block: 0,
            },
        };
        // The block is the sender's position, and 0 where the sender is no user.
        let cases = [
            (message(0, 512), 256, (0x0810, 0)),
            (message(2, 512), 256, (0x0810, 0)),
            (message(1, 511), 256, (0x0880, 1)),
            (message(1, 512), 255, (0x0880, 1)),
            (message(1, 512), 256, (end, 1)),
        ];
        for (message, lent, expected) in cases {
            let (answer, _) = pair.call(message, &vec![1; lent]);
            assert_eq!((answer.result, answer.block), expected);
        }
    }
}

#[test]
fn random_output_asks_before_it_moves() {
    let mut pair = small();
    pair.create("A", 3, 0x0008);
    pair.create_area("A");
    pair.area("A", 1, Operation::Reserve(3));
    pair.area("A", 1, Operation::Position(1));
    let message = |operation, bytes, block| Message::AreaMessage {
        name: name_of("A", 0),
        sender: 1,
        operation: Operation::Transput {
            operation,
            bytes,
            block,
        },
    };
    let cases = [
        // Byte count and lent words come first,
        (message(7, 511, 2), 256, 0x0880),
        (message(7, 512, 2), 255, 0x0880),
        (message(5, 0xFFFF, 9), 256, 0x0880),
        // write protection before the move.
        (message(7, 512, 2), 256, 0x0C00),
        (message(3, 512, 2), 256, 0x0C00),
    ];
    for (message, lent, word) in cases {
        let (answer, _) = pair.call(message, &vec![1; lent]);
        assert_eq!((answer.result, answer.block), (word, 1));
    }
    // Another's exclusive writing comes before write protection.
    pair.area("A", 2, Operation::Reserve(2));
    let (answer, _) = pair.call(message(7, 512, 2), &[1; 256]);
    assert_eq!((answer.result, answer.block), (0x0A00, 1));
    assert_eq!(pair.transput("A", 2, 3, 0, 0).0, 0x0C00);
    assert_eq!(pair.transput("A", 1, 1, 0, 0).0, 0);
}

#[test]
fn appending() {
    // Fixed length: refused at the end, and the move of operation 7 stands.
    let mut pair = small();
    pair.create("A", 1, 0);
    pair.create("B", 0, 0x0001);
    for name in ["A", "B"] {
        pair.create_area(name);
        pair.area(name, 1, Operation::Reserve(3));
    }
    assert_eq!(pair.transput("A", 1, 7, 1, 0).0, 0x0A00);
    assert_eq!(pair.unit.state.areas[0].users[0].position, 1);
    // Extendable, from nothing: the first slice brings the index.
    assert_eq!(pair.transput("B", 1, 3, 0, 1).0, 0);
    assert_eq!(pair.unit.state.areas[1].index, 14);
    assert_eq!(pair.unit.image[256 * 14..][..4], [1, 2, 14, 0]);
    assert_eq!(pair.entry("B")[7..10], [0, 0, 0]);
    for block in 1..5 {
        assert_eq!(pair.transput("B", 1, 19, 0, block).2, block);
    }
    // Slices 3 to 5 are its own; no more is free.
    assert_eq!(pair.free(), 0);
    assert_eq!(pair.transput("B", 1, 3, 0, 9).0, 0x0900);
    assert_eq!(pair.transput("B", 1, 7, 5, 9).0, 0x0900);
    assert_eq!(pair.transput("B", 1, 7, 6, 9).0, 0x0810);
    let read = pair.transput("B", 1, 5, 3, 9);
    assert_eq!((read.0, read.3[0], read.3[255]), (0, 3, 3));
    pair.area("B", 1, Operation::Reserve(0));
    pair.remove_area("B");
    assert_eq!(pair.entry("B")[7..10], [5, 14, 6]);
}

#[test]
fn listing_and_unit_description() {
    let mut pair = Pair::new(3, 2, 60, 10);
    pair.create("PASS", 1, 0);
    pair.create("B", 1, 0);
    let (answer, lent) = pair.call(Message::Listing { unit: 0 }, &[7; 66]);
    assert_eq!((answer.result, answer.entries), (0, 4));
    assert_eq!(lent[64..], [7, 7]);
    let names: Vec<&[u16]> = lent[..64].chunks(16).map(|entry| &entry[..3]).collect();
    // SYS, MAP and B have key 0 and stand there in this order, PASS has key 2.
    let b = name_of("B", 0);
    let pass = name_of("PASS", 0);
    assert_eq!((key(b, 3), key(pass, 3)), (0, 2));
    assert_eq!(names, [b, MAP, pass, SYS]);
    let describe = |pair: &mut Pair, bytes, lent: &[u16]| {
        pair.call(Message::UnitDescription { unit: 0, bytes }, lent)
    };
    let (answer, lent) = describe(&mut pair, 32, &[7; 17]);
    assert_eq!((answer.result, answer.bytes), (0, 32));
    let wanted = [
        0, 0, 0, 20, 0x554E, 0x4954, 0, 0, 0, 0, 0, 0, 3, 2, 60, 42, 7,
    ];
    assert_eq!(lent, wanted);
    assert_eq!(describe(&mut pair, 31, &[7; 17]).0.result, 0x1200);
    assert_eq!(describe(&mut pair, 0x8000, &[7; 16]).0.result, 0);
    assert_eq!(describe(&mut pair, 32, &[7; 15]).0.result, 0x1200);
    // The unit's number stands in words 1 and 6.
    let mut unit = pair.unit.clone();
    unit.state.unit = 3;
    let mut pair = Pair::over(unit);
    let message = Message::UnitDescription { unit: 3, bytes: 32 };
    let (_, lent) = pair.call(message, &[7; 16]);
    assert_eq!((lent[1], lent[6]), (3, 0x0300));
}

/// The texts of the listing of a unit in which these names were created one after the other.
fn listed(h: u16, created: &[&str]) -> Vec<String> {
    let mut pair = Pair::new(h, 2, 60, 10);
    for name in created {
        assert_eq!(pair.create(name, 0, 0), 0);
    }
    pair.listed()
}

#[test]
fn the_listing_goes_by_the_first_word_that_differs() {
    // With H = 1 the places are in the order of SYS, MAP and the names as they were created.
    assert_eq!(listed(1, &[]), ["MAP", "SYS"]);
    // The third word: the fifth character, or none.
    let third = listed(1, &["ABCDZ", "ABCD1", "ABCD", "ABCD0", "ABCDA"]);
    let wanted = ["ABCD", "ABCD0", "ABCD1", "ABCDA", "ABCDZ", "MAP", "SYS"];
    assert_eq!(third, wanted);
    // The second word is asked before the third, the first before the second.
    let second = listed(1, &["ABDCA", "ABCDZ"]);
    assert_eq!(second, ["ABCDZ", "ABDCA", "MAP", "SYS"]);
    let first = listed(1, &["ACAAA", "ABZZZ"]);
    assert_eq!(first, ["ABZZZ", "ACAAA", "MAP", "SYS"]);
    // Within a word the high half, the character that comes first, is asked first.
    assert_eq!(listed(1, &["BA", "AZ"]), ["AZ", "BA", "MAP", "SYS"]);
    // The end of a name is below digits, digits are below letters, and all capitals below all small
    // letters.
    let digits = listed(1, &["AA", "A9", "A", "A0", "AA0"]);
    assert_eq!(digits, ["A", "A0", "A9", "AA", "AA0", "MAP", "SYS"]);
    let small_letters = listed(1, &["aB", "b", "Aa", "AZ", "sys", "Zz", "a", "A9", "Map"]);
    let wanted = [
        "A9", "AZ", "Aa", "MAP", "Map", "SYS", "Zz", "a", "aB", "b", "sys",
    ];
    assert_eq!(small_letters, wanted);
}

#[test]
fn sys_and_map_take_their_places_in_the_listing() {
    let wanted = [
        "A", "MAO", "MAOZZ", "MAP", "MAP0", "MAPA", "N", "SYR", "SYRZZ", "SYS", "SYS0", "T", "Z9",
    ];
    let files = wanted.iter().filter(|name| !["MAP", "SYS"].contains(name));
    let mut files: Vec<&str> = files.copied().collect();
    assert_eq!(listed(1, &files), wanted);
    files.reverse();
    assert_eq!(listed(1, &files), wanted);
}

#[test]
fn the_listing_does_not_go_by_places() {
    // With H = 3, SYS, MAP and B have key 0, A and D key 2, C key 1.
    let keys = |text| key(name_of(text, 0), 3);
    assert_eq!(["B", "C", "A", "D"].map(keys), [0, 1, 2, 2]);
    let mut pair = Pair::new(3, 2, 60, 10);
    for name in ["D", "C", "B", "A"] {
        assert_eq!(pair.create(name, 0, 0), 0);
    }
    let first_words = |sector| [0, 16, 32].map(|word| pair.word(sector, word));
    assert_eq!(first_words(10), [0x5359, 0x4D41, 0x4200]);
    assert_eq!(first_words(11), [0x4300, 0, 0]);
    assert_eq!(first_words(12), [0x4400, 0x4100, 0]);
    assert_eq!(pair.listed(), ["A", "B", "C", "D", "MAP", "SYS"]);
    // A new name takes the place that an old one leaves, and its own place in the listing.
    assert_eq!(pair.remove("D"), 0);
    assert_eq!(pair.create("P", 0, 0), 0);
    assert_eq!(pair.word(12, 0), 0x5000);
    assert_eq!(pair.listed(), ["A", "B", "C", "MAP", "P", "SYS"]);
    assert_eq!(pair.change("A", &record("Z9", KEPT, KEPT)), 0);
    assert_eq!(pair.listed(), ["B", "C", "MAP", "P", "SYS", "Z9"]);
}

#[test]
fn the_listing_asks_for_words_for_all_entries() {
    let mut pair = small();
    assert_eq!(pair.create("PASS", 2, 0x0001), 0);
    // Case P6 with SYS and MAP, by name.
    let map = [
        0x4D41, 0x5000, 0, 0, 0, 0, 0x8010, 1, 7, 1, 0, 0, 0, 0, 0, 0,
    ];
    let pass = [0x5041, 0x5353, 0, 0, 0, 0, 1, 2, 12, 4, 0, 0, 0, 0, 0, 0];
    let sys = [
        0x5359, 0x5300, 0, 0, 0, 0, 0x8010, 1, 6, 2, 0, 0, 0, 0, 0, 0,
    ];
    let entries = [map, pass, sys].concat();
    for more in [0, 1, 15, 16, 300] {
        let (answer, lent) = pair.call(Message::Listing { unit: 0 }, &vec![7; 48 + more]);
        assert_eq!((answer.result, answer.entries), (0, 3));
        assert_eq!(lent[..48], entries);
        assert_eq!(lent[48..], vec![7; more]);
    }
    for too_few in [47, 32, 16, 1, 0] {
        let (answer, lent) = pair.call(Message::Listing { unit: 0 }, &vec![7; too_few]);
        assert_eq!((answer.result, answer.entries), (0x1200, 0));
        assert_eq!(lent, vec![7; too_few]);
    }
}

#[test]
fn stretches_end_at_127() {
    // Slices 2 to 401, every second one taken by A and every other one by B.
    let mut pair = Pair::new(1, 2, 10 + 2 * 300, 10);
    pair.create("A", 1, 0x0001);
    pair.create("B", 1, 0x0001);
    for slices in 2..=127 {
        for name in ["A", "B"] {
            assert_eq!(pair.change(name, &record("", KEPT, 2 * slices - 1)), 0);
        }
    }
    assert_eq!(stretches(&pair.plain.files["A"].slices).len(), 127);
    assert_eq!(pair.word(12, 0), 127);
    assert_eq!(pair.word(12, 255), 0);
    assert_eq!(pair.change("A", &record("", KEPT, 255)), 0x1008);
    pair.create_area("A");
    pair.area("A", 1, Operation::Reserve(3));
    assert_eq!(pair.transput("A", 1, 7, 253, 0).0, 0x0808);
    pair.area("A", 1, Operation::Reserve(0));
    pair.remove_area("A");
    // B can still grow where it ends.
    assert_eq!(pair.change("B", &record("", KEPT, 255)), 0);
    assert_eq!(stretches(&pair.plain.files["B"].slices).len(), 127);
    // A file in the holes that A leaves.
    assert_eq!(pair.remove("A"), 0);
    assert_eq!(pair.create("C", 254, 0), 0x1008);
    assert_eq!(pair.create("C", 253, 0), 0);
    assert_eq!(stretches(&pair.plain.files["C"].slices).len(), 127);
    assert_eq!(pair.change("C", &record("", KEPT, 254)), 0x1008);
    let free = pair.plain.free().len() as u16;
    assert_eq!(pair.change("C", &record("", KEPT, 254 + 2 * free)), 0x1100);
}

#[test]
fn stretches_of_sys_end_at_127() {
    // H = 64, s = 2: a layer is 32 slices. The other slices go to files of one slice, and
    // every other one comes back.
    let mut pair = Pair::new(64, 2, 10 + 2 * 400, 10);
    let names = || (0..60_000).map(|number| format!("N{number:04X}"));
    let mut of_key = [0; 64];
    of_key[9] = 16;
    let few = |name: &String| {
        let number = &mut of_key[key(name_of(name, 0), 64)];
        *number += 1;
        *number <= 14
    };
    let others: Vec<String> = names().filter(few).take(368).collect();
    for name in &others {
        assert_eq!(pair.create(name, 1, 0), 0);
    }
    assert_eq!((pair.plain.layers, pair.free()), (1, 0));
    for name in others.iter().step_by(2) {
        assert_eq!(pair.remove(name), 0);
    }
    // Key 9 fills; SYS begins with 1 to 33 and grows by single slices.
    let mut full = names().filter(|name| key(name_of(name, 0), 64) == 9);
    for (layers, stretches_wanted) in [(1, 1), (2, 32), (3, 64), (4, 96)] {
        for _ in 0..16 {
            assert_eq!(pair.create(&full.next().unwrap(), 0, 0), 0);
        }
        assert_eq!(pair.plain.layers, layers);
        assert_eq!(stretches(&pair.plain.sys).len(), stretches_wanted);
    }
    // 96 and 32 more are 128.
    let last = full.next().unwrap();
    assert_eq!(pair.create(&last, 0, 0), 0x1008);
    let rename = record(&last, KEPT, KEPT);
    assert_eq!(pair.change(&others[1], &rename), 0x1008);
    // With the slice behind SYS's last one given back (and the free one behind that taken),
    // one joins and they are 127.
    let behind = pair.plain.sys.last().unwrap() + 1;
    assert_eq!(pair.create("X", 1, 0), 0);
    assert_eq!(pair.plain.files["X"].slices, [behind + 1]);
    let mut files = pair.plain.files.iter();
    let (owner, _) = files.find(|(_, file)| file.slices == [behind]).unwrap();
    let owner = owner.clone();
    assert_eq!(pair.remove(&owner), 0);
    assert_eq!(pair.create(&last, 0, 0), 0);
    assert_eq!((pair.word(6, 0), pair.plain.layers), (127, 5));
}

#[test]
fn old_discs_come_in() {
    // Words that no rule names are free, and the slack is no catalog.
    let mut pair = Pair::new(1, 8, 10 + 8 * 4, 11 - 1);
    pair.create("A", 9, 0);
    let state = pair.unit.state;
    let mut image = pair.unit.image.clone();
    let random = &mut Random::new(3);
    random.fill(&mut image[..256 * 6]);
    random.fill(&mut image[256 * 6 + 3..256 * 7]);
    random.fill(&mut image[256 * 7 + 3..256 * 8]);
    random.fill(&mut image[256 * 8 + 6..256 * 9]);
    random.fill(&mut image[256 * 11..256 * 18]);
    random.fill(&mut image[256 * 18 + 3..256 * 19]);
    image[256 * 11..][..16].copy_from_slice(&pair.unit.image[256 * 10..][..16]);
    assert_eq!(soundness(&image, &state), Ok(1));
    // With L = 2 the same words are entries.
    image[256 * 10 + 7] = 2;
    assert!(soundness(&image, &state).is_err());
    image[256 * 11..256 * 12].fill(0);
    assert_eq!(soundness(&image, &state), Ok(2));
    image[256 * 10 + 7] = 9;
    let found = soundness(&image, &state);
    assert!(matches!(found, Err(Unsound::SysLength)), "{found:?}");
    // SYS may stand anywhere in its own layers, not beyond them.
    image[256 * 10 + 7] = 2;
    image.copy_within(256 * 10..256 * 10 + 16, 256 * 11 + 32);
    image[256 * 10..][..16].fill(0);
    assert_eq!(soundness(&image, &state), Ok(2));
    image[256 * 11 + 32 + 7] = 1;
    let found = soundness(&image, &state);
    assert!(matches!(found, Err(Unsound::SysInSlack)), "{found:?}");
}

/// Places 0 and 1 of a sector.
fn places(pair: &Pair, sector: usize) -> [&[u16]; 2] {
    [0, 16].map(|from| &pair.unit.image[256 * sector + from..][..16])
}

const UNUSED: [u16; 16] = [0; 16];

/// The entry of an extendable file whose optional and tail are zero.
fn extendable(name: [u16; 2], length: u16, index: u16, reserved: u16) -> [u16; 16] {
    let mut entry = [0; 16];
    entry[..2].copy_from_slice(&name);
    entry[6..10].copy_from_slice(&[1, length, index, reserved]);
    entry
}

/// PASS and Pass with H = 3, s = 2 and F = 10: SYS has slices 1 and 2, so that keys 0, 1 and 2 live
/// in sectors 10, 11 and 12. PASS of two blocks gets slices 3 and 4 from sector 14 on, Pass of one
/// block slice 5, sector 18.
fn pass_twice() -> Pair {
    let mut pair = Pair::new(3, 2, 60, 10);
    assert_eq!(pair.create("PASS", 2, 0x0001), 0);
    assert_eq!(pair.create("Pass", 1, 0x0001), 0);
    pair
}

/// PASS as it is entered in [`pass_twice`].
fn pass() -> [u16; 16] {
    extendable([0x5041, 0x5353], 2, 14, 4)
}

#[test]
fn names_that_differ_in_case_only_have_their_own_keys() {
    // 'PASS' 5041h + 5353h = A394h, 'Pass' 5061h + 7373h = C3D4h, 'pass' 7061h + 7373h = E3D4h:
    // 41,876, 50,132 and 58,324, of which 3 leaves 2, 2 and 1.
    let keys = |text| (sum(name_of(text, 0)), key(name_of(text, 0), 3));
    assert_eq!(keys("PASS"), (0xA394, 2));
    assert_eq!(keys("Pass"), (0xC3D4, 2));
    assert_eq!(keys("pass"), (0xE3D4, 1));
    // 'sys' 7379h + 7300h = E679h, 59,001, and 'Map' 4D61h + 7000h = BD61h, 48,481.
    assert_eq!(keys("sys"), (0xE679, 0));
    assert_eq!(keys("Map"), (0xBD61, 1));
}

#[test]
fn names_that_differ_in_case_only_stand_beside_each_other() {
    let mut pair = pass_twice();
    let pass_mixed = extendable([0x5061, 0x7373], 1, 18, 2);
    assert_eq!(places(&pair, 12), [pass(), pass_mixed]);
    assert_eq!(places(&pair, 11), [UNUSED; 2]);
    assert_eq!(pair.entry("PASS"), pass());
    assert_eq!(pair.entry("Pass"), pass_mixed);
    let name = name_of("pass", 0);
    let (answer, lent) = pair.call(Message::LookUp { name }, &[9; 16]);
    assert_eq!((answer.result, lent), (0x5000, vec![9; 16]));
    // Each of them is used.
    for taken in ["PASS", "Pass"] {
        assert_eq!(pair.create(taken, 0, 0), 0x1010);
        assert_eq!(pair.set(taken, &record("", 0, 0)), 0x1010);
    }
    for absent in ["pass", "pASS", "PASs"] {
        assert_eq!(pair.change(absent, &record("", KEPT, KEPT)), 0x5000);
        assert_eq!(pair.remove(absent), 0x5000);
    }
    // One goes, the other stays.
    assert_eq!(pair.remove("PASS"), 0);
    assert_eq!(places(&pair, 12), [UNUSED, pass_mixed]);
    assert_eq!(pair.create("pASS", 0, 0x0001), 0);
    assert_eq!(pair.listed(), ["MAP", "Pass", "SYS", "pASS"]);
}

#[test]
fn a_rename_that_changes_case_only_is_a_rename() {
    let mut pair = pass_twice();
    let pass_mixed = extendable([0x5061, 0x7373], 1, 18, 2);
    // Question 6: the other name is used. The own name is no new one.
    assert_eq!(pair.change("Pass", &record("PASS", KEPT, KEPT)), 0x1010);
    assert_eq!(pair.change("PASS", &record("Pass", KEPT, KEPT)), 0x1010);
    assert_eq!(pair.change("Pass", &record("Pass", KEPT, KEPT)), 0);
    assert_eq!(places(&pair, 12), [pass(), pass_mixed]);
    // 'pass' has key 1: the entry leaves key 2's sector.
    assert_eq!(pair.change("Pass", &record("pass", KEPT, KEPT)), 0);
    assert_eq!(places(&pair, 12), [pass(), UNUSED]);
    let renamed = extendable([0x7061, 0x7373], 1, 18, 2);
    assert_eq!(places(&pair, 11), [renamed, UNUSED]);
    assert_eq!(pair.entry("pass"), renamed);
    assert_eq!(pair.change("Pass", &record("", KEPT, KEPT)), 0x5000);
    assert_eq!(pair.listed(), ["MAP", "PASS", "SYS", "pass"]);
    // 'Pass' has PASS's key: the place that PASS leaves counts as unused, and it is the first.
    assert_eq!(pair.change("PASS", &record("Pass", KEPT, KEPT)), 0);
    let renamed = extendable([0x5061, 0x7373], 2, 14, 4);
    assert_eq!(places(&pair, 12), [renamed, UNUSED]);
}

#[test]
fn question_5_is_asked_of_a_rename_that_changes_case_only() {
    let mut pair = pass_twice();
    // PASS is open, which says nothing of Pass.
    assert_eq!(pair.create_area("PASS"), 0);
    assert_eq!(pair.change("PASS", &record("pass", KEPT, KEPT)), 0x1200);
    assert_eq!(pair.change("Pass", &record("pass", KEPT, KEPT)), 0);
    assert_eq!(pair.change("pass", &record("", 0x0010, KEPT)), 0);
    // A permanent file: question 5 comes before 6, where PASS would be used.
    for new in ["Pass", "PASS", "PASs"] {
        assert_eq!(pair.change("pass", &record(new, KEPT, KEPT)), 0x1200);
    }
    assert_eq!(pair.change("pass", &record("pass", KEPT, KEPT)), 0);
}

/// The name, index sector, live length and first position of each open area process.
fn open_areas(pair: &Pair) -> Vec<([u16; 3], u16, u16, u16)> {
    let open = pair.unit.state.areas.iter().filter(|area| area.live);
    open.map(|area| (area.name, area.index, area.length, area.users[0].position))
        .collect()
}

#[test]
fn both_are_open_at_once_each_with_its_own_blocks() {
    let mut pair = pass_twice();
    for name in ["PASS", "Pass"] {
        assert_eq!(pair.create_area(name), 0);
        assert_eq!(pair.area(name, 7, Operation::Reserve(3)), 0);
    }
    assert_eq!(pair.create_area("pass"), 0x4800);
    assert_eq!(pair.area("pass", 7, Operation::Sense), 0x4800);
    let [pass, pass_mixed] = [[0x5041, 0x5353, 0], [0x5061, 0x7373, 0]];
    let fresh = [(pass, 14, 2, 0), (pass_mixed, 18, 1, 0)];
    assert_eq!(open_areas(&pair), fresh);
    // Block 0 of each, then each is appended to: blocks 2 and 1.
    assert_eq!(pair.transput("PASS", 7, 3, 0, 0x1111).2, 0);
    assert_eq!(pair.area("PASS", 7, Operation::Position(2)), 0);
    assert_eq!(pair.transput("PASS", 7, 3, 0, 0x2222).2, 2);
    assert_eq!(open_areas(&pair), [(pass, 14, 3, 3), fresh[1]]);
    assert_eq!(pair.transput("Pass", 7, 3, 0, 0x3333).2, 0);
    assert_eq!(pair.transput("Pass", 7, 3, 0, 0x4444).2, 1);
    let grown = [(pass, 14, 3, 3), (pass_mixed, 18, 2, 2)];
    assert_eq!(open_areas(&pair), grown);
    // PASS has sectors 14 to 17 and Pass 18 to 21, each its index first.
    let firsts = [15, 16, 17, 19, 20].map(|sector| pair.word(sector, 0));
    assert_eq!(firsts, [0x1111, 0, 0x2222, 0x3333, 0x4444]);
    // What one appended is not in the other.
    assert_eq!(pair.transput("Pass", 7, 5, 1, 9).3[0], 0x4444);
    assert_eq!(pair.transput("Pass", 7, 5, 2, 9).0, 0x0810);
    assert_eq!(pair.transput("PASS", 7, 5, 2, 9).3[0], 0x2222);
    // One is closed and booked, the other stays open.
    assert_eq!(pair.area("PASS", 7, Operation::Reserve(0)), 0);
    assert_eq!(pair.remove_area("PASS"), 0);
    assert_eq!(pair.entry("PASS")[7..10], [3, 14, 4]);
    assert_eq!(pair.entry("Pass")[7..10], [1, 18, 2]);
    assert_eq!(open_areas(&pair), [grown[1]]);
    assert_eq!(pair.area("PASS", 7, Operation::Sense), 0x4800);
}

#[test]
fn an_area_of_a_name_in_another_case_is_another_area() {
    let mut pair = pass_twice();
    assert_eq!(pair.create_area("PASS"), 0);
    // None of these is open: no message reaches PASS, and nothing is removed.
    for other in ["Pass", "pass", "PAss"] {
        assert_eq!(pair.area(other, 7, Operation::Reserve(4)), 0x4800);
        assert_eq!(pair.remove_area(other), 0);
    }
    assert_eq!(open_areas(&pair).len(), 1);
    assert_eq!(pair.area("PASS", 7, Operation::Reserve(4)), 0);
    // An exclusive user of PASS keeps nobody from Pass.
    assert_eq!(pair.create_area("Pass"), 0);
    assert_eq!(pair.area("Pass", 8, Operation::Reserve(2)), 0);
    assert_eq!(pair.area("PASS", 8, Operation::Reserve(2)), 0x0200);
}

#[test]
fn only_the_capital_ones_are_sys_and_map() {
    let mut pair = Pair::new(3, 2, 60, 10);
    // 'sys' stands behind SYS and MAP in key 0's sector, 'Map' in key 1's.
    assert_eq!(pair.create("sys", 1, 0x0001), 0);
    assert_eq!(pair.create("Map", 0, 0x0001), 0);
    assert_eq!(pair.unit.image[256 * 10 + 32..][..3], [0x7379, 0x7300, 0]);
    assert_eq!(pair.entry("sys"), extendable([0x7379, 0x7300], 1, 14, 2));
    assert_eq!(pair.entry("Map"), extendable([0x4D61, 0x7000], 0, 0, 0));
    assert_eq!(pair.entry("SYS")[6..10], [0x8010, 3, 6, 4]);
    assert_eq!(pair.listed(), ["MAP", "Map", "SYS", "sys"]);
    // Opened and written.
    for (name, block) in [("sys", 1), ("Map", 0)] {
        assert_eq!(pair.create_area(name), 0);
        assert_eq!(pair.area(name, 7, Operation::Reserve(3)), 0);
        assert_eq!(pair.transput(name, 7, 7, block, 0x5A5A).0, 0);
        assert_eq!(pair.area(name, 7, Operation::Reserve(0)), 0);
        assert_eq!(pair.remove_area(name), 0);
    }
    assert_eq!(pair.entry("sys")[7..10], [2, 14, 4]);
    // Changed, renamed, but not to a name that is used, and removed.
    assert_eq!(pair.change("sys", &record("", 0, 0)), 0);
    assert_eq!(pair.change("sys", &record("SYS", KEPT, KEPT)), 0x1010);
    assert_eq!(pair.change("Map", &record("MAP", KEPT, KEPT)), 0x1010);
    assert_eq!(pair.change("sys", &record("Sys", KEPT, KEPT)), 0);
    assert_eq!(pair.remove("Sys"), 0);
    assert_eq!(pair.remove("Map"), 0);
    // The two that remain are as document 01 has them.
    for system in ["SYS", "MAP"] {
        assert_eq!(pair.change(system, &record("sys", KEPT, KEPT)), 0x1200);
        assert_eq!(pair.remove(system), 0x1200);
        assert_eq!(pair.create_area(system), 0x0A00);
        assert_eq!(pair.remove_area(system), 0x0A00);
    }
    for ordinary in ["sys", "map"] {
        assert_eq!(pair.remove(ordinary), 0x5000);
        assert_eq!(pair.create_area(ordinary), 0x4800);
        assert_eq!(pair.remove_area(ordinary), 0);
    }
}

#[test]
fn sound_units_compare_names_as_they_stand() {
    let pair = pass_twice();
    // The name of the second entry of key 2, and what becomes of the unit with it.
    let judged = |name: [u16; 3]| {
        let mut image = pair.unit.image.clone();
        image[256 * 12 + 16..][..3].copy_from_slice(&name);
        soundness(&image, &pair.unit.state)
    };
    assert_eq!(judged([0x5061, 0x7373, 0]), Ok(1));
    // 'PASS' again; 'pass', whose key is 1; 'Pas' and one of { [ ` @ / :, none of them legal.
    let pass = [0x5041, 0x5353, 0];
    assert_eq!(judged(pass), Err(Unsound::EntryTwice(pass)));
    let pass_small = [0x7061, 0x7373, 0];
    assert_eq!(judged(pass_small), Err(Unsound::EntryKey(pass_small)));
    for outside in [0x737B, 0x735B, 0x7360, 0x7340, 0x732F, 0x733A] {
        let name = [0x5061, outside, 0];
        assert_eq!(judged(name), Err(Unsound::EntryName(name)));
    }
    // Area processes: PASS and Pass are two, 'pass' is not entered.
    let state = |names: [[u16; 3]; 2]| {
        let mut state = pair.unit.state;
        for ((area, name), (index, length)) in
            state.areas.iter_mut().zip(names).zip([(14, 2), (18, 1)])
        {
            (area.live, area.name, area.index, area.length) = (true, name, index, length);
        }
        soundness(&pair.unit.image, &state)
    };
    assert_eq!(state([pass, [0x5061, 0x7373, 0]]), Ok(1));
    let absent = state([pass, pass_small]);
    assert_eq!(absent, Err(Unsound::AreaNotEntered(pass_small)));
    // An area process on 'sys' is none on SYS.
    let mut pair = Pair::new(3, 2, 60, 10);
    assert_eq!(pair.create("sys", 0, 0), 0);
    assert_eq!(pair.create_area("sys"), 0);
    assert_eq!(soundness(&pair.unit.image, &pair.unit.state), Ok(1));
}
