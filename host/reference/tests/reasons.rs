//! The one reason for a refusal: it is there exactly if the call is refused, its question is the one
//! that is answered no, and its text says the part of the question that holds, with its numbers.

use std::collections::BTreeMap;

use reference::generate::{
    self, aged, crowded, damage, fill_vacant, format_call, open_areas, Caller, Unit,
};
use reference::layout::name_of;
use reference::random::Random;
use reference::{
    explain, explain_format, format, format_reason, perform, reason, Message, Operation, Question,
    State,
};

fn plain(text: &str) -> bool {
    // The debugging form of a question is one long word.
    !text.is_empty() && !text.contains('\n') && text.contains(' ')
}

/// Calls on a unit: the reason is asked for first, and then the call is made.
fn calls(
    random: &mut Random,
    unit: &mut Unit,
    number: usize,
    counts: &mut BTreeMap<Question, u64>,
) {
    let mut caller = Caller::new(random, &unit.image, &unit.state);
    for _ in 0..number {
        let mut call = caller.call(random, &unit.image, &unit.state);
        let before = unit.clone();
        let said = reason(&unit.image, &unit.state, &call.message, &call.lent);
        assert!(before == *unit);
        let (image, state) = (&mut unit.image, &mut unit.state);
        let (answer, question) = explain(image, state, &call.message, &mut call.lent);
        assert_eq!(said.as_ref().map(|reason| reason.question), question);
        assert_eq!(said.is_some(), answer.result != 0);
        let Some(said) = said else {
            continue;
        };
        let text = said.to_string();
        assert!(plain(&text), "{text}");
        let word = said.question.word();
        assert_eq!(word, answer.result);
        *counts.entry(said.question).or_default() += 1;
    }
}

#[test]
fn a_reason_is_there_exactly_if_a_call_is_refused() {
    let random = &mut Random::new(0x4EA5);
    let mut counts = BTreeMap::new();
    for round in 0..150 {
        let mut unit = aged(random);
        calls(random, &mut unit, 80, &mut counts);
        let mut unit = aged(random);
        open_areas(random, &mut unit);
        calls(random, &mut unit, 80, &mut counts);
        if round % 5 == 0 {
            let mut unit = crowded(random);
            open_areas(random, &mut unit);
            fill_vacant(random, &mut unit.state);
            calls(random, &mut unit, 40, &mut counts);
        }
        for _ in 0..4 {
            let mut unit = generate::unit(random);
            damage(random, &mut unit);
            calls(random, &mut unit, 4, &mut counts);
        }
    }
    println!("{counts:?}");
    // All but the three of Format and of raw messages.
    assert_eq!(counts.len(), 33);
}

#[test]
fn format_has_a_reason_exactly_if_it_is_refused() {
    let random = &mut Random::new(0xF0);
    let (mut obeyed, mut refused) = (0, 0);
    for _ in 0..2_000 {
        let mut call = format_call(random);
        let (image, state) = (&mut call.unit.image, &mut call.unit.state);
        let said = format_reason(image, state, call.bytes, &call.record);
        let outcome = explain_format(image, state, call.bytes, &call.record);
        assert_eq!(said.as_ref().map(|reason| reason.question), outcome.err());
        match said {
            Some(said) => {
                assert!(plain(&said.to_string()));
                refused += 1;
            }
            None => obeyed += 1,
        }
    }
    assert!(obeyed > 100 && refused > 100);
}

/// H = 1, s = 2, N = 20, F = 10 with PASS of two sectors in slices 2 and 3; initialized.
fn small() -> Unit {
    let mut unit = Unit {
        image: vec![0; 256 * 20],
        state: State::new(0),
    };
    let record = [0, 1, 2, 20, 10, 10, 20, 0, 0];
    assert_eq!(format(&mut unit.image, &mut unit.state, 18, &record), 0);
    good(&mut unit, Message::Init { unit: 0 }, &[]);
    good(&mut unit, create("PASS", 2, 1), &[]);
    unit
}

fn create(name: &str, size: u16, attributes: u16) -> Message {
    Message::Create {
        name: name_of(name, 0),
        size,
        attributes,
    }
}

/// A message to the area process of PASS.
fn to_pass(sender: u16, operation: Operation) -> Message {
    Message::AreaMessage {
        name: name_of("PASS", 0),
        sender,
        operation,
    }
}

fn transput(operation: u16, block: u16) -> Operation {
    Operation::Transput {
        operation,
        bytes: 512,
        block,
    }
}

/// A call that has to be obeyed.
fn good(unit: &mut Unit, message: Message, lent: &[u16]) {
    assert_eq!(reason(&unit.image, &unit.state, &message, lent), None);
    let mut lent = lent.to_vec();
    let answer = perform(&mut unit.image, &mut unit.state, &message, &mut lent);
    assert_eq!(answer.result, 0, "{message:?}");
}

/// A call that has to be refused with a word for a reason.
fn bad(unit: &Unit, message: Message, lent: &[u16], word: u16, text: &str) {
    let said = reason(&unit.image, &unit.state, &message, lent).expect("refused");
    assert_eq!(said.to_string(), text, "{message:?}");
    assert_eq!(said.question.word(), word, "{message:?}");
}

#[test]
fn the_unit_is_not_the_right_one() {
    let mut unit = small();
    let init = |unit| Message::Init { unit };
    bad(
        &unit,
        init(4),
        &[],
        0x1200,
        "the unit is not known: 4 is not 0 to 3",
    );
    let text = "the unit is not known: this is unit 0, not 1";
    bad(&unit, init(1), &[], 0x1200, text);
    let name = name_of("PASS", 1);
    bad(&unit, Message::RemoveArea { name }, &[], 0x0A00, text);
    let name = name_of("PASS", 0);
    good(&mut unit, Message::CreateArea { name }, &[]);
    bad(&unit, init(0), &[], 0x1200, "an area process is open: PASS");
    unit.state.initialized = false;
    bad(
        &unit,
        Message::LookUp { name },
        &[0; 16],
        0x1200,
        "the unit is not initialized",
    );
    bad(
        &unit,
        Message::CreateArea { name },
        &[],
        0x0A00,
        "the unit is not initialized",
    );
    unit = small();
    unit.image[8 * 256 + 3] = 5;
    let text =
        "the image is not a sound unit: rule 10: the kit says 5 free sectors, the map has 2 \
                free slices of 2 sectors: 4";
    bad(&unit, init(0), &[], 0x9000, text);
    bad(&unit, Message::CreateArea { name }, &[], 0x8800, text);
    unit = small();
    good(&mut unit, Message::CreateArea { name }, &[]);
    unit.image[8 * 256 + 3] = 5;
    let text = "the image is not sound with the area processes that are open";
    bad(&unit, Message::LookUp { name }, &[0; 16], 0x9000, text);
}

#[test]
fn a_name_in_another_case_is_told() {
    let mut unit = small();
    let look_up = |name: &str| Message::LookUp {
        name: name_of(name, 0),
    };
    let text = "the name does not stand in the catalog";
    bad(&unit, look_up("GATE"), &[], 0x5000, text);
    let text = "pass does not stand in the catalog, PASS does";
    bad(&unit, look_up("pass"), &[], 0x5000, text);
    let name = name_of("pass", 0);
    bad(&unit, Message::CreateArea { name }, &[], 0x4800, text);
    let sense = Message::AreaMessage {
        name,
        sender: 1,
        operation: Operation::Sense,
    };
    bad(
        &unit,
        sense,
        &[],
        0x4800,
        "there is no area process of the name",
    );
    good(&mut unit, create("Pass", 0, 0), &[]);
    let text = "pass does not stand in the catalog, PASS and Pass do";
    bad(&unit, look_up("pass"), &[], 0x5000, text);
    let open = Message::CreateArea {
        name: name_of("PASS", 0),
    };
    good(&mut unit, open, &[]);
    bad(
        &unit,
        sense,
        &[],
        0x4800,
        "pass has no area process, PASS has one",
    );
    let text = "the name is illegal, so that no file has it";
    bad(&unit, look_up("1A"), &[], 0x5000, text);
}

#[test]
fn what_is_not_legal_is_told() {
    let unit = small();
    let text = "the name is illegal: it has to be a letter, then letters or digits";
    bad(&unit, create("1A", 0, 0), &[], 0x1200, text);
    let text = "the size is negative: 40000 is above 32767";
    bad(&unit, create("GATE", 40_000, 2), &[], 0x1200, text);
    let text = "the attributes are illegal: no file has bits 8002h";
    bad(&unit, create("GATE", 0, 0x8003), &[], 0x1200, text);
    let text = "entry only is asked for (such files are no longer created)";
    bad(&unit, create("GATE", 0, 5), &[], 0x1200, text);
    let name = name_of("GATE", 0);
    let text = "fewer than 16 words are lent: 15";
    bad(&unit, Message::Set { name }, &[0; 15], 0x1200, text);
    let mut lent = [0; 16];
    lent[9] = 0x8000;
    let text = "the size is negative: 32768 is above 32767";
    bad(&unit, Message::Set { name }, &lent, 0x1200, text);
}

/// The lent entry that keeps name, attributes and length.
fn kept() -> [u16; 16] {
    let mut lent = [0; 16];
    (lent[6], lent[9]) = (0x8000, 0x8000);
    lent
}

#[test]
fn what_a_change_may_not_do_is_told() {
    let mut unit = small();
    let change = |name: &str| Message::Change {
        name: name_of(name, 0),
    };
    let with = |word: usize, value: u16| {
        let mut lent = kept();
        lent[word] = value;
        lent
    };
    let pass = change("PASS");
    bad(
        &unit,
        pass,
        &with(0, 0x3100),
        0x1200,
        "the new name is illegal",
    );
    let text = "the attributes are illegal: no file has bits 0002h";
    bad(&unit, pass, &with(6, 2), 0x1200, text);
    let text = "SYS and MAP are never changed (the attributes that SYS would keep, 8010h, are not \
                those of a file)";
    bad(&unit, change("SYS"), &with(9, 2), 0x1200, text);
    let text = "the file is SYS or MAP, which are never changed or removed";
    bad(&unit, change("MAP"), &with(6, 0), 0x1200, text);
    let name = name_of("SYS", 0);
    bad(&unit, Message::Remove { name }, &[], 0x1200, text);
    good(&mut unit, create("FIX", 0, 0x10), &[]);
    let name = name_of("FIX", 0);
    bad(
        &unit,
        Message::Remove { name },
        &[],
        0x1200,
        "the file is permanent",
    );
    let text = "the file is permanent and its length would change";
    bad(&unit, change("FIX"), &with(9, 1), 0x1200, text);
    let mut lent = with(9, 1);
    lent[0] = 0x4100;
    let text = "the file is permanent and its name and its length would change";
    bad(&unit, change("FIX"), &lent, 0x1200, text);
    let text = "the file is permanent and its name would change";
    bad(&unit, change("FIX"), &with(0, 0x4100), 0x1200, text);
    let text = "the name is used by another file";
    bad(&unit, create("FIX", 0, 0), &[], 0x1010, text);
    let name = name_of("PASS", 0);
    good(&mut unit, Message::CreateArea { name }, &[]);
    bad(
        &unit,
        Message::Remove { name },
        &[],
        0x1200,
        "the file has an area process",
    );
    // FIX (place 3 of sector 10) as it would stand on an old disc: entry only, not permanent.
    unit.image[10 * 256 + 48 + 6] = 4;
    let text = "an entry-only file would get slices";
    bad(&unit, change("FIX"), &with(9, 1), 0x1200, text);
}

#[test]
fn slices_are_counted() {
    let mut unit = small();
    // need(4) with s = 2 is 3; slices 4 and 5 are free.
    let text = "there are not enough free slices: 3 are needed and 2 are free";
    bad(&unit, create("GATE", 4, 0), &[], 0x1100, text);
    let change = Message::Change {
        name: name_of("PASS", 0),
    };
    let mut lent = kept();
    // need(8) is 5: three more than it has.
    lent[9] = 8;
    let text = "there are not enough free slices: 3 more are needed and 2 are free";
    bad(&unit, change, &lent, 0x1100, text);
    // SYS has 16 places: SYS, MAP, PASS and 13 more; its second sector is slack, 16 places more.
    for number in 0..29 {
        good(&mut unit, create(&format!("A{number}"), 0, 0), &[]);
    }
    let text = "there are not enough free slices: 3 are needed (1 of them for SYS) and 2 are free";
    bad(&unit, create("GATE", 3, 0), &[], 0x1100, text);
    // Slices 4 and 5 are taken, and an entry more needs a slice of SYS.
    lent[9] = 6;
    good(&mut unit, change, &lent);
    let text = "there are not enough free slices: 1 is needed for SYS and 0 are free";
    bad(&unit, create("GATE", 0, 0), &[], 0x1100, text);
}

#[test]
fn rooms_are_told() {
    let unit = small();
    let describe = |bytes| Message::UnitDescription { unit: 0, bytes };
    bad(
        &unit,
        describe(31),
        &[0; 16],
        0x1200,
        "the byte count is below 32: 31",
    );
    bad(
        &unit,
        describe(32),
        &[0; 15],
        0x1200,
        "fewer than 16 words are lent: 15",
    );
    let text = "3 entries need 48 words, and 47 are lent";
    bad(&unit, Message::Listing { unit: 0 }, &[0; 47], 0x1200, text);
}

#[test]
fn users_are_told() {
    let mut unit = small();
    let name = name_of("PASS", 0);
    bad(
        &unit,
        Message::CreateArea {
            name: name_of("SYS", 0),
        },
        &[],
        0x0A00,
        "the file is SYS or MAP",
    );
    good(&mut unit, Message::CreateArea { name }, &[]);
    let reserve = |sender, count| to_pass(sender, Operation::Reserve(count));
    bad(&unit, reserve(0, 3), &[], 0x0810, "the sender is 0");
    let text = "the count of the reservation is unknown: 1";
    bad(&unit, reserve(5, 1), &[], 0x0A00, text);
    bad(
        &unit,
        to_pass(5, Operation::Other(9)),
        &[],
        0x0A00,
        "the operation is unknown: 9",
    );
    bad(
        &unit,
        reserve(5, 0),
        &[],
        0x0810,
        "the sender is no user: 5",
    );
    good(&mut unit, reserve(5, 2), &[]);
    bad(
        &unit,
        reserve(6, 2),
        &[],
        0x0A00,
        "another user is exclusive writer: 5",
    );
    let text = "exclusive use is asked for beside another user: 5";
    bad(&unit, reserve(6, 4), &[], 0x0A00, text);
    good(&mut unit, reserve(6, 3), &[]);
    let text = "another user is exclusive writer: 5";
    bad(&unit, to_pass(6, transput(3, 0)), &[0; 256], 0x0A00, text);
    good(&mut unit, reserve(7, 3), &[]);
    bad(
        &unit,
        reserve(8, 3),
        &[],
        0x0808,
        "all three user entries are taken",
    );
    unit.state.areas[0].users[0].opens = 65_535;
    bad(
        &unit,
        reserve(5, 3),
        &[],
        0x0808,
        "the sender's open count is 65,535",
    );
    unit.state.areas[0].users[1].id = 0;
    unit.state.areas[0].users[2].id = 0;
    good(&mut unit, reserve(5, 0), &[]);
    good(&mut unit, reserve(5, 4), &[]);
    bad(
        &unit,
        reserve(6, 3),
        &[],
        0x0200,
        "another user is exclusive user: 5",
    );
}

#[test]
fn positions_are_told() {
    let mut unit = small();
    let name = name_of("PASS", 0);
    good(&mut unit, Message::CreateArea { name }, &[]);
    good(&mut unit, to_pass(5, Operation::Reserve(3)), &[]);
    let position = |block| to_pass(5, Operation::Position(block));
    bad(
        &unit,
        position(0x8000),
        &[],
        0x0A00,
        "the position is negative",
    );
    let text = "the position is past the length: 3 is above 2";
    bad(&unit, position(3), &[], 0x0810, text);
    bad(&unit, to_pass(5, transput(5, 3)), &[0; 256], 0x0810, text);
    let text = "the position is at the end of an extendable file";
    bad(&unit, to_pass(5, transput(5, 2)), &[0; 256], 0x0810, text);
    let text = "fewer than 256 words are lent: 255";
    bad(&unit, to_pass(5, transput(1, 0)), &[0; 255], 0x0880, text);
    let short = Operation::Transput {
        operation: 1,
        bytes: 511,
        block: 0,
    };
    bad(
        &unit,
        to_pass(5, short),
        &[0; 256],
        0x0880,
        "the byte count is not 512: 511",
    );
    // Blocks 2 to 6 fill slices 3 to 5.
    for block in 2..7 {
        good(&mut unit, to_pass(5, transput(7, block)), &[0; 256]);
    }
    bad(
        &unit,
        to_pass(5, transput(3, 0)),
        &[0; 256],
        0x0900,
        "no slice is free",
    );
    let word = 10 * 256 + 32 + 6;
    unit.image[word] = 0;
    let text = "the position is at the end of a fixed file";
    bad(&unit, to_pass(5, transput(1, 0)), &[0; 256], 0x0A00, text);
    let text = "the file ends there and is not extendable";
    bad(&unit, to_pass(5, transput(3, 0)), &[0; 256], 0x0A00, text);
    unit.image[word] = 8;
    bad(
        &unit,
        to_pass(5, transput(3, 0)),
        &[0; 256],
        0x0C00,
        "the file is write protected",
    );
}

#[test]
fn the_record_of_format_is_told() {
    let image = vec![0; 256 * 20];
    let good = [0, 1, 2, 20, 10, 10, 20, 0, 0];
    let bad = |state: &State, changes: &[(usize, u16)], bytes: u16, word: u16, text: &str| {
        let mut record = good;
        for &(word, value) in changes {
            record[word] = value;
        }
        let said = format_reason(&image, state, bytes, &record).expect("refused");
        assert_eq!(said.to_string(), text);
        assert_eq!(said.question.word(), word);
    };
    let state = &State::new(0);
    assert_eq!(format_reason(&image, state, 18, &good), None);
    bad(state, &[], 17, 0x1080, "the byte count is not 18: 17");
    let said = format_reason(&image, state, 18, &good[..8]).expect("refused");
    assert_eq!(said.to_string(), "fewer than 9 words are lent: 8");
    bad(
        state,
        &[(0, 1)],
        18,
        0x1200,
        "the unit is not known: this is unit 0, not 1",
    );
    bad(state, &[(1, 0)], 18, 0x1200, "H is 0 and has to be 1 to 64");
    bad(
        state,
        &[(2, 65)],
        18,
        0x1200,
        "s is 65 and has to be 2 to 64",
    );
    bad(
        state,
        &[(5, 9)],
        18,
        0x1200,
        "F is 9 and has to be at least 10",
    );
    let text = "N is 10 and has to be above F = 10 and at most 32767";
    bad(state, &[(3, 10)], 18, 0x1200, text);
    bad(
        state,
        &[(2, 4)],
        18,
        0x1200,
        "s = 4 does not divide N - F = 10",
    );
    let text = "there would be 4097 slices, and 4096 are the most";
    bad(state, &[(3, 8_204)], 18, 0x1200, text);
    let text = "there would be 5 slices, and SYS needs 6";
    bad(state, &[(1, 11)], 18, 0x1200, text);
    bad(
        state,
        &[(6, 19)],
        18,
        0x1200,
        "the top is 19 and has to be N = 20",
    );
    let text = "the free sectors are 8 and have to be N - F = 10";
    bad(state, &[(4, 8)], 18, 0x1200, text);
    let text = "the image does not have 256 words for each sector: it has 20 sectors, and N is 22";
    bad(state, &[(3, 22), (4, 12), (6, 22)], 18, 0x1200, text);
    let mut open = *state;
    open.areas[0].live = true;
    open.areas[0].name = name_of("PASS", 0);
    bad(&open, &[], 18, 0x1200, "an area process is open: PASS");
}
