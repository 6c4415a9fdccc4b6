//! Names, entries, attributes, records and refusals, without a unit. Expected words are those of
//! documents 01 and 02.

use ruzkemp::{Attributes, Call, Entry, Error, Name, NameError, Record, Role};

fn name(text: &str) -> Name {
    Name::new(text).expect("a legal name")
}

#[test]
fn a_name_has_one_to_five_letters_or_digits_and_begins_with_a_letter() {
    for text in ["A", "SYS", "ZZZZZ", "P1979", "a1b2c", "Pass", "zAZ09"] {
        assert_eq!(name(text).to_string(), text);
        assert!(name(text).is_legal());
    }
    assert_eq!(Name::new(""), Err(NameError::Length));
    assert_eq!(Name::new("SEASON"), Err(NameError::Length));
    assert_eq!(Name::new("1PASS"), Err(NameError::First));
    for wrong in ['-', ' ', '\0', '@', '[', '`', '{', '/', ':', 'Æ', 'é'] {
        assert_eq!(
            Name::new(&format!("P{wrong}")),
            Err(NameError::Character(wrong))
        );
    }
}

#[test]
fn a_name_is_three_words_high_half_first_with_the_unit_as_sixth_character() {
    let pass = name("PASS");
    assert_eq!(pass.words(), [0x5041, 0x5353, 0]);
    assert_eq!(pass.on_unit(2), [0x5041, 0x5353, 2]);
    assert_eq!(name("ZZZZZ").on_unit(3), [0x5A5A, 0x5A5A, 0x5A03]);
    assert_eq!(pass.on_unit(256), [0x5041, 0x5353, 0x00FF]);
    assert_eq!(Name::from_words([0x5041, 0x5353, 3]), pass);
    assert_eq!(Name::from_words(Name::SYS.words()), name("SYS"));
    assert_eq!(Name::from_words(Name::MAP.words()), name("MAP"));
}

/// Document 02, R-8.
#[test]
fn names_are_equal_only_when_all_five_characters_are() {
    let words = [
        ("PASS", [0x5041, 0x5353, 0]),
        ("Pass", [0x5061, 0x7373, 0]),
        ("pass", [0x7061, 0x7373, 0]),
        ("PASSa", [0x5041, 0x5353, 0x6100]),
        ("PASSA", [0x5041, 0x5353, 0x4100]),
    ];
    for (text, its_words) in words {
        assert_eq!(name(text).words(), its_words);
        assert_eq!(Name::from_words(its_words).to_string(), text);
        assert!(Name::from_words(its_words).is_legal());
        let equal = words.iter().filter(|(other, _)| name(other) == name(text));
        assert_eq!(equal.count(), 1, "{text}");
    }
    for text in ["sys", "Sys", "map", "Map"] {
        assert!(![Name::SYS, Name::MAP].contains(&name(text)), "{text}");
    }
    // The unit, the sixth character, is left out.
    assert_eq!(Name::from_words([0x5061, 0x7373, 2]), name("Pass"));
}

#[test]
fn names_are_ordered_as_their_words_are() {
    let ordered = [
        "A", "A0", "A9", "AA", "ABCD", "ABCD1", "ABCDA", "ABCDa", "ABD", "AZ", "Aa", "BA", "MAP",
        "Map", "SYS", "SYS0", "Z", "a", "aZ", "sys",
    ];
    let names = ordered.map(name);
    assert!(names.is_sorted_by(|one, other| one < other));
    assert!(names.is_sorted_by(|one, other| one.words() < other.words()));
}

#[test]
fn words_that_are_no_legal_name_are_shown_and_said_to_be_illegal() {
    for (words, text) in [
        ([0, 0, 0], ""),
        ([0x0041, 0, 0], r"\x00A"),
        ([0x3141, 0, 0], "1A"),
        ([0x4100, 0x4200, 0], r"A\x00B"),
        ([0x41C5, 0, 0], r"A\xc5"),
        ([0x4061, 0, 0], "@a"),
        ([0x615B, 0, 0], "a["),
        ([0x6161, 0x6000, 0], "aa`"),
        ([0x7B00, 0, 0], "{"),
        ([0x612F, 0x3A00, 0], "a/:"),
    ] {
        let name = Name::from_words(words);
        assert!(!name.is_legal(), "{words:04X?}");
        assert_eq!(name.to_string(), text);
    }
}

#[test]
fn an_entry_has_its_fields_in_their_words() {
    let words = [
        0x5041, 0x5353, 0, 1, 2, 3, 0x0001, 4, 12, 6, 10, 11, 12, 13, 14, 15,
    ];
    let entry = Entry::from_words(words);
    assert_eq!(entry.name(), name("PASS"));
    assert_eq!(entry.optional(), [1, 2, 3]);
    assert_eq!(entry.attributes(), Attributes::EXTENDABLE);
    assert_eq!(
        (entry.length(), entry.index(), entry.reserved()),
        (4, 12, 6)
    );
    assert_eq!(entry.tail(), [10, 11, 12, 13, 14, 15]);
    assert_eq!(entry.words(), words);
}

#[test]
fn an_entry_to_be_lent_has_the_length_in_word_9() {
    let set = Entry::for_set(5, Attributes::PERMANENT)
        .with_optional([1, 2, 3])
        .with_tail([4; 6]);
    let expected = [0, 0, 0, 1, 2, 3, 0x0010, 0, 0, 5, 4, 4, 4, 4, 4, 4];
    assert_eq!(set.words(), expected);
    let mut kept = set.with_name(name("GATE")).words();
    kept[..3].fill(0);
    (kept[6], kept[9]) = (0x8000, 0x8000);
    let change = Entry::for_change(&set.with_name(name("GATE")));
    assert_eq!(change.words(), kept);
    assert_eq!(
        change.with_name(name("GATE")).words()[..3],
        name("GATE").words()
    );
}

#[test]
fn attributes_are_the_bits_of_document_01() {
    let bit = |number: u32| Attributes::from_bits(1 << (15 - number));
    let settable = [
        (Attributes::SUB_CATALOG, bit(1)),
        (Attributes::PERMANENT, bit(11)),
        (Attributes::WRITE_PROTECTED, bit(12)),
        (Attributes::EXTENDABLE, bit(15)),
    ];
    let mut all = Attributes::NONE;
    for (named, bit) in settable {
        assert_eq!(named, bit);
        assert!(!all.contains(bit));
        all |= named;
    }
    assert_eq!(all, Attributes::SETTABLE);
    assert_eq!(Attributes::ENTRY_ONLY, bit(13));
    assert_eq!(
        Attributes::CATALOG_FILE | Attributes::PERMANENT,
        Attributes::from_bits(0x8010)
    );
    assert_eq!(Attributes::NONE.to_string(), "none");
    assert_eq!(
        Attributes::from_bits(0x8010).to_string(),
        "catalog file, permanent"
    );
    assert_eq!(
        Attributes::from_bits(0x0021).to_string(),
        "extendable, 0020h"
    );
}

#[test]
fn a_record_has_nine_words() {
    let record = Record::new(1, 3, 2, 20, 10);
    assert_eq!(record.words(), [1, 3, 2, 20, 10, 10, 20, 0, 0]);
    assert_eq!(record.image_words(), 5_120);
    let words = [1, 2, 3, 4, 5, 6, 7, 8, 9];
    assert_eq!(Record::from_words(words).words(), words);
}

#[test]
fn roles_have_the_counts_of_reserve() {
    assert_eq!(Role::ExclusiveWriter.count(), 2);
    assert_eq!(Role::Sharing.count(), 3);
    assert_eq!(Role::ExclusiveUser.count(), 4);
    for role in [Role::Sharing, Role::ExclusiveWriter, Role::ExclusiveUser] {
        assert_eq!(Role::from_number(role.number()), role);
    }
    assert_eq!(Role::from_number(3), Role::ExclusiveUser);
}

/// The calls with the words that the questions of documents 01 and 02 can give them, in ascending
/// order; a number that no call has gives FFFFh.
const WORDS: [(Call, &[u16]); 19] = [
    (Call::Format, &[0x1080, 0x1200]),
    (Call::Init, &[0x1200, 0x9000]),
    (Call::Set, &[0x1008, 0x1010, 0x1100, 0x1200, 0x9000]),
    (Call::Create, &[0x1008, 0x1010, 0x1100, 0x1200, 0x9000]),
    (Call::LookUp, &[0x1200, 0x5000, 0x9000]),
    (
        Call::Change,
        &[0x1008, 0x1010, 0x1100, 0x1200, 0x5000, 0x9000],
    ),
    (Call::Remove, &[0x1200, 0x5000, 0x9000]),
    (Call::CreateArea, &[0x0900, 0x0A00, 0x4800, 0x8800]),
    (Call::RemoveArea, &[0x0A00, 0x8800]),
    (
        Call::Reserve,
        &[0x0200, 0x0808, 0x0810, 0x0A00, 0x4800, 0x8800],
    ),
    (Call::Release, &[0x0200, 0x0810, 0x0A00, 0x4800, 0x8800]),
    (Call::Position, &[0x0200, 0x0810, 0x0A00, 0x4800, 0x8800]),
    (Call::Sense, &[0x0200, 0x0810, 0x0A00, 0x4800, 0x8800]),
    (
        Call::Input,
        &[0x0200, 0x0810, 0x0880, 0x0A00, 0x4800, 0x8800],
    ),
    (
        Call::Output,
        &[
            0x0200, 0x0808, 0x0810, 0x0880, 0x0900, 0x0A00, 0x0C00, 0x4800, 0x8800,
        ],
    ),
    (
        Call::OtherOperation,
        &[0x0200, 0x0810, 0x0A00, 0x4800, 0x8800],
    ),
    (Call::UnitDescription, &[0x1200, 0x9000]),
    (Call::Listing, &[0x1200, 0x9000]),
    (Call::Unknown, &[0xFFFF]),
];

#[test]
fn a_refusal_has_reasons_at_a_call_exactly_if_a_question_of_it_gives_the_word() {
    for (call, expected) in WORDS {
        let explained = |word: &u16| {
            let error = Error::from_word(*word);
            error.is_some_and(|error| !error.reasons(call).is_empty())
        };
        let words: Vec<u16> = (0..=u16::MAX).filter(explained).collect();
        assert_eq!(words, expected, "{call:?}");
    }
}

#[test]
fn a_word_and_its_refusal_determine_each_other() {
    assert_eq!(Error::from_word(0), None);
    assert_eq!(Error::check(0), Ok(()));
    for word in 1..=u16::MAX {
        let error = Error::from_word(word).expect("a refusal");
        assert_eq!(error.word(), word);
        assert_eq!(Error::check(word), Err(error));
        let named = WORDS.iter().any(|(_, words)| words.contains(&word));
        assert_eq!(error == Error::Other(word), !named, "{word:04X}h");
    }
}

#[test]
fn a_refusal_is_told_in_plain_words() {
    assert_eq!(
        Error::AreaFull.explain(Call::Output),
        "refused with 0900h: no slice is free"
    );
    assert_eq!(
        Error::AreaIllegal.explain(Call::Input),
        "refused with 0A00h: the unit is not known or not initialized, or the position is \
         negative, or the position is at the end of a fixed file"
    );
    assert_eq!(
        Error::NotUserOrPastEnd.explain(Call::Input),
        "refused with 0810h: the sender is 0, or the sender is no user, or the position is past \
         the length, or the position is at the end of an extendable file"
    );
    // Position asks whether it goes past the length, and the kind of file does not matter.
    assert_eq!(
        Error::NotUserOrPastEnd.explain(Call::Position),
        "refused with 0810h: the sender is 0, or the sender is no user, or the position is past \
         the length"
    );
    assert_eq!(
        Error::NoSuchCall.explain(Call::Unknown),
        "refused with FFFFh: the number is no call's"
    );
    assert_eq!(
        Error::AreaFull.explain(Call::Init),
        "refused with 0900h: for no reason that the call has"
    );
}

#[test]
fn a_refusal_is_shown_in_one_short_line() {
    for (error, line) in [
        (
            Error::CatalogParameter,
            "1200h: parameter refused by the catalog",
        ),
        (Error::DiscFull, "1100h: not enough free slices"),
        (
            Error::AreaFull,
            "0900h: no area process vacant, or no slice free",
        ),
        (Error::NoSuchCall, "FFFFh: no call has the message's number"),
        (Error::Other(0x0001), "0001h: no result word of the library"),
    ] {
        assert_eq!(error.to_string(), line);
    }
    let mut lines: Vec<String> = Vec::new();
    for word in 1..=u16::MAX {
        let error = Error::from_word(word).expect("a refusal");
        let line = error.to_string();
        assert!(line.len() <= 80 && !line.contains('\n'), "{line}");
        if error != Error::Other(word) {
            lines.push(line[7..].to_string());
        }
    }
    assert_eq!(lines.len(), 17);
    lines.sort();
    lines.dedup();
    assert_eq!(lines.len(), 17, "two words have one meaning");
}
