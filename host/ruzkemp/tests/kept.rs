//! What Change keeps: `rename` and `resize` refuse words that it would read so, and `change` sends
//! them as they are. Document 01: "name kept if entry word 0 is 0, attributes or length (word 9) if
//! negative", and "for a permanent file optional and tail stay too".

use ruzkemp::{Attributes, Entry, Error, Name, Record, Result, Unit};

/// Document 01's small unit with PASS, 2 sectors, extendable, tail 9: slices 2 and 3.
fn with_pass() -> Unit<Vec<u16>> {
    let mut unit = Unit::formatted(&Record::new(0, 1, 2, 20, 10)).expect("a legal record");
    unit.init().expect("a sound unit");
    let entry = Entry::for_set(2, Attributes::EXTENDABLE).with_tail([9; 6]);
    unit.set(name("PASS"), &entry).expect("there is room");
    unit
}

/// PASS as it stands then.
const PASS: [u16; 16] = [
    0x5041, 0x5353, 0, 0, 0, 0, 0x0001, 2, 12, 4, 9, 9, 9, 9, 9, 9,
];

fn name(text: &str) -> Name {
    Name::new(text).expect("a legal name")
}

/// Says that a call is refused so and changes nothing.
fn refused(
    unit: &mut Unit<Vec<u16>>,
    error: Error,
    call: impl Fn(&mut Unit<Vec<u16>>) -> Result<()>,
) {
    let before = unit.clone();
    assert_eq!(call(unit), Err(error));
    assert!(*unit == before, "something changed");
}

#[test]
fn a_length_that_change_would_keep_is_refused() -> Result<()> {
    let mut unit = with_pass();
    let pass = name("PASS");
    for size in [32_768, 40_000, 65_535] {
        refused(&mut unit, Error::CatalogParameter, |unit| {
            unit.resize(pass, size)
        });
        refused(&mut unit, Error::CatalogParameter, |unit| {
            unit.create(name("NEW"), size, Attributes::NONE)
        });
    }
    // The longest that is none such: there is no room for it.
    refused(&mut unit, Error::DiscFull, |unit| unit.resize(pass, 32_767));
    unit.resize(pass, 0)
}

#[test]
fn a_name_that_change_would_keep_is_refused() -> Result<()> {
    let mut unit = with_pass();
    for words in [[0, 0, 0], [0, 0x4141, 0x4100], [0, 0, 2], [0x0041, 0, 0]] {
        refused(&mut unit, Error::CatalogParameter, |unit| {
            unit.rename(name("PASS"), Name::from_words(words))
        });
    }
    unit.rename(name("PASS"), name("WEEK"))
}

/// Look-up's own refusals come first.
#[test]
fn the_file_is_looked_up_before() {
    let mut unit = with_pass();
    let hollow = Name::from_words([0; 3]);
    refused(&mut unit, Error::NoEntry, |unit| {
        unit.resize(name("GATE"), 40_000)
    });
    refused(&mut unit, Error::NoEntry, |unit| {
        unit.rename(name("GATE"), hollow)
    });
    unit.image_mut()[9 * 256] ^= 0x8000;
    refused(&mut unit, Error::CatalogUnsound, |unit| {
        unit.resize(name("PASS"), 40_000)
    });
    refused(&mut unit, Error::CatalogUnsound, |unit| {
        unit.rename(name("PASS"), hollow)
    });
}

/// Change itself is the message: it is obeyed, and what is kept stands as it was.
#[test]
fn change_sends_the_entry_as_it_is() -> Result<()> {
    let mut unit = with_pass();
    let pass = name("PASS");
    let same = Entry::for_change(&unit.look_up(pass)?);
    for entry in [
        same,
        same.with_size(40_000),
        same.with_attributes(Attributes::from_bits(0x8001)),
        same.with_name(Name::from_words([0, 0x4141, 0x4100])),
    ] {
        unit.change(pass, &entry)?;
        assert_eq!(unit.look_up(pass)?.words(), PASS);
    }
    Ok(())
}

/// Permanent is what the file is before the call.
#[test]
fn a_permanent_file_keeps_optional_and_tail() -> Result<()> {
    let mut unit = with_pass();
    let pass = name("PASS");
    let entry = Entry::for_change(&unit.look_up(pass)?);
    let mut expected = PASS;
    // The call that makes it permanent still replaces them.
    let permanent = entry.with_attributes(Attributes::PERMANENT);
    unit.change(pass, &permanent.with_tail([8; 6]))?;
    expected[6] = 0x0010;
    expected[10..].fill(8);
    assert_eq!(unit.look_up(pass)?.words(), expected);
    let other = entry.with_optional([7; 3]).with_tail([7; 6]);
    unit.change(pass, &other)?;
    assert_eq!(unit.look_up(pass)?.words(), expected);
    // The call that takes the attribute away does not.
    unit.change(pass, &other.with_attributes(Attributes::NONE))?;
    expected[6] = 0;
    assert_eq!(unit.look_up(pass)?.words(), expected);
    unit.change(pass, &other)?;
    expected[3..6].fill(7);
    expected[10..].fill(7);
    assert_eq!(unit.look_up(pass)?.words(), expected);
    Ok(())
}
