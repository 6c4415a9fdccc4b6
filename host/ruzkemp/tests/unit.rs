//! The methods of a unit, obeyed and refused. What is expected is worked out from documents 01
//! and 02.

use ruzkemp::sys::{call, operation, UnitMessage, NO_SUCH_CALL};
use ruzkemp::{
    is_sound, Answer, Attributes, Call, Description, Entry, Error, Message, Name, Operation,
    Record, Result, Role, State, Unit, SECTOR,
};

/// The unit of document 01's worked cases: H = 1, s = 2, N = 20, F = 10.
const PAPER: [u16; 5] = [0, 1, 2, 20, 10];

fn record() -> Record {
    let [unit, h, s, n, f] = PAPER;
    Record::new(unit, h, s, n, f)
}

fn ready() -> Unit<Vec<u16>> {
    let mut unit = Unit::formatted(&record()).expect("a legal record");
    unit.init().expect("a sound unit");
    unit
}

fn name(text: &str) -> Name {
    Name::new(text).expect("a legal name")
}

/// A unit with PASS, 2 sectors long and extendable, open for sender 7.
fn opened() -> Unit<Vec<u16>> {
    let mut unit = ready();
    let pass = name("PASS");
    let made = unit
        .create(pass, 2, Attributes::EXTENDABLE)
        .and_then(|()| unit.create_area(pass))
        .and_then(|()| unit.reserve(pass, 7, Role::Sharing));
    made.expect("a new file");
    unit
}

fn position(unit: &Unit<Vec<u16>>, sender: u16) -> u16 {
    let area = unit.state().area(name("PASS")).expect("PASS is open");
    let user = area.users.iter().find(|user| user.id == sender);
    user.expect("the sender is a user").position
}

/// Says that a call is refused so and changes neither image nor state.
fn refused<T: std::fmt::Debug + PartialEq>(
    unit: &mut Unit<Vec<u16>>,
    error: Error,
    call: impl Fn(&mut Unit<Vec<u16>>) -> Result<T>,
) {
    let before = unit.clone();
    assert_eq!(call(unit), Err(error));
    assert!(*unit == before, "{error}: something changed");
}

#[test]
fn the_cases_worked_on_paper() -> Result<()> {
    let mut unit = ready();
    let pass = name("PASS");
    let numbers = |unit: &Unit<Vec<u16>>| (unit.image()[9 * SECTOR], unit.image()[8 * SECTOR + 3]);
    assert_eq!(numbers(&unit), (0x7800, 8), "P5");
    refused(&mut unit, Error::DiscFull, |unit| {
        unit.create(pass, 8, Attributes::NONE)
    });
    unit.create(pass, 2, Attributes::EXTENDABLE)?;
    assert_eq!(numbers(&unit), (0x1800, 4), "P6");
    assert_eq!(unit.image()[12 * SECTOR..][..3], [1, 4, 12]);
    unit.create_area(pass)?;
    unit.reserve(pass, 7, Role::Sharing)?;
    unit.position(pass, 7, 2)?;
    assert_eq!(unit.write_block(pass, 7, &[2; SECTOR])?, 2);
    assert_eq!(unit.write_block(pass, 7, &[3; SECTOR])?, 3);
    assert_eq!(unit.image()[12 * SECTOR..][..3], [1, 6, 12], "P7");
    assert_eq!(numbers(&unit), (0x0800, 2));
    let booked = unit.look_up(pass)?;
    assert_eq!((booked.length(), booked.reserved()), (2, 4));
    unit.release(pass, 7)?;
    unit.remove_area(pass)?;
    let booked = unit.look_up(pass)?;
    assert_eq!((booked.length(), booked.reserved()), (4, 6), "P8");
    assert!(unit.is_sound());
    Ok(())
}

#[test]
fn a_unit_that_is_not_initialized_or_unknown_is_refused() {
    let pass = name("PASS");
    let uninitialized = Unit::formatted(&record()).expect("a legal record");
    let unknown = Unit::new(ready().into_image(), 4);
    let far = Unit::new(ready().into_image(), 0x100);
    for mut unit in [uninitialized, unknown, far] {
        refused(&mut unit, Error::CatalogParameter, |unit| {
            unit.look_up(pass)
        });
        refused(&mut unit, Error::CatalogParameter, |unit| unit.list());
        refused(&mut unit, Error::CatalogParameter, |unit| unit.describe());
        refused(&mut unit, Error::AreaIllegal, |unit| unit.create_area(pass));
        refused(&mut unit, Error::AreaIllegal, |unit| unit.sense(pass, 7));
    }
}

#[test]
fn format_and_init_judge_record_and_image() {
    let mut unit = Unit::new(vec![7; record().image_words()], 0);
    refused(&mut unit, Error::CatalogUnsound, Unit::init);
    let other = Record::new(1, 1, 2, 20, 10);
    refused(&mut unit, Error::CatalogParameter, |unit| {
        unit.format(&other)
    });
    let odd = Record::new(0, 1, 2, 21, 10);
    refused(&mut unit, Error::CatalogParameter, |unit| unit.format(&odd));
    assert_eq!(unit.format_words(&record().words(), 17), 0x1080);
    assert_eq!(unit.format_words(&record().words()[..8], 18), 0x1080);
    assert_eq!(unit.format(&record()), Ok(()));
    assert!(unit.is_sound() && !unit.state().is_initialized());
    assert_eq!(
        unit.image()[..6 * SECTOR],
        vec![7; 6 * SECTOR],
        "sectors 0 to 5"
    );
    assert_eq!(unit.init(), Ok(()));
    assert!(unit.state().is_initialized());
    assert_eq!(Unit::formatted(&odd).err(), Some(Error::CatalogParameter));
    let mut unit = opened();
    refused(&mut unit, Error::CatalogParameter, Unit::init);
    refused(&mut unit, Error::CatalogParameter, |unit| {
        unit.format(&record())
    });
}

#[test]
fn set_enters_a_file_with_the_words_of_its_entry() -> Result<()> {
    let mut unit = ready();
    let gate = name("GATE");
    let entry = Entry::for_set(1, Attributes::PERMANENT)
        .with_optional([1, 2, 3])
        .with_tail([4, 5, 6, 7, 8, 9]);
    unit.set(gate, &entry)?;
    let mut expected = [
        0x4741, 0x5445, 0, 1, 2, 3, 0x0010, 1, 12, 2, 4, 5, 6, 7, 8, 9,
    ];
    assert_eq!(unit.look_up(gate)?.words(), expected);
    refused(&mut unit, Error::EntryExists, |unit| unit.set(gate, &entry));
    let illegal = Entry::for_set(0, Attributes::from_bits(0x0002));
    refused(&mut unit, Error::CatalogParameter, |unit| {
        unit.set(name("A"), &illegal)
    });
    refused(&mut unit, Error::CatalogParameter, |unit| unit.remove(gate));
    refused(&mut unit, Error::CatalogParameter, |unit| {
        unit.rename(gate, name("DOOR"))
    });
    let open = Entry::for_change(&entry).with_attributes(Attributes::NONE);
    unit.change(gate, &open)?;
    expected[6] = 0;
    assert_eq!(unit.look_up(gate)?.words(), expected);
    unit.remove(gate)
}

#[test]
fn a_file_is_renamed_and_resized_and_keeps_the_rest() -> Result<()> {
    let mut unit = ready();
    let (pass, week) = (name("PASS"), name("WEEK"));
    let entry = Entry::for_set(2, Attributes::EXTENDABLE).with_tail([9; 6]);
    unit.set(pass, &entry)?;
    unit.rename(pass, week)?;
    refused(&mut unit, Error::NoEntry, |unit| unit.look_up(pass));
    unit.resize(week, 4)?;
    let expected = [
        0x5745, 0x454B, 0, 0, 0, 0, 0x0001, 4, 12, 6, 9, 9, 9, 9, 9, 9,
    ];
    assert_eq!(unit.look_up(week)?.words(), expected);
    refused(&mut unit, Error::DiscFull, |unit| unit.resize(week, 8));
    refused(&mut unit, Error::EntryExists, |unit| {
        unit.rename(week, Name::SYS)
    });
    refused(&mut unit, Error::CatalogParameter, |unit| {
        unit.rename(Name::SYS, pass)
    });
    refused(&mut unit, Error::CatalogParameter, |unit| {
        unit.remove(Name::MAP)
    });
    refused(&mut unit, Error::NoEntry, |unit| {
        unit.rename(pass, name("DAY"))
    });
    unit.resize(week, 0)?;
    let emptied = unit.look_up(week)?;
    assert_eq!(
        (emptied.length(), emptied.index(), emptied.reserved()),
        (0, 0, 0)
    );
    Ok(())
}

/// Document 02, R-8: two files beside each other, each found, changed and removed by its own name.
#[test]
fn names_that_differ_in_case_only_are_two_files() -> Result<()> {
    let mut unit = ready();
    let [large, small, other] = ["PASS", "Pass", "pass"].map(name);
    unit.create(large, 2, Attributes::EXTENDABLE)?;
    unit.create(small, 1, Attributes::NONE)?;
    assert_eq!(unit.look_up(large)?.name(), large);
    assert_eq!(
        (unit.look_up(large)?.length(), unit.look_up(small)?.length()),
        (2, 1)
    );
    refused(&mut unit, Error::NoEntry, |unit| unit.look_up(other));
    for taken in [large, small] {
        refused(&mut unit, Error::EntryExists, |unit| {
            unit.create(taken, 0, Attributes::NONE)
        });
    }
    refused(&mut unit, Error::EntryExists, |unit| {
        unit.rename(small, large)
    });
    unit.rename(small, other)?;
    assert_eq!(listed(&mut unit)?, ["MAP", "PASS", "SYS", "pass"]);
    refused(&mut unit, Error::NoEntry, |unit| unit.remove(small));
    unit.remove(large)?;
    assert_eq!(listed(&mut unit)?, ["MAP", "SYS", "pass"]);
    Ok(())
}

#[test]
fn areas_of_names_that_differ_in_case_only_are_two() -> Result<()> {
    let mut unit = opened();
    let small = name("Pass");
    refused(&mut unit, Error::NoArea, |unit| unit.create_area(small));
    unit.create(small, 1, Attributes::NONE)?;
    refused(&mut unit, Error::NoArea, |unit| unit.sense(small, 7));
    unit.create_area(small)?;
    unit.reserve(small, 7, Role::ExclusiveUser)?;
    // What is written to one is not in the other; each user has a position in each.
    unit.write_block(small, 7, &[3; SECTOR])?;
    let mut block = [9; SECTOR];
    assert_eq!(unit.read_block(name("PASS"), 7, &mut block)?, 0);
    assert_eq!(block, [0; SECTOR]);
    assert_eq!(unit.read_block_at(small, 7, 0, &mut block)?, 0);
    assert_eq!(block, [3; SECTOR]);
    // PASS is exclusively used by nobody.
    unit.reserve(name("PASS"), 8, Role::Sharing)?;
    refused(&mut unit, Error::AreaReserved, |unit| {
        unit.reserve(small, 8, Role::Sharing)
    });
    assert_eq!(unit.state().areas().count(), 2);
    assert_eq!(unit.state().area(small).map(|area| area.length), Some(1));
    assert_eq!(unit.state().area(name("pass")), None);
    Ok(())
}

#[test]
fn only_the_capital_ones_are_sys_and_map() -> Result<()> {
    let mut unit = ready();
    for text in ["sys", "Map"] {
        let file = name(text);
        unit.create(file, 1, Attributes::EXTENDABLE)?;
        unit.create_area(file)?;
        unit.remove_area(file)?;
        unit.resize(file, 0)?;
    }
    assert_eq!(listed(&mut unit)?, ["MAP", "Map", "SYS", "sys"]);
    refused(&mut unit, Error::EntryExists, |unit| {
        unit.rename(name("sys"), Name::SYS)
    });
    refused(&mut unit, Error::CatalogParameter, |unit| {
        unit.remove(Name::SYS)
    });
    refused(&mut unit, Error::AreaIllegal, |unit| {
        unit.create_area(Name::MAP)
    });
    unit.remove(name("sys"))?;
    unit.remove(name("Map"))?;
    assert_eq!(listed(&mut unit)?, ["MAP", "SYS"]);
    Ok(())
}

#[test]
fn eight_areas_and_no_more() -> Result<()> {
    let mut unit = ready();
    let files: Vec<Name> = (0..9).map(|k| name(&format!("F{k}"))).collect();
    for file in &files {
        unit.create(*file, 0, Attributes::NONE)?;
    }
    for file in &files[..8] {
        unit.create_area(*file)?;
        unit.create_area(*file)?;
    }
    let open: Vec<Name> = unit.state().areas().map(|area| area.name).collect();
    assert_eq!(open, files[..8]);
    refused(&mut unit, Error::AreaFull, |unit| {
        unit.create_area(files[8])
    });
    refused(&mut unit, Error::AreaIllegal, |unit| {
        unit.create_area(Name::SYS)
    });
    refused(&mut unit, Error::NoArea, |unit| {
        unit.create_area(name("NONE"))
    });
    refused(&mut unit, Error::CatalogParameter, |unit| {
        unit.remove(files[0])
    });
    unit.remove_area(files[0])?;
    unit.remove_area(files[0])?;
    unit.remove(files[0])?;
    unit.create_area(files[8])
}

#[test]
fn users_and_roles() -> Result<()> {
    let mut unit = opened();
    let pass = name("PASS");
    refused(&mut unit, Error::NotUserOrPastEnd, |unit| {
        unit.reserve(pass, 0, Role::Sharing)
    });
    refused(&mut unit, Error::NotUserOrPastEnd, |unit| {
        unit.release(pass, 8)
    });
    refused(&mut unit, Error::NotUserOrPastEnd, |unit| {
        unit.sense(pass, 8)
    });
    unit.reserve(pass, 8, Role::ExclusiveWriter)?;
    unit.reserve(pass, 9, Role::Sharing)?;
    refused(&mut unit, Error::UsersOrIndexFull, |unit| {
        unit.reserve(pass, 10, Role::Sharing)
    });
    refused(&mut unit, Error::AreaIllegal, |unit| {
        unit.reserve(pass, 7, Role::ExclusiveWriter)
    });
    refused(&mut unit, Error::AreaIllegal, |unit| {
        unit.reserve(pass, 7, Role::ExclusiveUser)
    });
    refused(&mut unit, Error::AreaIllegal, |unit| {
        unit.write_block(pass, 7, &[1; SECTOR])
    });
    for sender in [8, 9] {
        unit.release(pass, sender)?;
    }
    unit.reserve(pass, 7, Role::ExclusiveUser)?;
    refused(&mut unit, Error::AreaReserved, |unit| {
        unit.reserve(pass, 8, Role::Sharing)
    });
    let area = unit.state().area(pass).expect("PASS is open");
    assert_eq!((area.length, area.index, area.users.len()), (2, 12, 1));
    let user = area.users[0];
    assert_eq!(
        (user.id, user.role, user.opens),
        (7, Role::ExclusiveUser, 2)
    );
    unit.remove_area(pass)?;
    assert!(
        unit.state().area(pass).is_some(),
        "an area with users stays"
    );
    unit.sense(pass, 7)
}

#[test]
fn a_refused_position_still_moves() -> Result<()> {
    let mut unit = opened();
    let pass = name("PASS");
    unit.position(pass, 7, 1)?;
    assert_eq!(position(&unit, 7), 1);
    assert_eq!(unit.position(pass, 7, 3), Err(Error::NotUserOrPastEnd));
    assert_eq!(position(&unit, 7), 2, "the length");
    assert_eq!(unit.position(pass, 7, 0x8000), Err(Error::AreaIllegal));
    assert_eq!(position(&unit, 7), 0);
    let words = &mut [0; SECTOR];
    assert_eq!(
        unit.read_block_at(pass, 7, 2, words),
        Err(Error::NotUserOrPastEnd)
    );
    assert_eq!(position(&unit, 7), 2);
    Ok(())
}

/// Reads a file from its beginning until it is refused: the blocks read, the refusal, and the
/// position then.
fn read_to_the_end(unit: &mut Unit<Vec<u16>>, file: Name) -> Result<(Vec<u16>, Error, u16)> {
    unit.create_area(file)?;
    unit.reserve(file, 7, Role::Sharing)?;
    let (mut blocks, words) = (Vec::new(), &mut [0; SECTOR]);
    let end = loop {
        match unit.read_block(file, 7, words) {
            Ok(block) => blocks.push(block),
            Err(error) => break error,
        }
    };
    let area = unit.state().area(file).expect("the file is open");
    Ok((blocks, end, area.users[0].position))
}

/// Document 02, R-4: bit 15 alone decides how a file ends.
#[test]
fn a_file_is_read_to_its_end() -> Result<()> {
    let protected = Attributes::WRITE_PROTECTED | Attributes::PERMANENT;
    for (attributes, end) in [
        (Attributes::NONE, Error::AreaIllegal),
        (protected, Error::AreaIllegal),
        (Attributes::EXTENDABLE, Error::NotUserOrPastEnd),
        (protected | Attributes::EXTENDABLE, Error::NotUserOrPastEnd),
    ] {
        let mut unit = ready();
        let (file, empty) = (name("FILE"), name("EMPTY"));
        unit.create(file, 3, attributes)?;
        unit.create(empty, 0, attributes)?;
        let read = read_to_the_end(&mut unit, file)?;
        assert_eq!(read, (vec![0, 1, 2], end, 3), "{attributes}");
        let read = read_to_the_end(&mut unit, empty)?;
        assert_eq!(read, (vec![], end, 0), "{attributes}");
    }
    Ok(())
}

/// NOTE as an old disc may have it: an entry only, with optional words and a tail.
const NOTE: [u16; 16] = [
    0x4E4F, 0x5445, 0, 1, 2, 3, 0x0004, 0, 0, 0, 4, 5, 6, 7, 8, 9,
];

/// An old disc: NOTE in place 2 of sector 10, behind SYS and MAP.
fn old_disc() -> Unit<Vec<u16>> {
    let mut image = ready().into_image();
    image[10 * SECTOR + 32..][..16].copy_from_slice(&NOTE);
    let mut unit = Unit::new(image, 0);
    unit.init().expect("a sound unit");
    unit
}

/// Document 02, R-9: what an old disc has is used as before.
#[test]
fn an_entry_only_file_is_used() -> Result<()> {
    let mut unit = old_disc();
    let (note, memo) = (name("NOTE"), name("MEMO"));
    let entry = unit.look_up(note)?;
    assert_eq!(entry.words(), NOTE);
    assert_eq!(entry.attributes(), Attributes::ENTRY_ONLY);
    assert!(unit.list()?.contains(&entry));
    // Kept, and renamed; it gets no slices.
    let mut expected = NOTE;
    expected[3..6].copy_from_slice(&[7, 7, 7]);
    unit.change(note, &Entry::for_change(&entry).with_optional([7; 3]))?;
    assert_eq!(unit.look_up(note)?.words(), expected);
    unit.rename(note, memo)?;
    expected[..2].copy_from_slice(&[0x4D45, 0x4D4F]);
    assert_eq!(unit.look_up(memo)?.words(), expected);
    refused(&mut unit, Error::CatalogParameter, |unit| {
        unit.resize(memo, 1)
    });
    // Opened, read to its end, and closed.
    let read = read_to_the_end(&mut unit, memo)?;
    assert_eq!(read, (vec![], Error::AreaIllegal, 0));
    let end = Err(Error::AreaIllegal);
    assert_eq!(unit.write_block(memo, 7, &[0; SECTOR]), end);
    unit.release(memo, 7)?;
    unit.remove_area(memo)?;
    assert_eq!(unit.look_up(memo)?.words(), expected);
    unit.remove(memo)?;
    assert_eq!(unit.look_up(memo), Err(Error::NoEntry));
    assert_eq!(unit.describe()?.free, 8);
    Ok(())
}

/// Change without bit 13 makes it an ordinary file, with or without a length.
#[test]
fn an_entry_only_file_is_made_ordinary() -> Result<()> {
    let note = name("NOTE");
    let mut unit = old_disc();
    let entry = Entry::for_change(&unit.look_up(note)?);
    unit.change(note, &entry.with_attributes(Attributes::WRITE_PROTECTED))?;
    assert_eq!(unit.look_up(note)?.words()[6..10], [0x0008, 0, 0, 0]);
    unit.resize(note, 1)?;
    assert_eq!(unit.look_up(note)?.words()[6..10], [0x0008, 1, 12, 2]);
    let mut unit = old_disc();
    let extendable = entry.with_attributes(Attributes::EXTENDABLE);
    unit.change(note, &extendable.with_size(2))?;
    // P6: slices 2 and 3.
    assert_eq!(unit.look_up(note)?.words()[6..10], [0x0001, 2, 12, 4]);
    assert_eq!(unit.describe()?.free, 4);
    Ok(())
}

/// No call makes one, be there one or not.
#[test]
fn entry_only_is_given_to_no_file() -> Result<()> {
    let mut unit = old_disc();
    let (note, pass) = (name("NOTE"), name("PASS"));
    unit.create(pass, 0, Attributes::NONE)?;
    for others in [Attributes::NONE, Attributes::PERMANENT] {
        let given = Attributes::ENTRY_ONLY | others;
        refused(&mut unit, Error::CatalogParameter, |unit| {
            unit.create(name("NEW"), 0, given)
        });
        refused(&mut unit, Error::CatalogParameter, |unit| {
            unit.set(name("NEW"), &Entry::for_set(0, given))
        });
        for file in [note, pass] {
            refused(&mut unit, Error::CatalogParameter, |unit| {
                let current = unit.look_up(file)?;
                unit.change(file, &Entry::for_change(&current).with_attributes(given))
            });
        }
    }
    Ok(())
}

#[test]
fn past_the_end_of_a_file_position_refuses() -> Result<()> {
    for (attributes, end) in [
        (Attributes::NONE, Error::AreaIllegal),
        (Attributes::EXTENDABLE, Error::NotUserOrPastEnd),
    ] {
        let mut unit = ready();
        let (pass, words) = (name("PASS"), &mut [9; SECTOR]);
        unit.create(pass, 2, attributes)?;
        unit.create_area(pass)?;
        unit.reserve(pass, 7, Role::Sharing)?;
        assert_eq!(unit.read_block_at(pass, 7, 2, words), Err(end));
        assert_eq!(position(&unit, 7), 2);
        unit.position(pass, 7, 0)?;
        let past = Err(Error::NotUserOrPastEnd);
        assert_eq!(unit.read_block_at(pass, 7, 3, words), past);
        assert_eq!(position(&unit, 7), 2, "the length");
        unit.position(pass, 7, 0)?;
        assert_eq!(unit.position(pass, 7, 3), Err(Error::NotUserOrPastEnd));
        assert_eq!(position(&unit, 7), 2, "the length");
        assert_eq!(*words, [9; SECTOR], "nothing was read");
    }
    Ok(())
}

#[test]
fn blocks_are_written_and_read() -> Result<()> {
    let mut unit = opened();
    let pass = name("PASS");
    let words = &mut [9; SECTOR];
    assert_eq!(unit.read_block(pass, 7, words)?, 0);
    assert_eq!(*words, [0; SECTOR], "a new file's block");
    assert_eq!(unit.write_block_checked(pass, 7, &[1; SECTOR])?, 1);
    assert_eq!(unit.write_block_at(pass, 7, 0, &[2; SECTOR])?, 0);
    assert_eq!(unit.read_block(pass, 7, words)?, 1);
    assert_eq!(*words, [1; SECTOR]);
    assert_eq!(unit.read_block_at(pass, 7, 0, words)?, 0);
    assert_eq!(*words, [2; SECTOR]);
    // Sector 12 has the index, so block 0 is sector 13.
    assert_eq!(unit.image()[13 * SECTOR..14 * SECTOR], [2; SECTOR]);
    // The last slices: blocks 2 to 6 are appended, then no slice is free.
    unit.position(pass, 7, 2)?;
    for block in 2..7 {
        assert_eq!(unit.write_block(pass, 7, &[block; SECTOR])?, block);
    }
    refused(&mut unit, Error::AreaFull, |unit| {
        unit.write_block(pass, 7, &[7; SECTOR])
    });
    assert_eq!(unit.state().area(pass).map(|area| area.length), Some(7));
    Ok(())
}

#[test]
fn output_is_refused_on_protected_and_fixed_files() -> Result<()> {
    let mut unit = ready();
    let (fixed, closed) = (name("FIXED"), name("SHUT"));
    unit.create(fixed, 1, Attributes::NONE)?;
    unit.create(
        closed,
        1,
        Attributes::WRITE_PROTECTED | Attributes::EXTENDABLE,
    )?;
    for file in [fixed, closed] {
        unit.create_area(file)?;
        unit.reserve(file, 7, Role::Sharing)?;
    }
    refused(&mut unit, Error::WriteProtected, |unit| {
        unit.write_block(closed, 7, &[1; SECTOR])
    });
    unit.write_block(fixed, 7, &[1; SECTOR])?;
    refused(&mut unit, Error::AreaIllegal, |unit| {
        unit.write_block(fixed, 7, &[1; SECTOR])
    });
    Ok(())
}

#[test]
fn description_and_listing() -> Result<()> {
    let mut unit = ready();
    unit.create(name("PASS"), 2, Attributes::EXTENDABLE)?;
    let expected = Description {
        unit: 0,
        sys_size: 1,
        slice_size: 2,
        sectors: 20,
        free: 4,
    };
    assert_eq!(unit.describe()?, expected);
    let listed: Vec<[u16; 16]> = unit.list()?.iter().map(Entry::words).collect();
    let entry = |name: [u16; 2], rest: [u16; 4]| {
        let mut words = [0; 16];
        words[..2].copy_from_slice(&name);
        words[6..10].copy_from_slice(&rest);
        words
    };
    let expected = [
        entry([0x4D41, 0x5000], [0x8010, 1, 7, 1]),
        entry([0x5041, 0x5353], [0x0001, 2, 12, 4]),
        entry([0x5359, 0x5300], [0x8010, 1, 6, 2]),
    ];
    assert_eq!(listed, expected);
    Ok(())
}

/// The names of a listing as texts.
fn listed(unit: &mut Unit<Vec<u16>>) -> Result<Vec<String>> {
    let entries = unit.list()?;
    Ok(entries
        .iter()
        .map(|entry| entry.name().to_string())
        .collect())
}

#[test]
fn the_listing_comes_by_name_whatever_the_places_are() -> Result<()> {
    // With H = 1 the places are SYS, MAP and then the names as they are created here.
    let mut unit = ready();
    assert_eq!(listed(&mut unit)?, ["MAP", "SYS"]);
    for text in ["Z", "SYS0", "N", "BA", "ABCD2", "ABCD1", "AZ", "AA", "A9"] {
        unit.create(name(text), 0, Attributes::NONE)?;
    }
    let expected = [
        "A9", "AA", "ABCD1", "ABCD2", "AZ", "BA", "MAP", "N", "SYS", "SYS0", "Z",
    ];
    assert_eq!(listed(&mut unit)?, expected);
    // A name that takes another's place is listed where its own words say.
    unit.remove(name("Z"))?;
    unit.create(name("ABCD"), 0, Attributes::NONE)?;
    unit.rename(name("A9"), name("T"))?;
    let expected = [
        "AA", "ABCD", "ABCD1", "ABCD2", "AZ", "BA", "MAP", "N", "SYS", "SYS0", "T",
    ];
    assert_eq!(listed(&mut unit)?, expected);
    Ok(())
}

#[test]
fn a_listing_into_too_few_words_writes_none() -> Result<()> {
    let mut unit = ready();
    unit.create(name("PASS"), 2, Attributes::EXTENDABLE)?;
    let listing = Message::Listing { unit: 0 };
    for words in [0, 1, 15, 16, 32, 47] {
        let mut lent = vec![0xA5A5; words];
        let answer = unit.perform(&listing, &mut lent);
        assert_eq!(
            (answer.result, answer.entries),
            (0x1200, 0),
            "{words} words"
        );
        assert_eq!(lent, vec![0xA5A5; words]);
    }
    for more in [0, 1, 16, 500] {
        let mut lent = vec![0xA5A5; 48 + more];
        let answer = unit.perform(&listing, &mut lent);
        assert_eq!((answer.result, answer.entries), (0, 3), "{more} more");
        assert_eq!([lent[0], lent[16], lent[32]], [0x4D41, 0x5041, 0x5359]);
        assert_eq!(lent[48..], vec![0xA5A5; more]);
    }
    Ok(())
}

#[test]
fn a_damaged_image_is_refused_by_every_call() {
    let mut unit = opened();
    let pass = name("PASS");
    unit.image_mut()[9 * SECTOR] ^= 0x8000;
    assert!(!unit.is_sound());
    refused(&mut unit, Error::CatalogUnsound, |unit| unit.look_up(pass));
    refused(&mut unit, Error::CatalogUnsound, |unit| unit.list());
    refused(&mut unit, Error::AreaUnsound, |unit| unit.remove_area(pass));
    refused(&mut unit, Error::AreaUnsound, |unit| {
        unit.write_block(pass, 7, &[1; SECTOR])
    });
    let (image, state) = unit.into_parts();
    let mut unit = Unit::new(image, state.unit());
    refused(&mut unit, Error::CatalogUnsound, Unit::init);
}

#[test]
fn any_message_with_any_lent_words() {
    let mut unit = opened();
    let words = name("PASS").on_unit(0);
    let look_up = Message::LookUp { name: words };
    assert_eq!(unit.perform(&look_up, &mut [0; 15]).result, 0x1200);
    let mut lent = [7; 18];
    assert_eq!(unit.perform(&look_up, &mut lent), Answer::default());
    assert_eq!(
        (lent[0], lent[7], lent[16..].to_vec()),
        (0x5041, 2, vec![7, 7])
    );
    let operation = Operation::Transput {
        operation: 5,
        bytes: 512,
        block: 1,
    };
    let input = Message::AreaMessage {
        name: words,
        sender: 7,
        operation,
    };
    let expected = Answer {
        bytes: 512,
        block: 1,
        ..Answer::default()
    };
    assert_eq!(unit.perform(&input, &mut [0; 300]), expected);
    let short = Answer {
        result: 0x0880,
        block: 2,
        ..Answer::default()
    };
    assert_eq!(
        unit.perform(&input, &mut [0; 255]),
        short,
        "the position is handed back"
    );
    let other = Operation::Other(9);
    let unknown = Message::AreaMessage {
        name: words,
        sender: 7,
        operation: other,
    };
    assert_eq!(unit.perform(&unknown, &mut []).result, 0x0A00);
    let listing = Message::Listing { unit: 0 };
    let mut lent = [0; 3 * 16];
    assert_eq!(unit.perform(&listing, &mut lent).entries, 3);
    assert_eq!(unit.perform(&listing, &mut lent[1..]).result, 0x1200);
    let description = Message::UnitDescription { unit: 0, bytes: 32 };
    assert_eq!(unit.perform(&description, &mut lent).bytes, 32);
}

#[test]
fn a_number_that_no_call_has_changes_nothing() {
    let mut unit = opened();
    let answered = Answer {
        result: NO_SUCH_CALL,
        ..Answer::default()
    };
    for call in [11, 12, 255, 256, 0x7FFF, 0x8000, 0xFFFF] {
        // The other words are those of a listing that is obeyed.
        let message = UnitMessage {
            call,
            ..UnitMessage::default()
        };
        let (before, mut lent) = (unit.clone(), [9; 3 * 16]);
        let answer = unit.perform_raw(message, &mut lent);
        assert_eq!(answer, answered, "{call}");
        assert_eq!(answer.checked(), Err(Error::NoSuchCall));
        assert!(unit == before && lent == [9; 3 * 16], "{call}");
        assert_eq!(message.kind(), Call::Unknown);
    }
    let listing = UnitMessage {
        call: call::LISTING,
        ..UnitMessage::default()
    };
    assert_eq!(unit.perform_raw(listing, &mut [9; 3 * 16]).entries, 3);
}

#[test]
fn a_raw_message_is_the_call_of_its_number() {
    let number = |call, operation, number| UnitMessage {
        call,
        operation,
        number,
        ..UnitMessage::default()
    };
    let calls = [
        Call::Init,
        Call::Set,
        Call::Create,
        Call::LookUp,
        Call::Change,
        Call::Remove,
        Call::CreateArea,
        Call::RemoveArea,
        Call::Release,
        Call::UnitDescription,
        Call::Listing,
    ];
    for (call, kind) in (call::INIT..=call::LISTING).zip(calls) {
        assert_eq!(number(call, operation::RESERVE, 0).kind(), kind);
    }
    let to_area = |operation, count| number(call::AREA_MESSAGE, operation, count).kind();
    assert_eq!(to_area(operation::RESERVE, 3), Call::Reserve);
    assert_eq!(to_area(operation::POSITION, 3), Call::Position);
    assert_eq!(to_area(operation::SENSE, 3), Call::Sense);
    assert_eq!(to_area(operation::TRANSPUT, 5), Call::Input);
    assert_eq!(to_area(operation::TRANSPUT, 19), Call::Output);
    for unknown in [operation::OTHER, 5, 255, 0xFFFF] {
        assert_eq!(to_area(unknown, 3), Call::OtherOperation);
    }
}

#[test]
fn words_of_the_state_that_stand_for_their_value_are_kept() -> Result<()> {
    let (image, state) = opened().into_parts();
    let mut raw = *state.raw();
    // Words that stand for yes and for an exclusive user.
    (raw.initialized, raw.areas[0].live) = (0x8000, 7);
    raw.areas[0].users[0].role = 9;
    let mut unit = Unit::with_state(image, raw.into());
    let pass = name("PASS");
    refused(&mut unit, Error::EntryExists, |unit| {
        unit.create(pass, 0, Attributes::NONE)
    });
    refused(&mut unit, Error::CatalogParameter, Unit::init);
    refused(&mut unit, Error::CatalogParameter, |unit| {
        unit.format(&record())
    });
    // A refused Position changes that word alone, an obeyed Reserve the open count.
    assert!(unit.position(pass, 7, 3).is_err());
    raw.areas[0].users[0].position = 2;
    assert_eq!(*unit.state().raw(), raw);
    unit.reserve(pass, 7, Role::Sharing)?;
    raw.areas[0].users[0].opens = 2;
    assert_eq!(*unit.state().raw(), raw);
    // What has another value gets the first word that stands for it.
    unit.release(pass, 7)?;
    unit.release(pass, 7)?;
    raw.areas[0].users[0] = Default::default();
    assert_eq!(*unit.state().raw(), raw);
    unit.remove_area(pass)?;
    raw.areas[0] = Default::default();
    assert_eq!(*unit.state().raw(), raw);
    unit.create_area(pass)?;
    assert_eq!(unit.state().raw().areas[0].live, 1);
    unit.remove_area(pass)?;
    unit.init()?;
    assert_eq!(*unit.state().raw(), raw, "initialized was yes");
    unit.format(&record())?;
    assert_eq!(unit.state().raw().initialized, 0);
    unit.init()?;
    assert_eq!(unit.state().raw().initialized, 1);
    Ok(())
}

#[test]
fn an_image_may_be_borrowed_and_handed_on() -> Result<()> {
    let mut image = vec![0; record().image_words()];
    let pass = name("PASS");
    let mut unit = Unit::new(&mut image[..], 0);
    unit.format(&record())?;
    unit.init()?;
    unit.create(pass, 2, Attributes::EXTENDABLE)?;
    unit.create_area(pass)?;
    let (_, state) = unit.into_parts();
    assert!(is_sound(&image, &state));
    let mut unit = Unit::with_state(&mut image, state);
    unit.reserve(pass, 7, Role::Sharing)?;
    unit.write_block_at(pass, 7, 2, &[5; SECTOR])?;
    unit.release(pass, 7)?;
    unit.remove_area(pass)?;
    let state = unit.into_parts().1;
    assert_eq!(State::from(*state.raw()), state);
    let mut owned = Unit::new(image, 0);
    owned.init()?;
    assert_eq!(owned.look_up(pass)?.length(), 3);
    assert_eq!(owned.into_image().len(), 5_120);
    Ok(())
}

#[test]
fn an_image_of_another_length_is_refused() {
    let whole = ready().into_image();
    for words in [0, 1, 9 * SECTOR, 10 * SECTOR, whole.len() - 1] {
        let mut unit = Unit::new(whole[..words].to_vec(), 0);
        assert!(!unit.is_sound(), "{words} words");
        refused(&mut unit, Error::CatalogUnsound, Unit::init);
        refused(&mut unit, Error::CatalogParameter, |unit| {
            unit.format(&record())
        });
    }
    let longer = [whole, vec![0]].concat();
    refused(&mut Unit::new(longer, 0), Error::CatalogUnsound, Unit::init);
}

#[test]
fn words_beside_the_image_and_beside_the_lent_ones_are_kept() -> Result<()> {
    const GUARD: usize = 300;
    let words = record().image_words();
    let mut around = vec![0xA5A5; words + 2 * GUARD];
    let mut unit = Unit::new(&mut around[GUARD..GUARD + words], 0);
    unit.format(&record())?;
    unit.init()?;
    unit.create(name("PASS"), 7, Attributes::NONE)?;
    let mut lent = vec![0xA5A5; 3 * 16 + 2 * GUARD];
    let answer = unit.perform(
        &Message::Listing { unit: 0 },
        &mut lent[GUARD..GUARD + 3 * 16],
    );
    assert_eq!(answer.entries, 3);
    for buffer in [around, lent] {
        let (between, after) = buffer[GUARD..].split_at(buffer.len() - 2 * GUARD);
        let outside = buffer[..GUARD].iter().chain(after);
        assert!(outside.into_iter().all(|word| *word == 0xA5A5));
        // The listing fills all of its words, and PASS has the last sector.
        assert_ne!(between.last(), Some(&0xA5A5));
    }
    Ok(())
}
