//! Images of before R-8 are sound after it, and are read as the same plain unit; the entry-only files on
//! them are used as R-9 says.

use lists::images::{all, blocks_text, entry_line, image_text, parse, unit_text, Kept};
use reference::plain::Plain;
use reference::{soundness, State};
use ruzkemp::{Attributes, Entry, Error, Name, Result, Role, Unit};

/// The number of the unit that a text tells of.
fn number(unit: &str) -> u16 {
    let number = unit
        .strip_prefix("unit ")
        .and_then(|text| text.split(':').next());
    number.and_then(|text| text.parse().ok()).expect("a number")
}

/// The plain unit that the second implementation reads, as text; none for an image that is not sound.
fn read(image: &[u16], unit: u16) -> Option<String> {
    let plain = Plain::read(image, &State::new(unit)).ok()?;
    Some(unit_text(&plain))
}

/// The lines of the entries as the library gives them, by Listing and Look-up and by reading every
/// file through an area process; slices are not told.
fn told(image: &[u16], number: u16) -> Result<String> {
    let mut unit = ready(image, number)?;
    let mut text = String::new();
    for entry in unit.list()? {
        assert_eq!(unit.look_up(entry.name())?, entry);
        let blocks = blocks_text(&blocks(&mut unit, &entry)?);
        text += &entry_line(&entry.name().to_string(), &entry.words(), "?", &blocks);
    }
    assert!(unit.image() == image, "reading changes no word");
    Ok(text)
}

/// The blocks of a file, read through an area process; SYS and MAP have none.
fn blocks(unit: &mut Unit<Vec<u16>>, entry: &Entry) -> Result<Vec<[u16; 256]>> {
    let name = entry.name();
    if unit.create_area(name) == Err(Error::AreaIllegal) {
        return Ok(vec![]);
    }
    unit.reserve(name, 7, Role::Sharing)?;
    let mut blocks = Vec::new();
    for number in 0..entry.length() {
        let mut block = [0; 256];
        assert_eq!(unit.read_block(name, 7, &mut block)?, number);
        blocks.push(block);
    }
    unit.release(name, 7)?;
    unit.remove_area(name)?;
    Ok(blocks)
}

/// The entries' lines of a text, with no slices told.
fn without_slices(unit: &str) -> String {
    let lines = unit.lines().skip(1).map(|line| {
        let parts: Vec<&str> = line.split("; ").collect();
        format!("{}; slices ?; {}\n", parts[0], parts[2])
    });
    lines.collect()
}

/// Says that today's implementations read an image as it was read before.
fn is_read_as_before(kept: &Kept) -> Result<()> {
    let (image, unit) = (parse(&kept.image).expect(&kept.name), number(&kept.unit));
    assert!(
        soundness(&image, &State::new(unit)).is_ok(),
        "{}",
        kept.name
    );
    assert_eq!(
        read(&image, unit).as_ref(),
        Some(&kept.unit),
        "{}",
        kept.name
    );
    assert_eq!(
        told(&image, unit)?,
        without_slices(&kept.unit),
        "{}",
        kept.name
    );
    Ok(())
}

#[test]
fn images_of_before_are_read_as_before() -> Result<()> {
    let kept = all().expect("the images can be read");
    let names: Vec<&str> = kept.iter().map(|kept| kept.name.as_str()).collect();
    assert_eq!(names, ["crowded", "paper", "sample"]);
    kept.iter().try_for_each(is_read_as_before)
}

#[test]
fn the_images_are_as_their_comments_say_and_in_capitals() {
    let kept = all().expect("the images can be read");
    let units = kept.iter().map(|kept| {
        let image = parse(&kept.image).expect(&kept.name);
        assert!(kept.image.ends_with(&image_text(&image)), "{}", kept.name);
        Plain::read(&image, &State::new(number(&kept.unit))).expect(&kept.name)
    });
    let units: Vec<Plain> = units.collect();
    let mut names = units.iter().flat_map(Plain::names);
    assert!(names.all(|name| name == name.to_uppercase()));
    let [crowded, paper, sample] = units.try_into().expect("three");
    assert_eq!((sample.n, sample.files.len()), (250, 9));
    // P8: 4 blocks in 6 sectors.
    assert_eq!(paper.booked("PASS")[7..10], [4, 12, 6]);
    assert_eq!((crowded.h, crowded.layers), (3, 3));
    let stretches = |slices: &[usize]| reference::layout::stretches(slices).len();
    assert!(stretches(&crowded.sys) > 2);
    let most = crowded
        .files
        .values()
        .map(|file| stretches(&file.slices))
        .max();
    assert!(most.is_some_and(|most| most > 20), "{most:?}");
    // Extendable, entry only, write protected, permanent, and bit 1.
    for bit in [0x0001, 0x0004, 0x0008, 0x0010, 0x4000] {
        let mut files = crowded.files.values();
        assert!(files.any(|file| file.attributes & bit != 0), "{bit:04X}h");
    }
    let mut files = crowded.files.values();
    assert!(files.any(|file| file.optional != [0; 3] && file.tail != [0; 6]));
}

/// The unit of an image, initialized.
fn ready(image: &[u16], number: u16) -> Result<Unit<Vec<u16>>> {
    let mut unit = Unit::new(image.to_vec(), number);
    unit.init()?;
    Ok(unit)
}

/// Says that an entry-only file of an image is kept, renamed, made an ordinary file and removed, and not
/// made an entry only again.
fn is_used(image: &[u16], number: u16, entry: &Entry) -> Result<()> {
    let name = entry.name();
    let kept = Entry::for_change(entry);
    let mut unit = ready(image, number)?;
    unit.change(name, &kept)?;
    assert!(unit.image() == image, "{name}: nothing changes");
    let again = kept.with_attributes(Attributes::ENTRY_ONLY);
    assert_eq!(unit.change(name, &again), Err(Error::CatalogParameter));
    let other = Name::new("Old").expect("a legal name");
    unit.rename(name, other)?;
    assert_eq!(unit.look_up(other)?, entry.with_name(other));
    unit.change(other, &kept.with_attributes(Attributes::NONE))?;
    let ordinary = entry.with_name(other).with_attributes(Attributes::NONE);
    assert_eq!(unit.look_up(other)?, ordinary);
    unit.resize(other, 1)?;
    let mut unit = ready(image, number)?;
    unit.remove(name)?;
    assert_eq!(unit.look_up(name), Err(Error::NoEntry));
    Ok(())
}

#[test]
fn entry_only_files_of_before_are_used() -> Result<()> {
    let mut used = 0;
    for kept in all().expect("the images can be read") {
        let (image, number) = (parse(&kept.image).expect(&kept.name), number(&kept.unit));
        for entry in ready(&image, number)?.list()? {
            if entry.attributes().contains(Attributes::ENTRY_ONLY) {
                is_used(&image, number, &entry)?;
                used += 1;
            }
        }
    }
    // NOTE on the sample disc, and 23 files on the crowded one.
    assert_eq!(used, 24);
    Ok(())
}

/// The image with another value of one word.
fn with_word(image: &[u16], sector: usize, word: usize, value: u16) -> Vec<u16> {
    let mut image = image.to_vec();
    let place = &mut image[256 * sector + word];
    assert_ne!(*place, value);
    *place = value;
    image
}

/// One word of the paper's disc is another: both readings differ.
#[test]
fn one_word_is_a_difference() {
    let kept = all().expect("the images can be read");
    let paper = kept
        .iter()
        .find(|kept| kept.name == "paper")
        .expect("it is there");
    let image = parse(&paper.image).expect("an image");
    let lines = without_slices(&paper.unit);
    // A word of block 3, a word of the tail, a small letter in the name.
    for (sector, word, value) in [(16, 255, 0), (10, 32 + 15, 1), (10, 33, 0x5373)] {
        let image = with_word(&image, sector, word, value);
        assert_ne!(read(&image, 0).expect("a sound unit"), paper.unit);
        assert_ne!(told(&image, 0).expect("a sound unit"), lines);
    }
    // The map, the count of an index, a character that no name has.
    for (sector, word, value) in [(9, 0, 0x1800), (12, 0, 2), (10, 33, 0x535B)] {
        let image = with_word(&image, sector, word, value);
        assert_eq!(read(&image, 0), None);
        assert_eq!(told(&image, 0), Err(Error::CatalogUnsound));
    }
}
