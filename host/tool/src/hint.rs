//! What else a user wants to know where an image's length or kit is wrong: whether the other byte
//! order or a place in the file makes a unit of it. What is wrong, the broken rule says.

use reference::layout::{Kit, KIT, MAP_INDEX, SECTOR};
use ruzkemp::ByteOrder;

use crate::arguments::{LOW, OFFSET};
use crate::host::{Form, SECTOR_BYTES};
use crate::values::count;

/// The hints for the words read as a form says, in parentheses behind a message; empty if
/// length and kit are right.
pub fn of(image: &[u16], form: Form) -> String {
    let hints = list(image, form);
    match hints.is_empty() {
        true => String::new(),
        false => format!(" ({})", hints.join("; ")),
    }
}

/// The length that the kit says, behind a message about another; empty if there is no kit.
pub fn length(image: &[u16]) -> String {
    kit_at(image, 0, false).map_or(String::new(), |kit| {
        let (sectors, bytes) = (count(kit.n as u64, "sector"), kit.n * SECTOR_BYTES);
        format!(", the kit says {sectors} ({bytes} bytes)")
    })
}

/// The hints, one by one.
pub fn list(image: &[u16], form: Form) -> Vec<String> {
    let sectors = image.len() / SECTOR;
    let kit = kit_at(image, 0, false);
    let is_within = kit.is_some_and(|kit| kit.limits().is_ok());
    if is_within && kit.is_some_and(|kit| kit.n == sectors) {
        return Vec::new();
    }
    let mut hints = Vec::new();
    if let Some(offset) = form.offset.filter(|_| kit.is_some() && !is_within) {
        let sector = offset + KIT as u64;
        hints.push(format!("the kit is read at sector {sector} of the file"));
    }
    hints.extend(other_order(image, form));
    if form.offset.is_none() {
        hints.extend(place(image, form));
    }
    hints
}

/// That the other byte order makes a kit within limits.
fn other_order(image: &[u16], form: Form) -> Option<String> {
    let kit = kit_at(image, 0, true).filter(|kit| kit.limits().is_ok())?;
    let with = match form.order {
        ByteOrder::HighFirst => "with",
        ByteOrder::LowFirst => "without",
    };
    Some(format!(
        "{with} {} its kit is within limits: N = {}",
        LOW.name, kit.n
    ))
}

/// Where in the file a unit may begin that ends in it.
fn place(image: &[u16], form: Form) -> Option<String> {
    let sectors = 0..image.len() / SECTOR;
    let mut places = sectors.flat_map(|sector| [(sector, false), (sector, true)]);
    let (sector, turned) = places.find(|&(sector, turned)| may_begin(image, sector, turned))?;
    let low = match turned == (form.order == ByteOrder::HighFirst) {
        true => format!(" {}", LOW.name),
        false => String::new(),
    };
    Some(format!(
        "a unit may begin at sector {sector} of it: {} {sector}{low}",
        OFFSET.name
    ))
}

/// Whether a unit that is a part of the image may begin at a sector: its kit is within limits,
/// and its index of MAP is the one that every unit has, unless it is the first sector.
fn may_begin(image: &[u16], sector: usize, turned: bool) -> bool {
    let sectors = image.len() / SECTOR;
    let kit = kit_at(image, sector, turned).filter(|kit| kit.limits().is_ok());
    let fits = kit.is_some_and(|kit| sector + kit.n <= sectors && kit.n < sectors);
    let index = words_at(image, sector + MAP_INDEX, turned);
    fits && (sector == 0 || index.is_some_and(|index| index[..3] == [1, 1, 9]))
}

/// The kit of a unit that begins at a sector, with the bytes of its words turned or not.
fn kit_at(image: &[u16], sector: usize, turned: bool) -> Option<Kit> {
    words_at(image, sector + KIT, turned).map(|words| Kit::from_words(&words))
}

/// The first six words of a sector.
fn words_at(image: &[u16], sector: usize, turned: bool) -> Option<[u16; 6]> {
    let words = image.get(sector * SECTOR..sector * SECTOR + 6)?;
    Some(std::array::from_fn(|word| match turned {
        false => words[word],
        true => words[word].swap_bytes(),
    }))
}
