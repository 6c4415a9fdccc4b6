//! The numbers by which an image is read: the kit's as far as they are usable, or a reader's.

use std::ops::{Range, RangeInclusive};

use crate::layout::{marked_free, ones_in_map, Kit, KIT, MAP_SECTOR, SECTOR};
use crate::text::count;

/// The first sector that can belong to a slice, whatever F is.
pub(super) const FIRST_POSSIBLE: usize = 10;
/// The most sectors of a unit.
const MOST_SECTORS: usize = 32_767;
/// The slices that the map has bits for.
const MOST_SLICES: usize = 16 * SECTOR;
/// The limits of H.
pub const H_LIMITS: RangeInclusive<usize> = 1..=64;
/// The limits of s.
pub const S_LIMITS: RangeInclusive<usize> = 2..=64;
/// The limits of F: a sector at least lies behind it.
pub const F_LIMITS: RangeInclusive<usize> = FIRST_POSSIBLE..=MOST_SECTORS - 1;

/// The kit's numbers as a reader gives them, where the kit itself is damaged. With any of them N is
/// the image's length.
#[derive(Clone, Copy, PartialEq, Eq, Debug, Default)]
pub struct Numbers {
    /// H, the sectors of one layer of SYS.
    pub h: Option<usize>,
    /// s, the sectors of a slice.
    pub s: Option<usize>,
    /// F, the first data sector.
    pub f: Option<usize>,
}

/// The numbers by which an image is read; none where no usable one is known.
#[derive(Clone, Copy, PartialEq, Eq, Debug)]
pub struct Layout {
    /// H.
    pub h: Option<usize>,
    /// s.
    pub s: Option<usize>,
    /// F.
    pub f: Option<usize>,
    /// The sectors of the unit: the kit's N if the kit is within its limits, else as many as there
    /// are. Slices are counted by it.
    pub n: usize,
    /// The sectors that are there to be read, fewer or more than the unit's.
    pub there: usize,
}

impl Layout {
    /// Where the first slice begins, as far as it is known.
    pub fn begin(&self) -> usize {
        self.f.unwrap_or(FIRST_POSSIBLE)
    }

    /// The sectors with blocks that can be read, whatever F is.
    pub(super) fn readable(&self) -> Range<usize> {
        FIRST_POSSIBLE..self.there.max(FIRST_POSSIBLE)
    }

    /// The sectors of the unit and those that are there.
    pub(super) fn most(&self) -> usize {
        self.n.max(self.there)
    }

    /// Whether a file can lie in a sector, whatever F is and whether it can be read or not.
    pub(super) fn holds(&self, sector: usize) -> bool {
        (FIRST_POSSIBLE..self.most()).contains(&sector)
    }

    /// M, the number of slices, if s and F are known.
    pub fn slices(&self) -> Option<usize> {
        let (s, f) = (self.s?, self.f?);
        Some((self.n.saturating_sub(f) / s).min(MOST_SLICES))
    }

    /// What is not known of s and F, and the options that give it.
    pub fn unknown(&self) -> Option<(&'static str, &'static str)> {
        match (self.s, self.f) {
            (None, None) => Some(("s and F are not known", "--slice, --first")),
            (None, Some(_)) => Some(("s is not known", "--slice")),
            (Some(_), None) => Some(("F is not known", "--first")),
            (Some(_), Some(_)) => None,
        }
    }

    /// The first sector of a slice, if s and F are known.
    pub fn first_sector(&self, slice: usize) -> Option<usize> {
        let (s, f) = (self.s?, self.f?);
        slice.checked_sub(1)?.checked_mul(s)?.checked_add(f)
    }

    /// The slice in which a sector lies, if s and F are known and one has it.
    pub fn slice_of(&self, sector: usize) -> Option<usize> {
        let slice = sector.checked_sub(self.f?)? / self.s? + 1;
        (slice <= self.slices()?).then_some(slice)
    }

    /// Whether a slice begins at a sector, as far as this can be said.
    pub(super) fn begins_slice(&self, sector: usize) -> bool {
        let at_slice = match (self.s, self.f) {
            (Some(s), Some(f)) => sector >= f && (sector - f).is_multiple_of(s),
            _ => true,
        };
        (FIRST_POSSIBLE..self.n).contains(&sector) && at_slice
    }
}

/// What is read of the kit's sector, and what is doubtful about it.
pub(super) struct KitRead {
    /// The kit as it stands, if the image has one.
    pub kit: Option<Kit>,
    /// The numbers by which the image is read.
    pub layout: Layout,
    /// What is doubtful, a line each.
    pub doubts: Vec<String>,
}

impl KitRead {
    /// No kit at all, of an image of which so many sectors can be read.
    pub fn blank(there: usize) -> KitRead {
        let (h, s, f, n) = (None, None, None, there);
        KitRead {
            kit: None,
            layout: Layout { h, s, f, n, there },
            doubts: Vec::new(),
        }
    }
}

/// Reads the kit, and chooses between its numbers and the reader's.
pub(super) fn read_kit(image: &[u16], given: &Numbers) -> KitRead {
    let sectors = image.len() / SECTOR;
    let kit = (sectors > KIT).then(|| Kit::read(image));
    let mut doubts = short(image.len());
    let of = |number: fn(&Kit) -> usize| kit.as_ref().map(number);
    let h = chosen("H", given.h, of(|kit| kit.h), H_LIMITS, &mut doubts);
    let s = chosen("s", given.s, of(|kit| kit.s), S_LIMITS, &mut doubts);
    let f = chosen("F", given.f, of(|kit| kit.f), F_LIMITS, &mut doubts);
    let f = within(f, sectors, &mut doubts);
    let there = sectors.min(MOST_SECTORS);
    let n = match kit {
        Some(kit) if *given == Numbers::default() && kit.limits().is_ok() => kit.n,
        _ => there,
    };
    let layout = Layout { h, s, f, n, there };
    if let Some(kit) = kit {
        doubts.extend(wrong_sectors(&kit, sectors));
    }
    doubts.extend(wrong_slices(&layout));
    if let (Some(kit), true) = (kit, sectors > MAP_SECTOR) {
        doubts.extend(wrong_map(image, &kit, &layout));
    }
    KitRead {
        kit,
        layout,
        doubts,
    }
}

/// What an image of so many words lacks.
fn short(words: usize) -> Vec<String> {
    let mut doubts = Vec::new();
    let sectors = words / SECTOR;
    if !words.is_multiple_of(SECTOR) {
        doubts.push(format!(
            "the image has {} and {}: these words are not read",
            count(sectors, "sector"),
            count(words % SECTOR, "word")
        ));
    }
    for (sector, what) in [(KIT, "kit"), (MAP_SECTOR, "map")] {
        if sectors <= sector {
            doubts.push(format!(
                "the image has {} and so no {what}, which is sector {sector}",
                count(sectors, "sector")
            ));
        }
    }
    doubts
}

/// A number of the reader's or else of the kit's, if it is within its limits.
fn chosen(
    what: &str,
    given: Option<usize>,
    found: Option<usize>,
    limits: RangeInclusive<usize>,
    doubts: &mut Vec<String>,
) -> Option<usize> {
    match (given, found) {
        (Some(given), Some(found)) if given != found => {
            doubts.push(format!("the kit's {what} is {found}, {given} is given"));
        }
        (None, Some(found)) if !limits.contains(&found) => {
            let (low, high) = limits.clone().into_inner();
            doubts.push(format!("the kit's {what} is {found}, not {low} to {high}"));
        }
        _ => {}
    }
    given.or(found).filter(|number| limits.contains(number))
}

/// F, if it is a sector of the image.
fn within(f: Option<usize>, sectors: usize, doubts: &mut Vec<String>) -> Option<usize> {
    if let Some(f) = f.filter(|&f| f >= sectors) {
        let sectors = count(sectors, "sector");
        doubts.push(format!("F is {f}, and the image has {sectors}"));
    }
    f.filter(|&f| f < sectors)
}

/// What is wrong with N and top.
fn wrong_sectors(kit: &Kit, sectors: usize) -> Vec<String> {
    let mut doubts = Vec::new();
    if kit.n != sectors {
        doubts.push(format!(
            "the kit's N is {}, the image has {}",
            kit.n,
            count(sectors, "sector")
        ));
    }
    if kit.n > MOST_SECTORS {
        doubts.push(format!("the kit's N is {}, past {MOST_SECTORS}", kit.n));
    }
    if kit.top != kit.n {
        doubts.push(format!("the kit's top is {}, N is {}", kit.top, kit.n));
    }
    doubts
}

/// What is wrong with the slices that the numbers give.
fn wrong_slices(layout: &Layout) -> Vec<String> {
    let mut doubts = Vec::new();
    let (Some(s), Some(f)) = (layout.s, layout.f) else {
        return doubts;
    };
    let sectors = layout.n.saturating_sub(f);
    if !sectors.is_multiple_of(s) {
        doubts.push(format!(
            "the {sectors} sectors from F on are no whole number of slices of {s}"
        ));
    }
    if sectors / s > MOST_SLICES {
        doubts.push(format!(
            "there are {} slices, and the map has bits for {MOST_SLICES}",
            sectors / s
        ));
    }
    if let Some(h) = layout.h.filter(|h| sectors / s < h.div_ceil(s)) {
        doubts.push(format!(
            "{} slices of {s} sectors do not hold the {h} sectors of SYS",
            sectors / s
        ));
    }
    doubts
}

/// What is wrong with the count of free sectors and the map's bits past the last slice.
fn wrong_map(image: &[u16], kit: &Kit, layout: &Layout) -> Vec<String> {
    let mut doubts = Vec::new();
    if let Some(free) = layout.s.map(|s| s * ones_in_map(image)) {
        if kit.free != free {
            doubts.push(format!(
                "the kit's free sectors are {}, the map's {free}",
                kit.free
            ));
        }
    }
    if let Some(slices) = layout.slices() {
        let past = (slices + 1..=MOST_SLICES).filter(|&slice| marked_free(image, slice));
        let past: Vec<usize> = past.collect();
        if let Some(first) = past.first() {
            let past = past.len();
            doubts.push(format!(
                "{past} of the map's bits past the last slice, {slices}, are 1, the first slice \
                 {first}'s"
            ));
        }
    }
    doubts
}
