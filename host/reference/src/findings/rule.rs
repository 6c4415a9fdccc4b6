//! The rules of a sound unit by number, as docs/RULES.md has them.

use crate::layout::KitFault;
use crate::sound::{IndexFault, Unsound};
use crate::types::Name;

/// A rule of a sound unit that can be broken by itself. Its number and its text are those of
/// docs/RULES.md.
#[derive(Clone, Copy, PartialEq, Eq, PartialOrd, Ord, Hash, Debug)]
pub enum Rule {
    /// The image has 256 words for each sector.
    Length,
    /// H is within its limits.
    Keys,
    /// s is within its limits.
    SliceSize,
    /// F is within its limit.
    FirstSector,
    /// N is within its limits.
    Sectors,
    /// The slices are whole.
    WholeSlices,
    /// The map has a bit for each slice.
    MostSlices,
    /// SYS has room.
    LeastSlices,
    /// The top is N.
    Top,
    /// The free sectors are those of the map.
    Free,
    /// The map has no slice past the last.
    MapPast,
    /// An index block's count.
    StretchCount,
    /// The length of a stretch.
    StretchLength,
    /// The beginning of a stretch.
    StretchStart,
    /// The end of a stretch.
    StretchEnd,
    /// Stretches are as long as they can be.
    StretchesApart,
    /// SYS begins in slice 1.
    SysFirst,
    /// SYS is entered.
    SysEntered,
    /// SYS has whole layers.
    SysLength,
    /// SYS has the slices of its length.
    SysSlices,
    /// The words of SYS's entry.
    SysWords,
    /// MAP is entered.
    MapEntered,
    /// The words of MAP's entry.
    MapWords,
    /// MAP's index block.
    MapIndex,
    /// An entry's name is legal.
    EntryName,
    /// An entry is alone of its name.
    EntryAlone,
    /// An entry is where its key says.
    EntryKey,
    /// The attributes of a file.
    Attributes,
    /// Entry only: no slices.
    EntryOnly,
    /// The length of a file.
    FileLength,
    /// The index sector of a file.
    IndexSector,
    /// The index block is in the file's own first sector.
    IndexOwn,
    /// The slices of a file suffice.
    EnoughSlices,
    /// The reserved length of a file.
    Reserved,
    /// A slice is in one file, once.
    SliceOnce,
    /// A file's slice is marked used.
    MarkedFree,
    /// A slice of no file is marked free.
    MarkedUsed,
}

impl Rule {
    /// All rules, by number.
    pub const ALL: [Rule; 37] = [
        Rule::Length,
        Rule::Keys,
        Rule::SliceSize,
        Rule::FirstSector,
        Rule::Sectors,
        Rule::WholeSlices,
        Rule::MostSlices,
        Rule::LeastSlices,
        Rule::Top,
        Rule::Free,
        Rule::MapPast,
        Rule::StretchCount,
        Rule::StretchLength,
        Rule::StretchStart,
        Rule::StretchEnd,
        Rule::StretchesApart,
        Rule::SysFirst,
        Rule::SysEntered,
        Rule::SysLength,
        Rule::SysSlices,
        Rule::SysWords,
        Rule::MapEntered,
        Rule::MapWords,
        Rule::MapIndex,
        Rule::EntryName,
        Rule::EntryAlone,
        Rule::EntryKey,
        Rule::Attributes,
        Rule::EntryOnly,
        Rule::FileLength,
        Rule::IndexSector,
        Rule::IndexOwn,
        Rule::EnoughSlices,
        Rule::Reserved,
        Rule::SliceOnce,
        Rule::MarkedFree,
        Rule::MarkedUsed,
    ];

    /// The rule's number, from 1.
    pub fn number(self) -> u8 {
        self as u8 + 1
    }

    /// The rule in plain words.
    pub fn text(self) -> &'static str {
        match self as usize {
            unit @ 0..=10 => UNIT[unit],
            index @ 11..=15 => INDEX[index - 11],
            system @ 16..=23 => SYSTEM[system - 16],
            file => FILES[file - 24],
        }
    }
}

/// Rules 1 to 11: size, kit and map.
const UNIT: [&str; 11] = [
    "the image has 256 words (512 bytes) for each of the kit's N sectors",
    "H, the sectors of one layer of SYS, is 1 to 64",
    "s, the sectors of a slice, is 2 to 64",
    "F, the first data sector, is at least 10",
    "N, the sectors of the unit, is above F and at most 32767",
    "s divides N - F",
    "there are at most 4096 slices",
    "there are enough slices for one layer of SYS: H / s, rounded up",
    "the top in the kit is N",
    "the free sectors in the kit are s times the ones in the map",
    "the bits of the map past the last slice are 0",
];

/// Rules 12 to 16: the index blocks of SYS and of files.
const INDEX: [&str; 5] = [
    "an index block describes 1 to 127 stretches",
    "the length of a stretch is a multiple of s and not 0",
    "a stretch begins at the first sector of a slice",
    "a stretch ends at the last sector of the unit or before it",
    "no stretch begins where the one before it in its index block ends",
];

/// Rules 17 to 24: SYS and MAP.
const SYSTEM: [&str; 8] = [
    "the first slice of SYS is slice 1",
    "SYS is entered, in a sector of its key and before the end of SYS",
    "the length of SYS is H times a number of layers, which is at least 1",
    "SYS has as many slices as its length needs: length / s, rounded up",
    "the entry of SYS has attributes 8010h, index sector 6, s times its slices as reserved length, \
     and zeros in the optional words and the tail",
    "MAP is entered, in a sector of its key and before the end of SYS",
    "the entry of MAP has attributes 8010h, length 1, index sector 7, reserved length 1, and zeros \
     in the optional words and the tail",
    "the index block of MAP begins with the words 1, 1, 9",
];

/// Rules 25 to 37: entries, files and slices.
const FILES: [&str; 13] = [
    "a used entry has a legal name: a letter, then letters or digits, then zeros, and a sixth \
     character 0",
    "a name stands in one entry only",
    "an entry is in a sector of its key",
    "a file has no attribute bits but 1, 11, 12, 13 and 15, and not 13 with 15",
    "an entry-only file (bit 13) has no slices",
    "the length of a file is at most 32767 sectors",
    "the index sector of a file is the first sector of a slice, or 0 if the file has no slices",
    "the first stretch of a file begins at its index sector",
    "a file has slices for its length and its index block: at least (length + 1) / s, rounded up \
     (length 0 needs none)",
    "the reserved length of a file is s times its slices",
    "no slice is in two files or twice in one",
    "a slice that a file has is marked used in the map",
    "a slice that no file has is marked free in the map",
];

/// The rules of which one at least is broken where [`soundness`](crate::soundness) answers so, and
/// the file that it names.
pub(super) fn of_unsound(unsound: &Unsound) -> (&'static [Rule], Option<Name>) {
    match *unsound {
        Unsound::TooShort | Unsound::Length => (&[Rule::Length], None),
        Unsound::Limits(fault) => (of_limit(fault), None),
        Unsound::MapPast(_) => (&[Rule::MapPast], None),
        Unsound::Free => (&[Rule::Free], None),
        Unsound::SysIndex(fault) => (of_index(fault), Some(crate::layout::SYS)),
        Unsound::SysMissing | Unsound::SysInSlack => (&[Rule::SysEntered], None),
        Unsound::SysLength => (&[Rule::SysLength, Rule::SysSlices], None),
        Unsound::SysFirst => (&[Rule::SysFirst], None),
        Unsound::MapMissing => (&[Rule::MapEntered], None),
        Unsound::MapIndex(_) => (&[Rule::MapIndex], None),
        Unsound::CatalogWord(..) => (&[Rule::SysWords, Rule::MapWords], None),
        Unsound::EntryName(name) => (&[Rule::EntryName], Some(name)),
        Unsound::EntryTwice(name) => (&[Rule::EntryAlone], Some(name)),
        Unsound::EntryKey(name) => (&[Rule::EntryKey], Some(name)),
        Unsound::Index(name, fault) => (of_index(fault), Some(name)),
        Unsound::SliceTwice(_) => (&[Rule::SliceOnce], None),
        Unsound::MarkedFree(_) => (&[Rule::MarkedFree], None),
        Unsound::MarkedUsed(_) => (&[Rule::MarkedUsed], None),
        ref other => of_file(other),
    }
}

/// The rules on a file's entry; those on area processes have no number.
fn of_file(unsound: &Unsound) -> (&'static [Rule], Option<Name>) {
    let (rules, name): (&[Rule], Name) = match *unsound {
        Unsound::Attributes(name) => (&[Rule::Attributes], name),
        Unsound::FileLength(name) => (&[Rule::FileLength], name),
        Unsound::IndexSector(name) => (&[Rule::IndexSector], name),
        Unsound::IndexElsewhere(name) => (&[Rule::IndexOwn], name),
        Unsound::TooFewSlices(name) => (&[Rule::EnoughSlices], name),
        Unsound::EntryOnlySlices(name) => (&[Rule::EntryOnly], name),
        Unsound::Reserved(name) => (&[Rule::Reserved], name),
        _ => return (&[], None),
    };
    (rules, Some(name))
}

fn of_limit(fault: KitFault) -> &'static [Rule] {
    match fault {
        KitFault::SysSize => &[Rule::Keys],
        KitFault::SliceSize => &[Rule::SliceSize],
        KitFault::FirstSector => &[Rule::FirstSector],
        KitFault::Sectors => &[Rule::Sectors],
        KitFault::Remainder => &[Rule::WholeSlices],
        KitFault::TooManySlices => &[Rule::MostSlices],
        KitFault::TooFewSlices => &[Rule::LeastSlices],
        KitFault::Top => &[Rule::Top],
    }
}

fn of_index(fault: IndexFault) -> &'static [Rule] {
    match fault {
        IndexFault::Count => &[Rule::StretchCount],
        IndexFault::PairLength => &[Rule::StretchLength],
        IndexFault::PairStart => &[Rule::StretchStart],
        IndexFault::PairEnd => &[Rule::StretchEnd],
        IndexFault::PairsJoin => &[Rule::StretchesApart],
    }
}
