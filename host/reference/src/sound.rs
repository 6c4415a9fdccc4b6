//! The rules of a sound unit: document 01, section 'A sound unit'.

use std::collections::HashMap;

use crate::layout::*;
use crate::types::{Area, Name, Role, State, User};

/// What is wrong with an index block.
#[derive(Clone, Copy, PartialEq, Eq, Debug)]
pub enum IndexFault {
    /// The count of descriptions is not 1 to 127.
    Count,
    /// A pair's length is 0 or no multiple of the slice size.
    PairLength,
    /// A pair does not begin at a slice's first sector.
    PairStart,
    /// A pair goes past the last slice.
    PairEnd,
    /// A pair goes on where the one before it ends: they should be one.
    PairsJoin,
}

/// A rule of a sound unit that does not hold, and where.
#[derive(Clone, Copy, PartialEq, Eq, Debug)]
pub enum Unsound {
    /// The image cannot hold sectors 6 to 9.
    TooShort,
    /// The image has not 256 times N words.
    Length,
    /// The kit is not within its limits.
    Limits(KitFault),
    /// A map bit past the last slice is one.
    MapPast(usize),
    /// The free sectors are not s times the ones in the map.
    Free,
    /// SYS's index block is not legal.
    SysIndex(IndexFault),
    /// SYS is not entered in a sector of its key.
    SysMissing,
    /// SYS's length is not H times L for an L of at least 1 that gives its slices, rounded up.
    SysLength,
    /// SYS's entry lies in the slack past SYS's own length.
    SysInSlack,
    /// SYS's first slice is not slice 1.
    SysFirst,
    /// MAP is not entered in a sector of its key.
    MapMissing,
    /// A word of MAP's index block is not what it has to be.
    MapIndex(usize),
    /// A word of SYS's or MAP's entry is not what it has to be.
    CatalogWord(Name, usize),
    /// A used entry's name is not legal, or its sixth character is not 0.
    EntryName(Name),
    /// A name stands in two entries.
    EntryTwice(Name),
    /// A used entry is in a sector of another key.
    EntryKey(Name),
    /// A file's attributes are not such as a file may have.
    Attributes(Name),
    /// A file's length is past 32,767.
    FileLength(Name),
    /// A file's index sector is not the first sector of a slice.
    IndexSector(Name),
    /// A file's index block is not legal.
    Index(Name, IndexFault),
    /// A file's first pair does not begin at its index sector.
    IndexElsewhere(Name),
    /// A file has too few slices for its length.
    TooFewSlices(Name),
    /// A file with bit 13 has slices.
    EntryOnlySlices(Name),
    /// The reserved sectors of a file without area process are not s times its slices.
    Reserved(Name),
    /// An open file's booked length is above the live one.
    BookedLength(Name),
    /// An open file's reserved sectors are no multiple of s, or above the live ones.
    BookedSlices(Name),
    /// An open file's booked slices are too few for its booked length.
    BookedTooFew(Name),
    /// An open file's entry has the wrong index sector.
    BookedIndex(Name),
    /// A slice is in two files or twice in one.
    SliceTwice(usize),
    /// A slice is marked free and a file has it.
    MarkedFree(usize),
    /// A slice is marked used and no file has it.
    MarkedUsed(usize),
    /// Two area processes have one name.
    AreaTwice(Name),
    /// An area process's name is not entered.
    AreaNotEntered(Name),
    /// An area process is open on SYS or MAP.
    AreaOnCatalog(Name),
    /// A user stands twice in one area process.
    UserTwice(Name),
    /// A user's open count is 0.
    OpenCount(Name),
    /// A user's position is past the live length.
    Position(Name),
    /// An exclusive user is not the only user.
    ExclusiveUser(Name),
    /// There is more than one exclusive writer.
    ExclusiveWriters(Name),
}

/// A used entry of a sound unit.
#[derive(Clone, Debug)]
pub(crate) struct Entry {
    /// The sector in the image.
    pub sector: usize,
    /// The place in the sector.
    pub place: usize,
    /// The 16 booked words.
    pub words: [u16; ENTRY],
    /// The live slices of an ordinary file, in file order.
    pub slices: Vec<usize>,
}

impl Entry {
    /// The entry's name.
    pub fn name(&self) -> Name {
        [self.words[0], self.words[1], self.words[2]]
    }

    /// Whether this is SYS or MAP.
    pub fn is_system(&self) -> bool {
        self.name() == SYS || self.name() == MAP
    }
}

/// What the image of a sound unit holds.
#[derive(Clone, Debug)]
pub(crate) struct Survey {
    /// The kit.
    pub kit: Kit,
    /// L.
    pub layers: usize,
    /// SYS's slices.
    pub sys: Vec<usize>,
    /// The used entries, sector by sector and place by place.
    pub entries: Vec<Entry>,
}

impl Survey {
    /// The entry of a legal name, sixth character 0.
    pub fn find(&self, name: Name) -> Option<&Entry> {
        self.entries.iter().find(|entry| entry.name() == name)
    }
}

/// `Ok(L)` for an image that is sound with the state, else a rule that fails.
pub fn soundness(image: &[u16], state: &State) -> Result<usize, Unsound> {
    survey(image, state).map(|survey| survey.layers)
}

/// Checks every rule and gathers what the calls need.
pub(crate) fn survey(image: &[u16], state: &State) -> Result<Survey, Unsound> {
    let kit = check_kit(image)?;
    let mut owned = Owned::new(&kit);
    let pairs = read_pairs(image, &kit, SYS_INDEX).map_err(Unsound::SysIndex)?;
    let sys = owned.take(&kit, &pairs)?;
    let layers = check_catalog(image, &kit, &sys)?;
    let mut entries = used_entries(image, &kit, &sys, layers)?;
    let mut numbers: HashMap<Name, usize> = HashMap::new();
    for (number, entry) in entries.iter().enumerate() {
        if numbers.insert(entry.name(), number).is_some() {
            return Err(Unsound::EntryTwice(entry.name()));
        }
    }
    for entry in entries.iter_mut().filter(|entry| !entry.is_system()) {
        let name = entry.name();
        let area = state.areas.iter().find(|a| a.live && a.name == name);
        let pairs = check_file(image, &kit, entry, area)?;
        entry.slices = owned.take(&kit, &pairs)?;
    }
    owned.check_map(image, &kit)?;
    check_areas(state, |name| numbers.contains_key(&name))?;
    Ok(Survey {
        kit,
        layers,
        sys,
        entries,
    })
}

/// The image has 256 times N words; the kit is within limits; bits past M are 0; free sectors
/// equals s times the ones in the map.
fn check_kit(image: &[u16]) -> Result<Kit, Unsound> {
    if image.len() < (MAP_SECTOR + 1) * SECTOR {
        return Err(Unsound::TooShort);
    }
    let kit = Kit::read(image);
    if image.len() != SECTOR * kit.n {
        return Err(Unsound::Length);
    }
    kit.limits().map_err(Unsound::Limits)?;
    let past = (kit.slices() + 1..=16 * SECTOR).find(|&slice| marked_free(image, slice));
    if let Some(slice) = past {
        return Err(Unsound::MapPast(slice));
    }
    if kit.free != kit.s * ones_in_map(image) {
        return Err(Unsound::Free);
    }
    Ok(kit)
}

/// The pairs of an index block, first sector and length.
fn read_pairs(image: &[u16], kit: &Kit, sector: usize) -> Result<Vec<(usize, usize)>, IndexFault> {
    let block = &image[sector * SECTOR..(sector + 1) * SECTOR];
    let count = block[0] as usize;
    if !(1..=STRETCHES).contains(&count) {
        return Err(IndexFault::Count);
    }
    let mut pairs: Vec<(usize, usize)> = Vec::with_capacity(count);
    for pair in block[1..1 + 2 * count].chunks_exact(2) {
        let (length, start) = (pair[0] as usize, pair[1] as usize);
        if length == 0 || !length.is_multiple_of(kit.s) {
            return Err(IndexFault::PairLength);
        }
        if kit.slice_at(start).is_none() {
            return Err(IndexFault::PairStart);
        }
        if start + length > kit.n {
            return Err(IndexFault::PairEnd);
        }
        if let Some(&(before, its_length)) = pairs.last() {
            if before + its_length == start {
                return Err(IndexFault::PairsJoin);
            }
        }
        pairs.push((start, length));
    }
    Ok(pairs)
}

/// Which slices a file has: number 0 stands for none.
struct Owned(Vec<bool>);

impl Owned {
    fn new(kit: &Kit) -> Owned {
        Owned(vec![false; kit.slices() + 1])
    }

    /// The slices of a file's pairs: no slice is in two files or twice in one.
    fn take(&mut self, kit: &Kit, pairs: &[(usize, usize)]) -> Result<Vec<usize>, Unsound> {
        let mut slices = Vec::new();
        for &(start, length) in pairs {
            let first = (start - kit.f) / kit.s + 1;
            for slice in first..first + length / kit.s {
                if self.0[slice] {
                    return Err(Unsound::SliceTwice(slice));
                }
                self.0[slice] = true;
                slices.push(slice);
            }
        }
        Ok(slices)
    }

    /// A slice is marked used exactly when a file has it.
    fn check_map(&self, image: &[u16], kit: &Kit) -> Result<(), Unsound> {
        for slice in 1..=kit.slices() {
            match (self.0[slice], marked_free(image, slice)) {
                (true, true) => return Err(Unsound::MarkedFree(slice)),
                (false, false) => return Err(Unsound::MarkedUsed(slice)),
                _ => {}
            }
        }
        Ok(())
    }
}

fn entry_at(image: &[u16], sector: usize, place: usize) -> [u16; ENTRY] {
    let from = sector * SECTOR + place * ENTRY;
    let mut words = [0; ENTRY];
    words.copy_from_slice(&image[from..from + ENTRY]);
    words
}

/// The first entry of a name in the sectors of its key: its layer and words.
fn find_entry(
    image: &[u16],
    kit: &Kit,
    sys: &[usize],
    layers: usize,
    name: Name,
) -> Option<(usize, [u16; ENTRY])> {
    for layer in 0..layers {
        let sector = kit.sys_sector(sys, key(name, kit.h) + layer * kit.h);
        for place in 0..PLACES {
            let words = entry_at(image, sector, place);
            if words[..3] == name {
                return Some((layer, words));
            }
        }
    }
    None
}

/// SYS and MAP are entered as they have to be, SYS's slices are those of its length, slice 1
/// first; MAP's index is 1, 1, 9. Answers L, which stands in SYS's entry.
fn check_catalog(image: &[u16], kit: &Kit, sys: &[usize]) -> Result<usize, Unsound> {
    if sys[0] != 1 {
        return Err(Unsound::SysFirst);
    }
    let fitting = sys.len() * kit.s / kit.h;
    let found = find_entry(image, kit, sys, fitting, SYS);
    let (layer, sys_entry) = found.ok_or(Unsound::SysMissing)?;
    let length = sys_entry[7] as usize;
    if length == 0 || !length.is_multiple_of(kit.h) || length.div_ceil(kit.s) != sys.len() {
        return Err(Unsound::SysLength);
    }
    let layers = length / kit.h;
    if layer >= layers {
        return Err(Unsound::SysInSlack);
    }
    let found = find_entry(image, kit, sys, layers, MAP);
    let (_, map_entry) = found.ok_or(Unsound::MapMissing)?;
    let reserved = kit.s * sys.len();
    for (name, entry, length, index, reserved) in [
        (SYS, sys_entry, length, SYS_INDEX, reserved),
        (MAP, map_entry, 1, MAP_INDEX, 1),
    ] {
        let wanted = system_entry(name, length, index, reserved);
        if let Some(word) = (0..ENTRY).find(|&word| entry[word] != wanted[word]) {
            return Err(Unsound::CatalogWord(name, word));
        }
    }
    for (word, wanted) in [1, 1, MAP_SECTOR as u16].into_iter().enumerate() {
        if image[MAP_INDEX * SECTOR + word] != wanted {
            return Err(Unsound::MapIndex(word));
        }
    }
    Ok(layers)
}

/// The used entries: each has a legal name, in a sector of its key.
fn used_entries(
    image: &[u16],
    kit: &Kit,
    sys: &[usize],
    layers: usize,
) -> Result<Vec<Entry>, Unsound> {
    let mut entries: Vec<Entry> = Vec::new();
    for block in 0..kit.h * layers {
        let sector = kit.sys_sector(sys, block);
        for place in 0..PLACES {
            let words = entry_at(image, sector, place);
            if words == [0; ENTRY] {
                continue;
            }
            let name = [words[0], words[1], words[2]];
            if !is_legal(name) {
                return Err(Unsound::EntryName(name));
            }
            if key(name, kit.h) != block % kit.h {
                return Err(Unsound::EntryKey(name));
            }
            entries.push(Entry {
                sector,
                place,
                words,
                slices: Vec::new(),
            });
        }
    }
    Ok(entries)
}

/// An ordinary file has legal attributes, length at most 32,767, at least need(length) slices
/// and an index; where an area process is open, its index sector and length are the process's,
/// and the entry keeps what is booked. Answers the pairs of its index.
fn check_file(
    image: &[u16],
    kit: &Kit,
    entry: &Entry,
    area: Option<&Area>,
) -> Result<Vec<(usize, usize)>, Unsound> {
    let name = entry.name();
    let (index, length) = match area {
        Some(area) => (area.index, area.length),
        None => (entry.words[8], entry.words[7]),
    };
    if length > 32_767 {
        return Err(Unsound::FileLength(name));
    }
    let pairs = file_pairs(image, kit, name, index as usize)?;
    let slices = pairs.iter().map(|&(_, length)| length).sum::<usize>() / kit.s;
    check_attributes(entry, slices)?;
    if slices < kit.need(length as usize) {
        return Err(Unsound::TooFewSlices(name));
    }
    match area {
        Some(area) => check_booked(kit, entry, area, slices)?,
        None if entry.words[9] as usize != kit.s * slices => return Err(Unsound::Reserved(name)),
        None => {}
    }
    Ok(pairs)
}

/// The pairs of a file's index, which is the first sector of its first slice; none for index 0.
fn file_pairs(
    image: &[u16],
    kit: &Kit,
    name: Name,
    index: usize,
) -> Result<Vec<(usize, usize)>, Unsound> {
    if index == 0 {
        return Ok(Vec::new());
    }
    if kit.slice_at(index).is_none() {
        return Err(Unsound::IndexSector(name));
    }
    let pairs = read_pairs(image, kit, index).map_err(|fault| Unsound::Index(name, fault))?;
    if pairs[0].0 != index {
        return Err(Unsound::IndexElsewhere(name));
    }
    Ok(pairs)
}

/// Attributes such as a file may have, bit 13 only with no slices.
fn check_attributes(entry: &Entry, slices: usize) -> Result<(), Unsound> {
    if !legal_attributes(entry.words[6], 0) {
        return Err(Unsound::Attributes(entry.name()));
    }
    if !legal_attributes(entry.words[6], slices) {
        return Err(Unsound::EntryOnlySlices(entry.name()));
    }
    Ok(())
}

/// Where an area process is open, the entry keeps the booked length and slices (with none, word
/// 8 is 0), neither above the live ones, the slices at least need of the length.
fn check_booked(kit: &Kit, entry: &Entry, area: &Area, slices: usize) -> Result<(), Unsound> {
    let name = entry.name();
    let (length, index, reserved) = (entry.words[7], entry.words[8], entry.words[9] as usize);
    if length > area.length {
        return Err(Unsound::BookedLength(name));
    }
    if !reserved.is_multiple_of(kit.s) || reserved > kit.s * slices {
        return Err(Unsound::BookedSlices(name));
    }
    if reserved / kit.s < kit.need(length as usize) {
        return Err(Unsound::BookedTooFew(name));
    }
    if index != if reserved == 0 { 0 } else { area.index } {
        return Err(Unsound::BookedIndex(name));
    }
    Ok(())
}

/// The state's area names are distinct and entered, no SYS or MAP; the rules on users hold
/// within each area process.
fn check_areas(state: &State, entered: impl Fn(Name) -> bool) -> Result<(), Unsound> {
    let open: Vec<&Area> = state.areas.iter().filter(|area| area.live).collect();
    for (number, area) in open.iter().enumerate() {
        let name = area.name;
        if open[..number].iter().any(|other| other.name == name) {
            return Err(Unsound::AreaTwice(name));
        }
        if !entered(name) {
            return Err(Unsound::AreaNotEntered(name));
        }
        if name == SYS || name == MAP {
            return Err(Unsound::AreaOnCatalog(name));
        }
        check_users(area)?;
    }
    Ok(())
}

/// Users distinct and not 0 (which is a vacant entry), open counts 1 to 65,535, positions 0 to
/// the live length; an exclusive user is the only user, and at most one is exclusive writer.
fn check_users(area: &Area) -> Result<(), Unsound> {
    let users: Vec<&User> = area.users.iter().filter(|user| !user.is_vacant()).collect();
    let with_role = |role| users.iter().filter(|user| user.role == role).count();
    for (number, user) in users.iter().enumerate() {
        if users[..number].iter().any(|other| other.id == user.id) {
            return Err(Unsound::UserTwice(area.name));
        }
        if user.opens == 0 {
            return Err(Unsound::OpenCount(area.name));
        }
        if user.position > area.length {
            return Err(Unsound::Position(area.name));
        }
    }
    if with_role(Role::ExclusiveUser) > 0 && users.len() > 1 {
        return Err(Unsound::ExclusiveUser(area.name));
    }
    if with_role(Role::ExclusiveWriter) > 1 {
        return Err(Unsound::ExclusiveWriters(area.name));
    }
    Ok(())
}
