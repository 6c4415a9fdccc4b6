//! Where things stand on the disc, and the arithmetic of names, slices and blocks.

use crate::types::Name;

/// Words in a sector.
pub const SECTOR: usize = 256;
/// The sector with the index of SYS.
pub const SYS_INDEX: usize = 6;
/// The sector with the index of MAP.
pub const MAP_INDEX: usize = 7;
/// The kit's sector.
pub const KIT: usize = 8;
/// The map's sector.
pub const MAP_SECTOR: usize = 9;
/// Words in an entry.
pub const ENTRY: usize = 16;
/// Entries in a sector of SYS.
pub const PLACES: usize = 16;
/// The most descriptions in an index block.
pub const STRETCHES: usize = 127;
/// The name of the catalog.
pub const SYS: Name = [0x5359, 0x5300, 0];
/// The name of the map.
pub const MAP: Name = [0x4D41, 0x5000, 0];
/// The attributes of SYS and MAP.
pub const CATALOG_FILE: u16 = 0x8010;
/// The attributes that a file may have.
pub const ATTRIBUTES: u16 = 0x401D;
/// Bit 11: neither removed nor renamed nor changed in length.
pub const PERMANENT: u16 = 0x0010;
/// Bit 12: no output.
pub const PROTECTED: u16 = 0x0008;
/// Bit 13: no slices. Files that have it come from before R-9.
pub const ENTRY_ONLY: u16 = 0x0004;
/// Bit 15: output may append.
pub const EXTENDABLE: u16 = 0x0001;
/// Bit 0 of a word: the word is negative.
pub const NEGATIVE: u16 = 0x8000;

/// The kit's six words.
#[derive(Clone, Copy, PartialEq, Eq, Debug)]
pub struct Kit {
    /// H, the sectors of one layer of SYS.
    pub h: usize,
    /// s, the sectors of a slice.
    pub s: usize,
    /// N, the sectors of the unit.
    pub n: usize,
    /// The free sectors.
    pub free: usize,
    /// F, the first data sector.
    pub f: usize,
    /// The top, which is N again.
    pub top: usize,
}

/// Which limit a kit breaks.
#[derive(Clone, Copy, PartialEq, Eq, Debug)]
pub enum KitFault {
    /// H is not 1 to 64.
    SysSize,
    /// s is not 2 to 64.
    SliceSize,
    /// F is below 10.
    FirstSector,
    /// N is not above F, or past 32,767.
    Sectors,
    /// s does not divide N - F.
    Remainder,
    /// There are more than 4,096 slices.
    TooManySlices,
    /// One layer of SYS does not fit.
    TooFewSlices,
    /// top is not N.
    Top,
}

impl Kit {
    /// Reads the six words that begin at `words[0]`.
    pub fn from_words(words: &[u16]) -> Kit {
        Kit {
            h: words[0] as usize,
            s: words[1] as usize,
            n: words[2] as usize,
            free: words[3] as usize,
            f: words[4] as usize,
            top: words[5] as usize,
        }
    }

    /// Reads the kit of an image that has one.
    pub fn read(image: &[u16]) -> Kit {
        Kit::from_words(&image[KIT * SECTOR..KIT * SECTOR + 6])
    }

    /// Whether the kit is within its limits, the free sectors left aside.
    pub fn limits(&self) -> Result<(), KitFault> {
        if !(1..=64).contains(&self.h) {
            return Err(KitFault::SysSize);
        }
        if !(2..=64).contains(&self.s) {
            return Err(KitFault::SliceSize);
        }
        if self.f < 10 {
            return Err(KitFault::FirstSector);
        }
        if self.n <= self.f || self.n > 32_767 {
            return Err(KitFault::Sectors);
        }
        if !(self.n - self.f).is_multiple_of(self.s) {
            return Err(KitFault::Remainder);
        }
        if self.slices() > 4_096 {
            return Err(KitFault::TooManySlices);
        }
        if self.slices() < self.h.div_ceil(self.s) {
            return Err(KitFault::TooFewSlices);
        }
        if self.top != self.n {
            return Err(KitFault::Top);
        }
        Ok(())
    }

    /// M, the number of slices.
    pub fn slices(&self) -> usize {
        (self.n - self.f) / self.s
    }

    /// The first sector of a slice.
    pub fn first_sector(&self, slice: usize) -> usize {
        self.f + (slice - 1) * self.s
    }

    /// The slice that begins at a sector, if one does.
    pub fn slice_at(&self, sector: usize) -> Option<usize> {
        let begins =
            sector >= self.f && sector < self.n && (sector - self.f).is_multiple_of(self.s);
        begins.then(|| (sector - self.f) / self.s + 1)
    }

    /// The slices that a file of `length` sectors needs, its index sector counted.
    pub fn need(&self, length: usize) -> usize {
        need(length, self.s)
    }

    /// The sector of SYS's block.
    pub fn sys_sector(&self, sys: &[usize], block: usize) -> usize {
        self.first_sector(sys[block / self.s]) + block % self.s
    }

    /// The sector of an ordinary file's block: one further on, behind the index.
    pub fn file_sector(&self, slices: &[usize], block: usize) -> usize {
        self.sys_sector(slices, block + 1)
    }
}

/// The slices of `s` sectors that a file of `length` sectors needs.
pub fn need(length: usize, s: usize) -> usize {
    if length == 0 {
        0
    } else {
        (length + 1).div_ceil(s)
    }
}

/// The name with the sixth character 0, if its five characters are legal: a letter, then letters or
/// digits, then zeros. Letters are as given, capital or small (02, R-8).
pub fn legal(name: Name) -> Option<Name> {
    let characters = [
        (name[0] >> 8) as u8,
        name[0] as u8,
        (name[1] >> 8) as u8,
        name[1] as u8,
        (name[2] >> 8) as u8,
    ];
    if !characters[0].is_ascii_alphabetic() {
        return None;
    }
    let mut ended = false;
    for character in characters {
        if character == 0 {
            ended = true;
        } else if ended || !character.is_ascii_alphanumeric() {
            return None;
        }
    }
    Some([name[0], name[1], name[2] & 0xFF00])
}

/// Whether a name is legal with the sixth character 0, as a used entry has it.
pub fn is_legal(name: Name) -> bool {
    legal(name) == Some(name)
}

/// The sum of a name's words, carry dropped.
pub fn sum(name: Name) -> u16 {
    name[0].wrapping_add(name[1]).wrapping_add(name[2])
}

/// The key of a name, which its letters enter as given.
pub fn key(name: Name, h: usize) -> usize {
    sum(name) as usize % h
}

/// The unit that a message's name carries.
pub fn unit_of(name: Name) -> u16 {
    name[2] & 0x00FF
}

/// Whether a file of so many slices may have the attributes: the rule of a sound unit, which R-9
/// leaves as it was.
pub fn legal_attributes(attributes: u16, slices: usize) -> bool {
    let both = ENTRY_ONLY | EXTENDABLE;
    attributes & !ATTRIBUTES == 0
        && attributes & both != both
        && (attributes & ENTRY_ONLY == 0 || slices == 0)
}

/// Whether a caller may give the attributes: "Refused: 1200h at question 4, where Set, Create or
/// Change gives attributes that aren't negative and contain bit 13" (02, R-9). Without bit 13
/// slices do not matter. Negative ones are those of SYS and MAP alone; in Change they give none.
pub fn may_be_given(attributes: u16) -> bool {
    attributes & !ATTRIBUTES == 0 && attributes & ENTRY_ONLY == 0
}

/// The word 1bN, which has bit N alone, bit 0 being the highest: 2 to the power 15 - N.
pub fn bit_word(number: usize) -> u16 {
    1 << (15 - number)
}

/// Whether the map marks a slice free: bit b of word w is slice 16 times w + b + 1.
pub fn marked_free(image: &[u16], slice: usize) -> bool {
    image[MAP_SECTOR * SECTOR + (slice - 1) / 16] & bit_word((slice - 1) % 16) != 0
}

/// The ones in the map.
pub fn ones_in_map(image: &[u16]) -> usize {
    let map = &image[MAP_SECTOR * SECTOR..(MAP_SECTOR + 1) * SECTOR];
    map.iter().map(|word| word.count_ones() as usize).sum()
}

/// The entry of SYS or MAP.
pub fn system_entry(name: Name, length: usize, index: usize, reserved: usize) -> [u16; ENTRY] {
    let mut entry = [0; ENTRY];
    entry[..3].copy_from_slice(&name);
    entry[6..10].copy_from_slice(&[CATALOG_FILE, length as u16, index as u16, reserved as u16]);
    entry
}

/// The longest stretches of neighbouring slices, in file order: first slice and number of slices.
pub fn stretches(slices: &[usize]) -> Vec<(usize, usize)> {
    let mut found: Vec<(usize, usize)> = Vec::new();
    for &slice in slices {
        match found.last_mut() {
            Some((first, number)) if *first + *number == slice => *number += 1,
            _ => found.push((slice, 1)),
        }
    }
    found
}

/// The words of a text's first five characters with a sixth character given as a number.
pub fn name_of(text: &str, sixth: u8) -> Name {
    let mut characters = [0u8; 6];
    for (place, character) in characters[..5].iter_mut().zip(text.bytes()) {
        *place = character;
    }
    characters[5] = sixth;
    [
        u16::from_be_bytes([characters[0], characters[1]]),
        u16::from_be_bytes([characters[2], characters[3]]),
        u16::from_be_bytes([characters[4], characters[5]]),
    ]
}
