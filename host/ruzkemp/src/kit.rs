//! The numbers of a unit: what Format is given and Get Unit Description hands back.

/// Words in a sector.
pub const SECTOR: usize = 256;

/// The record of Format: the unit and the words of its kit.
#[derive(Clone, Copy, PartialEq, Eq, Hash, Debug, Default)]
pub struct Record {
    /// The unit number, 0 to 3.
    pub unit: u16,
    /// H, the sectors of one layer of SYS, 1 to 64.
    pub sys_size: u16,
    /// s, the sectors of a slice, 2 to 64.
    pub slice_size: u16,
    /// N, the sectors of the unit, at most 32,767.
    pub sectors: u16,
    /// The free sectors before SYS takes its own: N - F.
    pub free: u16,
    /// F, the first data sector, at least 10.
    pub first: u16,
    /// The top, which is N again.
    pub top: u16,
    /// Kit words 6 and 7, written as given.
    pub carried: [u16; 2],
}

impl Record {
    /// The record of a unit with H, s, N and F; free sectors and top follow from these, and kit
    /// words 6 and 7 are 0. Format judges the numbers.
    pub fn new(unit: u16, sys_size: u16, slice_size: u16, sectors: u16, first: u16) -> Record {
        Record {
            unit,
            sys_size,
            slice_size,
            sectors,
            free: sectors.wrapping_sub(first),
            first,
            top: sectors,
            carried: [0; 2],
        }
    }

    /// The record of nine words.
    pub fn from_words(words: [u16; 9]) -> Record {
        let [unit, sys_size, slice_size, sectors, free, first, top, word6, word7] = words;
        Record {
            unit,
            sys_size,
            slice_size,
            sectors,
            free,
            first,
            top,
            carried: [word6, word7],
        }
    }

    /// The nine words.
    pub fn words(&self) -> [u16; 9] {
        let [word6, word7] = self.carried;
        let Record {
            unit,
            sys_size,
            slice_size,
            sectors,
            free,
            first,
            top,
            ..
        } = *self;
        [
            unit, sys_size, slice_size, sectors, free, first, top, word6, word7,
        ]
    }

    /// How many words an image of that many sectors has.
    pub fn image_words(&self) -> usize {
        SECTOR * usize::from(self.sectors)
    }
}

/// What Get Unit Description hands back.
#[derive(Clone, Copy, PartialEq, Eq, Hash, Debug)]
pub struct Description {
    /// The unit number.
    pub unit: u16,
    /// H, the sectors of one layer of SYS.
    pub sys_size: u16,
    /// s, the sectors of a slice.
    pub slice_size: u16,
    /// N, the sectors of the unit.
    pub sectors: u16,
    /// The free sectors.
    pub free: u16,
}

impl Description {
    /// The description in the sixteen words that the call fills.
    pub(crate) fn from_words(words: &[u16; 16]) -> Description {
        Description {
            unit: words[1],
            sys_size: words[12],
            slice_size: words[13],
            sectors: words[14],
            free: words[15],
        }
    }
}
