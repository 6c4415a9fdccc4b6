//! Entries of the catalog and their attributes.

use std::fmt;
use std::ops::{BitOr, BitOrAssign};

use crate::name::{Name, NameWords};

/// Words in an entry.
pub const ENTRY: usize = 16;

/// In the attributes or the size lent to Change: keep those of the file. Any negative word says so.
const KEPT: u16 = 0x8000;

/// The attributes of a file. Bit 0 is the highest of the word.
#[derive(Clone, Copy, PartialEq, Eq, Hash, Debug, Default)]
pub struct Attributes(u16);

impl Attributes {
    /// No attribute: a file of fixed length.
    pub const NONE: Attributes = Attributes(0);
    /// Bit 0, with which only SYS and MAP are entered.
    pub const CATALOG_FILE: Attributes = Attributes(0x8000);
    /// Bit 1, carried without meaning.
    pub const SUB_CATALOG: Attributes = Attributes(0x4000);
    /// Bit 11: the file is neither removed nor renamed nor changed in length.
    pub const PERMANENT: Attributes = Attributes(0x0010);
    /// Bit 12: no output.
    pub const WRITE_PROTECTED: Attributes = Attributes(0x0008);
    /// Bit 13: the file has no slices. Such files come from old discs and are used like others; Set,
    /// Create and Change that give the bit are refused. Change that gives attributes without it
    /// makes the file an ordinary one.
    pub const ENTRY_ONLY: Attributes = Attributes(0x0004);
    /// Bit 15: output at the file's length appends.
    pub const EXTENDABLE: Attributes = Attributes(0x0001);
    /// The bits that a caller may give.
    pub const SETTABLE: Attributes = Attributes(0x4019);

    /// The attributes of a word, whatever it is.
    pub const fn from_bits(bits: u16) -> Attributes {
        Attributes(bits)
    }

    /// The word.
    pub const fn bits(self) -> u16 {
        self.0
    }

    /// Whether all of these bits are set.
    pub const fn contains(self, bits: Attributes) -> bool {
        self.0 & bits.0 == bits.0
    }

    /// The attributes without these bits.
    pub const fn without(self, bits: Attributes) -> Attributes {
        Attributes(self.0 & !bits.0)
    }
}

impl BitOr for Attributes {
    type Output = Attributes;

    fn bitor(self, other: Attributes) -> Attributes {
        Attributes(self.0 | other.0)
    }
}

impl BitOrAssign for Attributes {
    fn bitor_assign(&mut self, other: Attributes) {
        self.0 |= other.0;
    }
}

impl fmt::Display for Attributes {
    /// The names of the bits, or 'none'.
    fn fmt(&self, f: &mut fmt::Formatter<'_>) -> fmt::Result {
        let named = [
            (Attributes::CATALOG_FILE, "catalog file"),
            (Attributes::SUB_CATALOG, "sub catalog"),
            (Attributes::PERMANENT, "permanent"),
            (Attributes::WRITE_PROTECTED, "write protected"),
            (Attributes::ENTRY_ONLY, "entry only"),
            (Attributes::EXTENDABLE, "extendable"),
        ];
        let set = named.iter().filter(|(bit, _)| self.contains(*bit));
        let mut texts: Vec<String> = set.map(|(_, text)| text.to_string()).collect();
        let others = named
            .iter()
            .fold(*self, |left, (bit, _)| left.without(*bit));
        if others != Attributes::NONE {
            texts.push(format!("{:04X}h", others.bits()));
        }
        if texts.is_empty() {
            texts.push("none".into());
        }
        f.pad(&texts.join(", "))
    }
}

/// An entry: the sixteen words that Look-up and the listing hand back, and that Set and Change
/// are lent.
///
/// As handed back, [`length`](Entry::length) is the booked length and
/// [`reserved`](Entry::reserved) counts the sectors of the booked slices. As lent, the wanted
/// length stands in the word of the latter: [`Entry::for_set`] and [`Entry::for_change`] make
/// such entries.
#[derive(Clone, Copy, PartialEq, Eq, Hash, Debug, Default)]
pub struct Entry {
    words: [u16; ENTRY],
}

impl Entry {
    /// The entry of these words.
    pub fn from_words(words: [u16; ENTRY]) -> Entry {
        Entry { words }
    }

    /// The sixteen words.
    pub fn words(&self) -> [u16; ENTRY] {
        self.words
    }

    /// An entry to be lent to Set: the file's length in sectors and its attributes, optional and
    /// tail zero. Set takes the name from its message.
    pub fn for_set(size: u16, attributes: Attributes) -> Entry {
        Entry::default().with_attributes(attributes).with_size(size)
    }

    /// An entry to be lent to Change: name, attributes and length are kept, optional and tail
    /// become those of `current`, which Look-up gave.
    pub fn for_change(current: &Entry) -> Entry {
        current.keeping_name().keeping_attributes().keeping_size()
    }

    /// Words 0 to 2: the name.
    pub fn name(&self) -> Name {
        Name::from_words(self.part(0))
    }

    /// Words 3 to 5: the optional words, the caller's own.
    pub fn optional(&self) -> [u16; 3] {
        self.part(3)
    }

    /// Word 6: the attributes.
    pub fn attributes(&self) -> Attributes {
        Attributes(self.words[6])
    }

    /// Word 7: the booked length in sectors.
    pub fn length(&self) -> u16 {
        self.words[7]
    }

    /// Word 8: the sector of the index block, 0 if there is none.
    pub fn index(&self) -> u16 {
        self.words[8]
    }

    /// Word 9: the sectors of the booked slices.
    pub fn reserved(&self) -> u16 {
        self.words[9]
    }

    /// Words 10 to 15: the tail, the caller's own.
    pub fn tail(&self) -> [u16; 6] {
        self.part(10)
    }

    /// The entry with this name. Where its first word is 0, as no legal name has it, Change keeps the
    /// file's name.
    pub fn with_name(self, name: Name) -> Entry {
        self.with_name_words(name.words())
    }

    /// The entry with these words as its name, whatever they are.
    pub fn with_name_words(mut self, name: NameWords) -> Entry {
        self.words[..3].copy_from_slice(&name);
        self
    }

    /// The entry with these optional words.
    pub fn with_optional(mut self, optional: [u16; 3]) -> Entry {
        self.words[3..6].copy_from_slice(&optional);
        self
    }

    /// The entry with these attributes. Where bit 0 ([`Attributes::CATALOG_FILE`]) is among them, Set
    /// refuses them and Change keeps the file's.
    pub fn with_attributes(mut self, attributes: Attributes) -> Entry {
        self.words[6] = attributes.bits();
        self
    }

    /// The entry with this length wanted, in the word from which Set and Change take it. Where it is
    /// above 32,767, Set refuses it and Change keeps the file's.
    pub fn with_size(mut self, size: u16) -> Entry {
        self.words[9] = size;
        self
    }

    /// The entry with this tail.
    pub fn with_tail(mut self, tail: [u16; 6]) -> Entry {
        self.words[10..].copy_from_slice(&tail);
        self
    }

    /// The entry such that Change keeps the name.
    pub fn keeping_name(self) -> Entry {
        self.with_name_words([0; 3])
    }

    /// The entry such that Change keeps the attributes.
    pub fn keeping_attributes(self) -> Entry {
        self.with_attributes(Attributes(KEPT))
    }

    /// The entry such that Change keeps the length.
    pub fn keeping_size(self) -> Entry {
        self.with_size(KEPT)
    }

    /// Whether Change keeps the name.
    pub(crate) fn keeps_name(&self) -> bool {
        self.words[0] == 0
    }

    /// Whether Change keeps the length.
    pub(crate) fn keeps_size(&self) -> bool {
        self.words[9] & KEPT != 0
    }

    /// So many words from one on.
    fn part<const WORDS: usize>(&self, from: usize) -> [u16; WORDS] {
        std::array::from_fn(|word| self.words[from + word])
    }
}
