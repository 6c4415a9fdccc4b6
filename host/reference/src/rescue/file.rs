//! A file as far as it can be read.

use std::iter::repeat;
use std::ops::Range;

use super::index::Pair;
pub(super) use crate::layout::is_legal;
use crate::layout::{ENTRY, MAP, SYS};
use crate::text::name_text;
use crate::types::Name;

/// What an entry is about.
#[derive(Clone, Copy, PartialEq, Eq, Debug)]
pub enum Kind {
    /// The catalog.
    Sys,
    /// The map.
    Map,
    /// A file, whose index block is the first of its sectors.
    Ordinary,
}

impl Kind {
    /// What the entry of a name is about.
    pub(super) fn of(name: Name) -> Kind {
        match name {
            SYS => Kind::Sys,
            MAP => Kind::Map,
            _ => Kind::Ordinary,
        }
    }

    /// How many sectors go before block 0.
    fn ahead(self) -> usize {
        usize::from(self == Kind::Ordinary)
    }
}

/// A file as far as it can be read, and what is doubtful about it.
#[derive(Clone, PartialEq, Eq, Debug)]
pub struct File {
    /// The sector of the entry.
    pub sector: usize,
    /// The place in it, 0 to 15.
    pub place: usize,
    /// The entry's sixteen words.
    pub words: [u16; ENTRY],
    /// What the entry is about.
    pub kind: Kind,
    /// The pairs of the index block that are followed, in file order.
    pub pairs: Vec<Pair>,
    /// Whether the index block gives no pair, and the one here is the slice that begins with it.
    pub(super) guessed: bool,
    /// What is doubtful, a line each; none if all is as it has to be.
    pub doubts: Vec<String>,
    /// The sectors of the image where blocks can lie.
    pub(super) readable: Range<usize>,
}

impl File {
    /// The name as it stands.
    pub fn name(&self) -> Name {
        [self.words[0], self.words[1], self.words[2]]
    }

    /// The name in letters and digits, with all else as `%` and two digits of base 16.
    pub fn shown(&self) -> String {
        name_text(self.name())
    }

    /// Whether this is neither SYS nor MAP.
    pub fn is_ordinary(&self) -> bool {
        self.kind == Kind::Ordinary
    }

    /// The length in sectors as the entry has it.
    pub fn length(&self) -> usize {
        self.words[7] as usize
    }

    /// The joined stretches in sectors, those of no block among them.
    pub fn total(&self) -> usize {
        self.pairs.iter().map(|pair| pair.length).sum()
    }

    /// The sectors of the blocks below the length, in file order; none where one cannot be read.
    pub fn blocks(&self) -> impl Iterator<Item = Option<usize>> + '_ {
        let joined = self.pairs.iter().flat_map(|pair| pair.sectors());
        let found = joined.map(|sector| self.readable.contains(&sector).then_some(sector));
        let blocks = found.skip(self.kind.ahead()).chain(repeat(None));
        blocks.take(self.length())
    }

    /// The pairs, each with its place in the joined stretches.
    pub fn placed(&self) -> impl Iterator<Item = (usize, Pair)> + '_ {
        let mut end = 0;
        self.pairs.iter().map(move |&pair| {
            end += pair.length;
            (end - pair.length, pair)
        })
    }

    /// The blocks that cannot be read, in stretches of first and last. They are found pair by pair,
    /// so that a wrong length costs no time.
    pub fn missing(&self) -> Vec<(usize, usize)> {
        let mut unread: Vec<Range<usize>> = Vec::new();
        for (position, pair) in self.placed() {
            let sectors = pair.sectors();
            let within = |sector: usize| sector.clamp(sectors.start, sectors.end) - sectors.start;
            let readable = within(self.readable.start)..within(self.readable.end);
            unread.push(position..position + readable.start);
            unread.push(position + readable.end.max(readable.start)..position + pair.length);
        }
        unread.push(self.total()..usize::MAX);
        self.in_blocks(&unread)
    }

    /// The blocks below the length at places in the joined stretches, which come in order.
    fn in_blocks(&self, places: &[Range<usize>]) -> Vec<(usize, usize)> {
        let mut found: Vec<(usize, usize)> = Vec::new();
        for place in places {
            let first = self.block_at(place.start).unwrap_or(0);
            let end = self.block_at(place.end).unwrap_or(0).min(self.length());
            match found.last_mut() {
                _ if first >= end => {}
                Some((_, last)) if *last + 1 == first => *last = end - 1,
                _ => found.push((first, end - 1)),
            }
        }
        found
    }

    /// The block at a place in the joined stretches; none for the index block.
    pub fn block_at(&self, position: usize) -> Option<usize> {
        position.checked_sub(self.kind.ahead())
    }
}
