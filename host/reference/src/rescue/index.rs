//! Index blocks, as far as they can be followed.

use super::numbers::Layout;
use crate::layout::{SECTOR, STRETCHES};

/// So many faults of an index block are said at most.
const MOST_FAULTS: usize = 16;
/// What is said behind the last of many.
pub(super) const MORE: &str = "there is more of this kind, which is not listed";

/// A pair of an index block: a stretch of sectors.
#[derive(Clone, Copy, PartialEq, Eq, Debug)]
pub struct Pair {
    /// The first sector.
    pub start: usize,
    /// The number of sectors.
    pub length: usize,
}

impl Pair {
    /// The sectors of the stretch.
    pub fn sectors(&self) -> std::ops::Range<usize> {
        self.start..self.start + self.length
    }
}

/// Something wrong in an index block.
#[derive(Clone, PartialEq, Eq, Debug)]
pub(super) struct Fault {
    /// The place in the joined stretches from which on it matters.
    pub position: usize,
    /// What is wrong.
    pub text: String,
}

/// What is read of an index block.
#[derive(Clone, PartialEq, Eq, Debug, Default)]
pub(super) struct Index {
    /// The pairs that are followed.
    pub pairs: Vec<Pair>,
    /// What is wrong, in the order of the pairs; of much only some.
    pub faults: Vec<Fault>,
    /// Whether the block gives no pair, and the one here is the slice that begins with it.
    pub guessed: bool,
}

impl Index {
    /// Pairs that give these sectors.
    pub fn of_sectors(sectors: impl IntoIterator<Item = usize>) -> Index {
        let mut pairs: Vec<Pair> = Vec::new();
        for sector in sectors {
            match pairs.last_mut() {
                Some(last) if last.sectors().end == sector => last.length += 1,
                _ => pairs.push(Pair {
                    start: sector,
                    length: 1,
                }),
            }
        }
        Index {
            pairs,
            ..Index::default()
        }
    }

    /// The sectors of all pairs that are followed.
    pub fn total(&self) -> usize {
        self.pairs.iter().map(|pair| pair.length).sum()
    }

    pub fn fault(&mut self, position: usize, text: String) {
        self.faults.push(Fault { position, text });
    }

    /// Follows pairs until they give more sectors than there are, so that what is followed is never
    /// longer than the unit or the image.
    fn follow(&mut self, layout: &Layout, pairs: &[u16]) {
        let mut total = 0;
        for words in pairs.chunks_exact(2) {
            let (length, start) = (words[0] as usize, words[1] as usize);
            if total + length > layout.most() {
                let number = self.pairs.len() + 1;
                let text = format!(
                    "pair {number} has {length} sectors, more than there are: it and those behind \
                     it are not followed"
                );
                self.fault(total, text);
                break;
            }
            let pair = Pair { start, length };
            self.judge(layout, pair, total);
            self.pairs.push(pair);
            total += length;
        }
        if self.faults.len() > MOST_FAULTS {
            self.faults.truncate(MOST_FAULTS);
            self.fault(total, MORE.into());
        }
    }

    /// Says what is wrong with the next pair, at a place in the joined stretches.
    fn judge(&mut self, layout: &Layout, pair: Pair, position: usize) {
        let number = self.pairs.len() + 1;
        if self.faults.len() > MOST_FAULTS {
            return;
        }
        let Pair { start, length } = pair;
        if length == 0 {
            self.fault(position, format!("pair {number} has length 0"));
        } else if let Some(s) = layout.s.filter(|&s| !length.is_multiple_of(s)) {
            let text = format!("pair {number} has length {length}, no multiple of {s}");
            self.fault(position, text);
        }
        if !layout.begins_slice(start) {
            let text = format!("pair {number} begins at sector {start}, where no slice begins");
            self.fault(position, text);
        } else if start + length > layout.n.min(layout.there) {
            self.fault(position, beyond(layout, number, pair));
        }
        if self
            .pairs
            .last()
            .is_some_and(|last| last.sectors().end == start)
        {
            let text = format!("pair {number} goes on where the one before it ends");
            self.fault(position, text);
        }
    }
}

/// What is wrong with a pair that goes on past the unit or past what is there.
fn beyond(layout: &Layout, number: usize, pair: Pair) -> String {
    let (start, last) = (pair.start, pair.sectors().end - 1);
    let (unit, there) = (layout.n - 1, layout.there);
    match (last > unit, start >= there) {
        (true, _) => format!("pair {number} goes on to sector {last}, the last one is {unit}"),
        (false, true) => {
            format!("pair {number}, sectors {start} to {last}, lies past the end of the file")
        }
        (false, false) => {
            let last = last.min(there - 1);
            format!("pair {number} is cut: sector {last} is the last one of the file")
        }
    }
}

/// Reads the index block in a sector of the image.
pub(super) fn read_index(image: &[u16], layout: &Layout, sector: usize) -> Index {
    let mut index = Index::default();
    match pairs_in(image, sector) {
        Ok(pairs) => index.follow(layout, pairs),
        Err(text) => index.fault(0, text),
    }
    index
}

/// The words of the pairs of an index block, or why there are none.
fn pairs_in(image: &[u16], sector: usize) -> Result<&[u16], String> {
    let block = image.get(sector * SECTOR..(sector + 1) * SECTOR);
    let block = block.ok_or_else(|| {
        format!("the index block, sector {sector}, lies past the end of the file")
    })?;
    let count = block[0] as usize;
    match (1..=STRETCHES).contains(&count) {
        true => Ok(&block[1..1 + 2 * count]),
        false => Err(format!(
            "the index block in sector {sector} has the count {count}, not 1 to 127"
        )),
    }
}
