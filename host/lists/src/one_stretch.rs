//! How often calls took slices for a file, and in which way (02, R-6).

use reference::generate::Unit;
use reference::layout::{legal, marked_free, stretches, Kit};
use reference::layout::{NEGATIVE, SECTOR, STRETCHES, SYS_INDEX};
use reference::{entries, Answer, Message, Name, Operation, Question};

use crate::side::named;
use crate::table::{Row, Table};
use crate::Step;

/// In which way a call took slices for a file, or could not. "The old choice" is 01's: one by one.
#[derive(Clone, Copy, PartialEq, Eq, PartialOrd, Ord, Debug)]
pub enum Way {
    /// The file had none and took one, the lowest free.
    Single,
    /// It had none and took several in one stretch, those of the old choice.
    Same,
    /// In one stretch, where the old choice takes others.
    Other,
    /// In one stretch, where the old choice has more than 127.
    Spared,
    /// By the old choice: no stretch was long enough.
    Parted,
    /// Refused with 1008h: no stretch was long enough, and the old choice has more than 127.
    Refused,
    /// SYS took the first slice of the stretch that the file would have had without that.
    SysFirst,
    /// It had slices, with blocks in them, and took more by the old choice, in several stretches
    /// though one of all that it has then was free.
    Held,
    /// The same of a file of length 0.
    Surplus,
}

/// How often each way came up, by call.
pub type Ways = Table<Way>;

const CALLS: [&str; 4] = ["Set", "Create", "Change", "Append"];

impl Row for Way {
    const TITLE: &'static str = "slices taken";
    const ROWS: &'static [Way] = &[
        Way::Single,
        Way::Same,
        Way::Other,
        Way::Spared,
        Way::Parted,
        Way::Refused,
        Way::SysFirst,
        Way::Held,
        Way::Surplus,
    ];

    /// The calls that take slices so. An appending output takes one, and none for a file of length 0
    /// that has slices.
    fn columns(self) -> &'static [&'static str] {
        match self {
            Way::Single => &CALLS,
            Way::Held => &CALLS[2..],
            Way::Surplus => &CALLS[2..3],
            _ => &CALLS[..3],
        }
    }
}

/// A call that may take slices for a file of a sound unit, before it is put.
pub struct Taking {
    /// The call.
    pub column: &'static str,
    /// The file's name after the call.
    name: Name,
    /// How many slices it needs then.
    needed: usize,
    held: File,
    sys: Vec<usize>,
    /// Whether each slice is free; number 0 is not.
    free: Vec<bool>,
}

/// The live slices of a file, and its live length.
#[derive(Default)]
struct File {
    slices: Vec<usize>,
    length: usize,
}

impl Taking {
    /// What a step is about to take, if it is a call that takes slices for a file.
    pub fn before(step: &Step, unit: &Unit) -> Option<Taking> {
        let (message, lent) = step.message()?;
        let name = named(&message, unit)?;
        let kit = Kit::read(&unit.image);
        let size = match message {
            Message::Create { size, .. } => size,
            Message::Set { .. } | Message::Change { .. } => *lent.get(9)?,
            Message::AreaMessage { .. } if is_output(&message) => 0,
            _ => return None,
        };
        let (column, held) = match message {
            Message::Set { .. } => (CALLS[0], File::default()),
            Message::Create { .. } => (CALLS[1], File::default()),
            Message::Change { .. } => (CALLS[2], entered(unit, name)?),
            _ => (CALLS[3], open(unit, name)?),
        };
        let new = match message {
            Message::Change { .. } if lent[0] != 0 => legal([lent[0], lent[1], lent[2]])?,
            _ => name,
        };
        Some(Taking {
            column,
            name: new,
            needed: kit.need((size & !NEGATIVE).into()),
            held,
            sys: slices_at(unit, SYS_INDEX as u16),
            free: free_slices(unit),
        })
    }

    /// The ways in which the call took slices, with the unit after it and its answer.
    pub fn ways(&self, unit: &Unit, answer: Answer) -> Vec<Way> {
        match answer.result {
            0 => self.taken(unit),
            word if word == Question::FewStretches.word() => self.refused(),
            _ => Vec::new(),
        }
    }

    fn refused(&self) -> Vec<Way> {
        let is_new = self.held.slices.is_empty();
        let is_parted = is_new && lowest_stretch(&self.free, self.needed).is_none();
        let is_meant = is_parted && has_many(&one_by_one(&self.free, self.needed));
        Vec::from_iter(is_meant.then_some(Way::Refused))
    }

    fn taken(&self, unit: &Unit) -> Vec<Way> {
        if free_slices(unit) == self.free {
            return Vec::new();
        }
        let after = if self.column == CALLS[3] {
            open(unit, self.name)
        } else {
            entered(unit, self.name)
        };
        let slices = after.unwrap_or_default().slices;
        if slices.len() <= self.held.slices.len() {
            return Vec::new();
        }
        let sys = slices_at(unit, SYS_INDEX as u16).split_off(self.sys.len());
        let mut left = self.free.clone();
        sys.iter().for_each(|&slice| left[slice] = false);
        if !self.held.slices.is_empty() {
            return Vec::from_iter(self.taken_more(&slices, &left));
        }
        let without_sys = lowest_stretch(&self.free, slices.len());
        let is_first = without_sys.is_some_and(|first| sys.contains(&first));
        let first = (is_first && slices.len() > 1).then_some(Way::SysFirst);
        [way(&slices, &left)].into_iter().chain(first).collect()
    }

    /// The way of a file that had slices and has these now.
    fn taken_more(&self, slices: &[usize], left: &[bool]) -> Option<Way> {
        let is_parted = stretches(slices).len() > 1;
        let is_meant = is_parted && lowest_stretch(left, slices.len()).is_some();
        let way = match self.held.length {
            0 => Way::Surplus,
            _ => Way::Held,
        };
        is_meant.then_some(way)
    }
}

/// The way of a file that had none and has these now; those in `left` were free for it.
fn way(slices: &[usize], left: &[bool]) -> Way {
    let old = one_by_one(left, slices.len());
    match stretches(slices).len() {
        _ if slices.len() == 1 => Way::Single,
        2.. => Way::Parted,
        _ if old == slices => Way::Same,
        _ if has_many(&old) => Way::Spared,
        _ => Way::Other,
    }
}

/// Whether slices lie in more stretches than an index block has room for.
fn has_many(slices: &[usize]) -> bool {
    stretches(slices).len() > STRETCHES
}

/// The lowest k with k to k + number - 1 all free.
fn lowest_stretch(free: &[bool], number: usize) -> Option<usize> {
    let mut windows = free.windows(number.max(1));
    windows.position(|window| window.iter().all(|&free| free))
}

/// The slices that the old choice takes for a file that has none; so many are free.
fn one_by_one(free: &[bool], number: usize) -> Vec<usize> {
    let mut left = free.to_vec();
    let mut slices: Vec<usize> = Vec::new();
    for _ in 0..number {
        let next = slices.last().map_or(0, |last| last + 1);
        let lowest = left.iter().position(|&free| free);
        let is_free = left.get(next).is_some_and(|&free| free);
        let taken = lowest.map(|lowest| if is_free { next } else { lowest });
        slices.extend(taken);
        taken.into_iter().for_each(|slice| left[slice] = false);
    }
    slices
}

fn is_output(message: &Message) -> bool {
    let Message::AreaMessage { operation, .. } = message else {
        return false;
    };
    match operation {
        Operation::Transput { operation, .. } => [3, 7, 19].contains(operation),
        _ => false,
    }
}

/// Whether each slice of a sound unit is free; number 0 is not.
fn free_slices(unit: &Unit) -> Vec<bool> {
    let all = 1..=Kit::read(&unit.image).slices();
    let free = all.map(|slice| marked_free(&unit.image, slice));
    [false].into_iter().chain(free).collect()
}

/// The file of an open area process.
fn open(unit: &Unit, name: Name) -> Option<File> {
    let mut areas = unit.state.areas.iter();
    let area = areas.find(|area| area.live && area.name == name)?;
    Some(File {
        slices: slices_at(unit, area.index),
        length: area.length.into(),
    })
}

/// The file of an entry, which is not open where a call takes slices for it.
fn entered(unit: &Unit, name: Name) -> Option<File> {
    let mut entries = entries(&unit.image).into_iter();
    let entry = entries.find(|entry| entry[..3] == name)?;
    Some(File {
        slices: slices_at(unit, entry[8]),
        length: entry[7].into(),
    })
}

/// The slices that an index block gives; sector 0 is none.
fn slices_at(unit: &Unit, sector: u16) -> Vec<usize> {
    if sector == 0 {
        return Vec::new();
    }
    let kit = Kit::read(&unit.image);
    let block = &unit.image[usize::from(sector) * SECTOR..][..SECTOR];
    let pairs = block[1..].chunks_exact(2).take(block[0].into());
    let slices = pairs.flat_map(|pair| {
        let first = kit.slice_at(pair[1].into()).unwrap_or_default();
        first..first + usize::from(pair[0]) / kit.s
    });
    slices.collect()
}

#[cfg(test)]
mod tests {
    use super::*;
    use crate::{stored::replay, text::parse_step, Second, Side};

    /// Slices 2, 3, 5 and 7 to 9 are free. BARE has no slices, OPEN neither, and is open; KEEP has slice
    /// 11 and a block, OVER slice 12 and none.
    const SMALL: &str = "disc 0 1 2 12 10\nfile FILL 0 5 4,6,10\nfile BARE 1 0 -\n\
                         file OPEN 1 0 -\nfile KEEP 1 1 11\nfile OVER 1 0 12\n\
                         create-area OPEN -> 0000h\nreserve OPEN 7 3 -> 0000h\n";
    /// Slices 2 to 256 are free, every second one, and 258 to 400.
    const LARGE: &str = "disc 0 1 2 400 10\nfile BARE 1 0 -\n\
                         file FILLA 1 0 3-199/2\nfile FILLB 1 0 201-257/2\n";

    /// Says that these lines, each put to a unit made so, are these ways of the call.
    fn are_told(begin: &str, lines: &[(&str, &str, &[Way])]) {
        for (line, column, ways) in lines {
            let mut side = Second::default();
            replay(begin, &mut side).expect("the lines can be read");
            let step = parse_step(line).expect("a step");
            let taking = Taking::before(&step, side.current()).expect(line);
            let (answer, _) = side.put(&step);
            assert_eq!(taking.ways(side.current(), answer), *ways, "{line}");
            assert_eq!(taking.column, *column, "{line}");
        }
    }

    #[test]
    fn the_ways_of_new_files_are_told() {
        let lines: [(&str, &str, &[Way]); 13] = [
            ("create NEW 0 0", "Create", &[]),
            ("create NEW 1 0", "Create", &[Way::Single]),
            ("create NEW 3 0", "Create", &[Way::Same]),
            ("create NEW 4 0", "Create", &[Way::Other]),
            ("create NEW 7 0", "Create", &[Way::Parted]),
            ("create NEW 12 0", "Create", &[]),
            ("create BARE 3 0", "Create", &[]),
            ("create NEW 65535 0", "Create", &[]),
            ("set NEW lent 9*0 5 6*0", "Set", &[Way::Other]),
            ("change BARE lent 9*0 2 6*0", "Change", &[Way::Same]),
            (
                "change BARE lent 4E45h 5700h 7*0 4 6*0",
                "Change",
                &[Way::Other],
            ),
            ("change BARE lent 9*0 FFFFh 6*0", "Change", &[]),
            (
                "transput OPEN 7 3 512 0 lent 256*1",
                "Append",
                &[Way::Single],
            ),
        ];
        are_told(SMALL, &lines);
    }

    #[test]
    fn files_that_have_slices_are_told_apart() {
        let lines: [(&str, &str, &[Way]); 4] = [
            ("change KEEP lent 9*0 3 6*0", "Change", &[Way::Held]),
            ("change OVER lent 9*0 3 6*0", "Change", &[Way::Surplus]),
            // No stretch of four.
            ("change OVER lent 9*0 7 6*0", "Change", &[]),
            ("change FILL lent 9*0 1 6*0", "Change", &[]),
        ];
        are_told(SMALL, &lines);
    }

    #[test]
    fn many_stretches_are_told() {
        let lines: [(&str, &str, &[Way]); 6] = [
            ("create NEW 253 0", "Create", &[Way::Other]),
            ("create NEW 254 0", "Create", &[Way::Spared]),
            ("set NEW lent 9*0 285 6*0", "Set", &[Way::Spared]),
            ("set NEW lent 9*0 286 6*0", "Set", &[Way::Refused]),
            ("change BARE lent 9*0 286 6*0", "Change", &[Way::Refused]),
            ("change FILLA lent 9*0 317 6*0", "Change", &[]),
        ];
        are_told(LARGE, &lines);
    }

    /// The key of A0G is full; SYS takes slice 2, and of 2 and 3 and 5 to 9 the file has 5 and 6.
    #[test]
    fn a_first_slice_that_sys_takes_is_told() {
        let digits = "0123456789ABCDEF".chars();
        let files = digits.map(|digit| format!("file A0{digit} 0 0 -\n"));
        let begin = "disc 0 2 2 9 10\nfile FILL 0 1 4\n".to_string() + &files.collect::<String>();
        let lines: [(&str, &str, &[Way]); 3] = [
            ("create A0G 3 0", "Create", &[Way::Other, Way::SysFirst]),
            ("create A0G 1 0", "Create", &[Way::Single]),
            ("create A0G 5 0", "Create", &[Way::Other]),
        ];
        are_told(&begin, &lines);
    }

    #[test]
    fn ways_that_never_came_up_are_named() {
        let ways = Ways::default();
        assert_eq!(ways.missing().len(), 4 + 6 * 3 + 2 + 1);
        assert_eq!(ways.missing()[0], "Set Single");
    }
}
