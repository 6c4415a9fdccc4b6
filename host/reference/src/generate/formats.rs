//! Calls of Format.

use super::records::{record, unformatted};
use super::words::alter;
use super::Unit;
use crate::layout::SECTOR;
use crate::random::Random;

/// A call of Format.
#[derive(Clone, PartialEq, Eq, Debug)]
pub struct FormatCall {
    /// The unit that it is put to.
    pub unit: Unit,
    /// The byte count.
    pub bytes: u16,
    /// The lent record.
    pub record: Vec<u16>,
}

/// A call of Format, legal or close to it.
pub fn format_call(random: &mut Random) -> FormatCall {
    let number = random.below(4) as u16;
    let record = record(random, number).to_vec();
    let mut unit = unformatted(random, &record);
    unit.state.initialized = random.chance(50);
    let mut call = FormatCall {
        unit,
        bytes: 18,
        record,
    };
    for _ in 0..random.below(3) {
        call.change(random);
        if call.record.len() < 9 {
            break;
        }
    }
    call
}

impl FormatCall {
    /// Changes one thing of a call whose record has all nine words.
    fn change(&mut self, random: &mut Random) {
        let (record, image, state) = (&mut self.record, &mut self.unit.image, &mut self.unit.state);
        match random.below(12) {
            0 => self.bytes = random.pick(&[0, 17, 19, 16, 0xFFFF, 274]),
            1 => record.truncate(random.below(9)),
            2 => record.push(random.word()),
            3 => state.unit = random.pick(&[0, 1, 2, 3, 4, 256, 0xFFFF]),
            4 => record[0] = random.pick(&[0, 1, 2, 3, 4, 256, 0x8000]),
            5 => state.areas[random.below(8)].live = true,
            6 => image.truncate(random.below(image.len() + 1)),
            7 => image.push(0),
            _ => self.change_size(random),
        }
    }

    /// Changes one of the words 1 to 6 of the record, often to a value next to a limit.
    fn change_size(&mut self, random: &mut Random) {
        let word = random.between(1, 6);
        self.record[word] = if random.chance(50) {
            random.pick(&limits(&self.record, word))
        } else {
            alter(random, self.record[word])
        };
        if random.chance(60) {
            self.keep_in_step();
        }
    }

    /// Makes the rest of the record and the image follow N and F, so that one limit decides.
    fn keep_in_step(&mut self) {
        let (n, f) = (self.record[3], self.record[5]);
        self.record[4] = n.wrapping_sub(f);
        self.record[6] = n;
        if n <= 2_000 {
            self.unit.image.resize(SECTOR * n as usize, 7);
        }
    }
}

/// The values next to the limits of a word of a record.
fn limits(record: &[u16], word: usize) -> Vec<u16> {
    let (s, n, f) = (record[2], record[3], record[5]);
    let sectors = n.wrapping_sub(f);
    match word {
        1 => vec![0, 1, 64, 65, sectors, sectors.wrapping_add(1)],
        2 => vec![0, 1, 2, 64, 65, sectors],
        3 => vec![f, f.wrapping_add(1), f.wrapping_add(s), 32_767, 32_768],
        5 => vec![0, 9, 10, n, n.wrapping_sub(s), n.wrapping_sub(1)],
        _ => vec![n, sectors],
    }
}
