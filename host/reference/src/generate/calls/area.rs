//! Messages to area processes.

use super::{Call, Caller, Mix, Sizes};
use crate::generate::names::in_message;
use crate::layout::SECTOR;
use crate::random::Random;
use crate::types::{Area, Message, Name, Operation, State};

/// Who sends a message to which area process.
struct Post {
    name: Name,
    sender: u16,
    /// The live length of the area process.
    length: usize,
    /// Whether the message shall be a reservation.
    reserve: bool,
}

impl Caller {
    /// A message to an area process.
    pub(super) fn area_message(&self, random: &mut Random, state: &State) -> Call {
        let post = self.post(random, state);
        let draw = match self.mix {
            _ if post.reserve => 0,
            Mix::Clear if random.chance(70) => 11,
            _ => random.below(100),
        };
        let (operation, lent) = match draw {
            0..=42 => (control(random, post.length, draw), Vec::new()),
            _ => transput(random, post.length),
        };
        let message = Message::AreaMessage {
            name: post.name,
            sender: post.sender,
            operation,
        };
        Call { message, lent }
    }

    /// A sender and an area process, most of the time an open one and one of its users.
    fn post(&self, random: &mut Random, state: &State) -> Post {
        let open: Vec<&Area> = state.areas.iter().filter(|area| area.live).collect();
        let length = random.below(20);
        let sender = random.pick(&self.senders);
        let mut post = Post {
            name: self.name(random, state.unit),
            sender,
            length,
            reserve: false,
        };
        if !open.is_empty() && random.chance(95) {
            self.choose_open(random, state.unit, &open, &mut post);
        }
        if random.chance(2) {
            post.sender = 0;
        }
        post
    }

    /// Makes one of the open area processes the receiver, most of the time one of its users
    /// the sender.
    fn choose_open(&self, random: &mut Random, unit: u16, open: &[&Area], post: &mut Post) {
        let mut area = random.pick(open);
        if self.sizes == Sizes::Stretches && random.chance(70) {
            area = open.iter().max_by_key(|a| a.length).expect("one is open");
        }
        post.length = area.length as usize;
        post.name = in_message(random, area.name, unit);
        let present = area.users.iter().filter(|user| !user.is_vacant());
        let present: Vec<u16> = present.map(|user| user.id).collect();
        if present.is_empty() {
            post.reserve = random.chance(70);
        } else if random.chance(85) {
            post.sender = random.pick(&present);
        }
    }
}

/// An operation other than transput, for a draw from 0 to 42.
fn control(random: &mut Random, length: usize, draw: usize) -> Operation {
    match draw {
        0..=10 => Operation::Reserve(random.pick(&[2, 2, 3, 3, 3, 3, 4, 4])),
        11..=20 => Operation::Reserve(0),
        21..=22 => Operation::Reserve(random.pick(&[1, 5, 0x0103, 0xFFFF, 256])),
        23..=36 => {
            let end = random.chance(30);
            Operation::Position(block(random, length, end))
        }
        37..=39 => Operation::Sense,
        _ => Operation::Other(random.pick(&[0, 1, 2, 3, 4, 5, 7, 19, 0xFFFF])),
    }
}

/// A transput with the words that it lends.
fn transput(random: &mut Random, length: usize) -> (Operation, Vec<u16>) {
    let number = match random.below(50) {
        0 => 0,
        1 => SECTOR - 1,
        2..=30 => SECTOR,
        _ => SECTOR + random.below(5),
    };
    let lent = random.words(number);
    let operation = match random.below(40) {
        0 => random.pick(&[0, 2, 4, 6, 8, 17, 20, 23, 0x0103, 0x8001]),
        1..=6 => 1,
        7..=11 => 5,
        12..=22 => 3,
        23..=33 => 7,
        _ => 19,
    };
    let bytes = if random.chance(97) {
        512
    } else {
        random.pick(&[0, 511, 513, 256, 0x8200])
    };
    // Input at a block shall come up often both within files and at their ends.
    let end = operation != 5 || random.chance(40);
    let transput = Operation::Transput {
        operation,
        bytes,
        block: block(random, length, end),
    };
    (transput, lent)
}

/// A block of an area process, now and then past its end; `end` prefers the end.
fn block(random: &mut Random, length: usize, end: bool) -> u16 {
    match random.below(20) {
        0 => length as u16,
        1 => (length + random.between(1, 3)) as u16,
        2 => random.pick(&[0x8000, 0xFFFF, 0x7FFF, 0]),
        3..=13 if end => length as u16,
        _ => random.between(0, length) as u16,
    }
}
