//! Calls as a C program sends them.

use super::Call;
use crate::random::Random;
use crate::raw::{words_of, MessageWords};
use crate::types::Message;

/// Numbers that no call has.
const NO_CALLS: [u16; 10] = [11, 11, 12, 15, 255, 256, 0x7FFF, 0x8000, 0xFFFE, 0xFFFF];
/// Numbers that no operation has.
const NO_OPERATIONS: [u16; 6] = [4, 5, 7, 255, 0x8000, 0xFFFF];

/// A message of words with the words that it lends.
#[derive(Clone, PartialEq, Eq, Debug)]
pub struct RawCall {
    /// The message.
    pub message: MessageWords,
    /// The lent words.
    pub lent: Vec<u16>,
}

/// Words that nothing is asked of: random, or small numbers.
pub fn any_words(random: &mut Random) -> MessageWords {
    let small = random.chance(50);
    std::array::from_fn(|_| {
        let word = random.word();
        if small {
            word % 12
        } else {
            word
        }
    })
}

/// A call as words; those that it does not read are any. At times the number is no call's, or
/// the operation of a message to an area process is unknown.
pub fn raw(random: &mut Random, call: Call) -> RawCall {
    let mut message = words_of(&call.message, &any_words(random));
    if matches!(call.message, Message::AreaMessage { .. }) && random.chance(30) {
        message[8] = random.pick(&NO_OPERATIONS);
    }
    if random.chance(40) {
        message[0] = if random.chance(20) {
            random.between(11, 0xFFFF) as u16
        } else {
            random.pick(&NO_CALLS)
        };
    }
    RawCall {
        message,
        lent: call.lent,
    }
}
