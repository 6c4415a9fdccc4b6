//! The proved library, through its interface for Rust.

use std::array::from_fn;

use reference::generate::Unit;
use reference::raw::MessageWords;
use reference::{Answer, Message, Operation};
use ruzkemp::sys::{AreaState, UnitMessage, UnitState, UserState};

use crate::state::{given_words, StateWords};
use crate::Side;

/// The proved library with the unit that it works on.
pub struct Proved(ruzkemp::Unit<Vec<u16>>);

impl Default for Proved {
    /// On an empty image.
    fn default() -> Proved {
        Proved(ruzkemp::Unit::new(Vec::new(), 0))
    }
}

impl Side for Proved {
    fn set(&mut self, unit: &Unit) {
        let state = mirror_of(&given_words(unit)).into();
        self.0 = ruzkemp::Unit::with_state(unit.image.clone(), state);
    }

    fn format(&mut self, bytes: u16, record: &[u16]) -> u16 {
        self.0.format_words(record, bytes)
    }

    fn perform(&mut self, message: &Message, lent: &mut [u16]) -> Answer {
        answer_of(self.0.perform(&message_of(message), lent))
    }

    fn perform_raw(&mut self, message: &MessageWords, lent: &mut [u16]) -> Answer {
        answer_of(self.0.perform_raw(raw_message_of(message), lent))
    }

    fn is_sound(&self) -> bool {
        self.0.is_sound()
    }

    fn image(&self) -> &[u16] {
        self.0.image()
    }

    fn state(&self) -> StateWords {
        mirror_words(self.0.state().raw())
    }
}

/// The words of a state as C has it.
pub fn mirror_words(state: &UnitState) -> StateWords {
    let mut words = vec![state.unit, state.initialized];
    for area in state.areas {
        words.push(area.live);
        words.extend(area.name);
        words.extend([area.index, area.length]);
        for user in area.users {
            words.extend([user.id, user.role, user.opens, user.position]);
        }
    }
    words.try_into().expect("a state has so many words")
}

/// An answer of the interface for Rust.
pub fn answer_of(answer: ruzkemp::Answer) -> Answer {
    let ruzkemp::Answer {
        result,
        bytes,
        block,
        entries,
    } = answer;
    Answer {
        result,
        bytes,
        block,
        entries,
    }
}

/// A state as C has it.
pub fn mirror_of(words: &StateWords) -> UnitState {
    let mut words = words.iter().copied();
    let mut next = || words.next().expect("a state has so many words");
    UnitState {
        unit: next(),
        initialized: next(),
        areas: from_fn(|_| AreaState {
            live: next(),
            name: from_fn(|_| next()),
            index: next(),
            length: next(),
            users: from_fn(|_| UserState {
                id: next(),
                role: next(),
                opens: next(),
                position: next(),
            }),
        }),
    }
}

/// A message of words as C has it.
pub fn raw_message_of(message: &MessageWords) -> UnitMessage {
    let mut words = message.iter().copied();
    let mut next = || words.next().expect("a message has twelve words");
    UnitMessage {
        call: next(),
        name: from_fn(|_| next()),
        unit: next(),
        size: next(),
        attributes: next(),
        sender: next(),
        operation: next(),
        number: next(),
        bytes: next(),
        block: next(),
    }
}

/// A message as the interface for Rust has it.
pub fn message_of(message: &Message) -> ruzkemp::Message {
    use ruzkemp::Message as To;
    match *message {
        Message::Init { unit } => To::Init { unit },
        Message::Set { name } => To::Set { name },
        Message::Create {
            name,
            size,
            attributes,
        } => To::Create {
            name,
            size,
            attributes,
        },
        Message::LookUp { name } => To::LookUp { name },
        Message::Change { name } => To::Change { name },
        Message::Remove { name } => To::Remove { name },
        Message::CreateArea { name } => To::CreateArea { name },
        Message::RemoveArea { name } => To::RemoveArea { name },
        Message::AreaMessage {
            name,
            sender,
            operation,
        } => To::AreaMessage {
            name,
            sender,
            operation: operation_of(operation),
        },
        Message::UnitDescription { unit, bytes } => To::UnitDescription { unit, bytes },
        Message::Listing { unit } => To::Listing { unit },
    }
}

fn operation_of(operation: Operation) -> ruzkemp::Operation {
    use ruzkemp::Operation as To;
    match operation {
        Operation::Reserve(count) => To::Reserve(count),
        Operation::Position(block) => To::Position(block),
        Operation::Sense => To::Sense,
        Operation::Transput {
            operation,
            bytes,
            block,
        } => To::Transput {
            operation,
            bytes,
            block,
        },
        Operation::Other(number) => To::Other(number),
    }
}
