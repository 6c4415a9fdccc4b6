//! Messages and answers as an emulator has them.

use crate::error::{Error, Result};
use crate::name::NameWords;
use crate::sys::{call, operation, UnitAnswer, UnitMessage};

/// What a message to an area process asks for.
#[derive(Clone, Copy, PartialEq, Eq, Hash, Debug)]
pub enum Operation {
    /// Reservation with its count: 0 release, 2 exclusive writer, 3 user, 4 exclusive user.
    Reserve(u16),
    /// Set the sender's position.
    Position(u16),
    /// Sense the disc.
    Sense,
    /// Input (1, 5) or output (3, 7, 19) of one block.
    Transput {
        /// The operation's number.
        operation: u16,
        /// The byte count, which must be 512.
        bytes: u16,
        /// The block that operations 5 and 7 go to first.
        block: u16,
    },
    /// An operation of some other number.
    Other(u16),
}

/// A call other than Format.
#[derive(Clone, Copy, PartialEq, Eq, Hash, Debug)]
pub enum Message {
    /// Init Catalog.
    Init {
        /// The unit to be initialized.
        unit: u16,
    },
    /// Set Entry; the entry is lent.
    Set {
        /// The file's name and unit.
        name: NameWords,
    },
    /// Create Entry.
    Create {
        /// The file's name and unit.
        name: NameWords,
        /// The length in sectors.
        size: u16,
        /// The attributes.
        attributes: u16,
    },
    /// Look-up Entry; the lent record is filled.
    LookUp {
        /// The file's name and unit.
        name: NameWords,
    },
    /// Change Entry; the new entry is lent.
    Change {
        /// The file's name and unit.
        name: NameWords,
    },
    /// Remove Entry.
    Remove {
        /// The file's name and unit.
        name: NameWords,
    },
    /// Create Area Process.
    CreateArea {
        /// The file's name and unit.
        name: NameWords,
    },
    /// Remove Area Process.
    RemoveArea {
        /// The file's name and unit.
        name: NameWords,
    },
    /// A message to an area process.
    AreaMessage {
        /// The area process's name and unit.
        name: NameWords,
        /// The sending process.
        sender: u16,
        /// What is asked for.
        operation: Operation,
    },
    /// Get Unit Description; the lent words are filled.
    UnitDescription {
        /// The unit described.
        unit: u16,
        /// The byte count.
        bytes: u16,
    },
    /// The listing of all entries into the lent words, by name, the first word first.
    Listing {
        /// The unit listed.
        unit: u16,
    },
}

/// What a call answers.
#[derive(Clone, Copy, PartialEq, Eq, Hash, Debug, Default)]
pub struct Answer {
    /// The result word, 0 if all went well.
    pub result: u16,
    /// The returned byte count, 0 where none is named.
    pub bytes: u16,
    /// The returned block, 0 where none is named.
    pub block: u16,
    /// The number of entries listed.
    pub entries: u32,
}

impl Answer {
    /// The answer of a call that was obeyed, or the refusal.
    pub fn checked(self) -> Result<Answer> {
        Error::check(self.result).map(|()| self)
    }
}

/// Which call it is: what a result word means depends on it.
#[derive(Clone, Copy, PartialEq, Eq, Hash, Debug)]
pub enum Call {
    /// Format.
    Format,
    /// Init Catalog.
    Init,
    /// Set Entry.
    Set,
    /// Create Entry.
    Create,
    /// Look-up Entry.
    LookUp,
    /// Change Entry.
    Change,
    /// Remove Entry.
    Remove,
    /// Create Area Process.
    CreateArea,
    /// Remove Area Process.
    RemoveArea,
    /// Reserve with count 2, 3 or 4.
    Reserve,
    /// Reserve with count 0.
    Release,
    /// Position.
    Position,
    /// Sense.
    Sense,
    /// Transput 1 and 5.
    Input,
    /// Transput 3, 7 and 19.
    Output,
    /// A message to an area process with an operation or a count that is none of these.
    OtherOperation,
    /// Get Unit Description.
    UnitDescription,
    /// The listing.
    Listing,
    /// A raw message whose number is no call's.
    Unknown,
}

impl Operation {
    /// Which call a message with this operation is.
    pub fn call(&self) -> Call {
        match self {
            Operation::Reserve(0) => Call::Release,
            Operation::Reserve(2..=4) => Call::Reserve,
            Operation::Position(_) => Call::Position,
            Operation::Sense => Call::Sense,
            Operation::Transput {
                operation: 1 | 5, ..
            } => Call::Input,
            Operation::Transput {
                operation: 3 | 7 | 19,
                ..
            } => Call::Output,
            _ => Call::OtherOperation,
        }
    }

    /// Puts the operation into a message.
    fn fill(&self, raw: &mut UnitMessage) {
        match *self {
            Operation::Reserve(count) => {
                raw.operation = operation::RESERVE;
                raw.number = count;
            }
            Operation::Position(block) => {
                raw.operation = operation::POSITION;
                raw.block = block;
            }
            Operation::Sense => raw.operation = operation::SENSE,
            Operation::Transput {
                operation: number,
                bytes,
                block,
            } => {
                raw.operation = operation::TRANSPUT;
                (raw.number, raw.bytes, raw.block) = (number, bytes, block);
            }
            Operation::Other(number) => {
                raw.operation = operation::OTHER;
                raw.number = number;
            }
        }
    }
}

impl Message {
    /// Which call the message is.
    pub fn call(&self) -> Call {
        match self {
            Message::Init { .. } => Call::Init,
            Message::Set { .. } => Call::Set,
            Message::Create { .. } => Call::Create,
            Message::LookUp { .. } => Call::LookUp,
            Message::Change { .. } => Call::Change,
            Message::Remove { .. } => Call::Remove,
            Message::CreateArea { .. } => Call::CreateArea,
            Message::RemoveArea { .. } => Call::RemoveArea,
            Message::AreaMessage { operation, .. } => operation.call(),
            Message::UnitDescription { .. } => Call::UnitDescription,
            Message::Listing { .. } => Call::Listing,
        }
    }
}

impl UnitMessage {
    /// Which call a message of raw words is.
    pub fn kind(&self) -> Call {
        match self.call {
            call::INIT => Call::Init,
            call::SET => Call::Set,
            call::CREATE => Call::Create,
            call::LOOK_UP => Call::LookUp,
            call::CHANGE => Call::Change,
            call::REMOVE => Call::Remove,
            call::CREATE_AREA => Call::CreateArea,
            call::REMOVE_AREA => Call::RemoveArea,
            call::AREA_MESSAGE => self.operation().call(),
            call::UNIT_DESCRIPTION => Call::UnitDescription,
            call::LISTING => Call::Listing,
            _ => Call::Unknown,
        }
    }

    /// What a message to an area process asks for.
    fn operation(&self) -> Operation {
        match self.operation {
            operation::RESERVE => Operation::Reserve(self.number),
            operation::POSITION => Operation::Position(self.block),
            operation::SENSE => Operation::Sense,
            operation::TRANSPUT => Operation::Transput {
                operation: self.number,
                bytes: self.bytes,
                block: self.block,
            },
            _ => Operation::Other(self.number),
        }
    }
}

impl From<&Message> for UnitMessage {
    fn from(message: &Message) -> UnitMessage {
        match *message {
            Message::Init { unit } => of_unit(call::INIT, unit),
            Message::Set { name } => named(call::SET, name),
            Message::Create {
                name,
                size,
                attributes,
            } => UnitMessage {
                size,
                attributes,
                ..named(call::CREATE, name)
            },
            Message::LookUp { name } => named(call::LOOK_UP, name),
            Message::Change { name } => named(call::CHANGE, name),
            Message::Remove { name } => named(call::REMOVE, name),
            Message::CreateArea { name } => named(call::CREATE_AREA, name),
            Message::RemoveArea { name } => named(call::REMOVE_AREA, name),
            Message::AreaMessage {
                name,
                sender,
                operation,
            } => to_area(name, sender, operation),
            Message::UnitDescription { unit, bytes } => UnitMessage {
                bytes,
                ..of_unit(call::UNIT_DESCRIPTION, unit)
            },
            Message::Listing { unit } => of_unit(call::LISTING, unit),
        }
    }
}

/// A message that names a unit, its other words 0.
fn of_unit(call: u16, unit: u16) -> UnitMessage {
    UnitMessage {
        call,
        unit,
        ..UnitMessage::default()
    }
}

/// A message that names a file, its other words 0.
fn named(call: u16, name: NameWords) -> UnitMessage {
    UnitMessage {
        call,
        name,
        ..UnitMessage::default()
    }
}

/// A message to an area process.
fn to_area(name: NameWords, sender: u16, operation: Operation) -> UnitMessage {
    let mut raw = UnitMessage {
        sender,
        ..named(call::AREA_MESSAGE, name)
    };
    operation.fill(&mut raw);
    raw
}

impl From<UnitAnswer> for Answer {
    fn from(raw: UnitAnswer) -> Answer {
        let UnitAnswer {
            result,
            bytes,
            block,
            entries,
        } = raw;
        Answer {
            result,
            bytes,
            block,
            entries,
        }
    }
}
