//! The state, the messages and the answers.

/// A name of five characters in three words, the high half of a word first.
/// In a message the sixth character is the unit number, in the state it is 0.
/// Names are equal only when all five characters are (02, R-8).
pub type Name = [u16; 3];

/// What a user of an area process may do; a role only rises.
#[derive(Clone, Copy, PartialEq, Eq, PartialOrd, Ord, Hash, Debug, Default)]
pub enum Role {
    /// Reads, and writes where no other user is exclusive writer.
    #[default]
    Sharing,
    /// The only user who may write.
    ExclusiveWriter,
    /// The only user.
    ExclusiveUser,
}

/// One of the three user entries of an area process.
#[derive(Clone, Copy, PartialEq, Eq, Debug, Default)]
pub struct User {
    /// The sender's number; 0 is a vacant entry.
    pub id: u16,
    /// The sender's role.
    pub role: Role,
    /// The open count.
    pub opens: u16,
    /// The block that the next transput reads or writes.
    pub position: u16,
}

impl User {
    /// The vacant user entry.
    pub const VACANT: User = User {
        id: 0,
        role: Role::Sharing,
        opens: 0,
        position: 0,
    };

    /// Whether the entry is vacant. The number alone decides: no rule names the rest.
    pub fn is_vacant(&self) -> bool {
        self.id == 0
    }
}

/// One of the eight area process descriptors.
#[derive(Clone, Copy, PartialEq, Eq, Debug, Default)]
pub struct Area {
    /// Whether the descriptor is in use.
    pub live: bool,
    /// The file's name, sixth character 0.
    pub name: Name,
    /// The live index sector, 0 while the file has no slice.
    pub index: u16,
    /// The live length in sectors.
    pub length: u16,
    /// The users.
    pub users: [User; 3],
}

impl Area {
    /// The vacant descriptor.
    pub const VACANT: Area = Area {
        live: false,
        name: [0; 3],
        index: 0,
        length: 0,
        users: [User::VACANT; 3],
    };
}

/// The unit's state, lent with every call.
#[derive(Clone, Copy, PartialEq, Eq, Debug, Default)]
pub struct State {
    /// The unit number; above 3 no unit is known.
    pub unit: u16,
    /// Whether Init has accepted the image.
    pub initialized: bool,
    /// The area process descriptors.
    pub areas: [Area; 8],
}

impl State {
    /// A state of the given unit with nothing open, not initialized.
    pub fn new(unit: u16) -> State {
        State {
            unit,
            initialized: false,
            areas: [Area::VACANT; 8],
        }
    }
}

/// What an area message asks for.
#[derive(Clone, Copy, PartialEq, Eq, Debug)]
pub enum Operation {
    /// Reservation with its count: 0 release, 2 exclusive writer, 3 user, 4 exclusive user.
    Reserve(u16),
    /// Set the sender's position.
    Position(u16),
    /// Sense the disc.
    Sense,
    /// Input (1, 5) or output (3, 7, 19) of one sector.
    Transput {
        /// The operation's number.
        operation: u16,
        /// The byte count, which must be 512.
        bytes: u16,
        /// The block that operations 5 and 7 go to first.
        block: u16,
    },
    /// An operation of some other number.
    Other(u16),
}

/// A call other than Format.
#[derive(Clone, Copy, PartialEq, Eq, Debug)]
pub enum Message {
    /// Init Catalog, 4.11.
    Init {
        /// The unit to be initialized.
        unit: u16,
    },
    /// Set Entry, 4.4; the entry is lent.
    Set {
        /// The file's name and unit.
        name: Name,
    },
    /// Create Entry, 4.5.
    Create {
        /// The file's name and unit.
        name: Name,
        /// The length in sectors.
        size: u16,
        /// The attributes.
        attributes: u16,
    },
    /// Look-up Entry, 4.6; the lent record is filled.
    LookUp {
        /// The file's name and unit.
        name: Name,
    },
    /// Change Entry, 4.7; the new entry is lent.
    Change {
        /// The file's name and unit.
        name: Name,
    },
    /// Remove Entry, 4.8.
    Remove {
        /// The file's name and unit.
        name: Name,
    },
    /// Create Area Process, 4.9.
    CreateArea {
        /// The file's name and unit.
        name: Name,
    },
    /// Remove Area Process, 4.10.
    RemoveArea {
        /// The file's name and unit.
        name: Name,
    },
    /// A message to an area process, chapter 5.
    AreaMessage {
        /// The area process's name and unit.
        name: Name,
        /// The sending process.
        sender: u16,
        /// What is asked for.
        operation: Operation,
    },
    /// Get Unit Description, 4.14.
    UnitDescription {
        /// The unit described.
        unit: u16,
        /// The byte count.
        bytes: u16,
    },
    /// The listing of all entries, by name.
    Listing {
        /// The unit listed.
        unit: u16,
    },
}

impl Message {
    /// The name and unit of the file or area process that the call is about, if it names one.
    pub fn name_mut(&mut self) -> Option<&mut Name> {
        match self {
            Message::Set { name }
            | Message::Create { name, .. }
            | Message::LookUp { name }
            | Message::Change { name }
            | Message::Remove { name }
            | Message::CreateArea { name }
            | Message::RemoveArea { name }
            | Message::AreaMessage { name, .. } => Some(name),
            Message::Init { .. } | Message::UnitDescription { .. } | Message::Listing { .. } => {
                None
            }
        }
    }
}

/// What a call answers.
#[derive(Clone, Copy, PartialEq, Eq, Debug, Default)]
pub struct Answer {
    /// The result word, 0 if all went well.
    pub result: u16,
    /// The returned byte count, 0 where none is named.
    pub bytes: u16,
    /// The returned block, 0 where none is named.
    pub block: u16,
    /// The number of entries listed.
    pub entries: u32,
}
