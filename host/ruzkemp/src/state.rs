//! What is open on a unit.

use crate::name::Name;
use crate::sys::{AreaState, UnitState, UserState};

/// What a user of an area process may do; a role only rises.
#[derive(Clone, Copy, PartialEq, Eq, PartialOrd, Ord, Hash, Debug, Default)]
pub enum Role {
    /// Reads, and writes where no other user is exclusive writer.
    #[default]
    Sharing,
    /// The only user who may write.
    ExclusiveWriter,
    /// The only user.
    ExclusiveUser,
}

impl Role {
    /// The count with which Reserve asks for the role.
    pub fn count(self) -> u16 {
        match self {
            Role::ExclusiveWriter => 2,
            Role::Sharing => 3,
            Role::ExclusiveUser => 4,
        }
    }

    /// The role of a number of the C interface.
    pub fn from_number(number: u16) -> Role {
        match number {
            0 => Role::Sharing,
            1 => Role::ExclusiveWriter,
            _ => Role::ExclusiveUser,
        }
    }

    /// The number of the role in the C interface.
    pub fn number(self) -> u16 {
        self as u16
    }
}

/// A user of an area process.
#[derive(Clone, Copy, PartialEq, Eq, Hash, Debug)]
pub struct User {
    /// The sender's number, never 0.
    pub id: u16,
    /// The sender's role.
    pub role: Role,
    /// The open count.
    pub opens: u16,
    /// The block that the next transput reads or writes.
    pub position: u16,
}

/// An area process.
#[derive(Clone, PartialEq, Eq, Hash, Debug)]
pub struct Area {
    /// The file's name.
    pub name: Name,
    /// The live index sector, 0 while the file has no slice.
    pub index: u16,
    /// The live length in sectors.
    pub length: u16,
    /// The users, at most three.
    pub users: Vec<User>,
}

/// A unit's state: its number, whether it is initialized, and its area processes.
#[derive(Clone, PartialEq, Eq, Debug)]
pub struct State(UnitState);

impl State {
    /// The state of a unit with nothing open, not initialized.
    pub fn new(unit: u16) -> State {
        State(UnitState {
            unit,
            ..UnitState::default()
        })
    }

    /// The unit number; above 3 no unit is known.
    pub fn unit(&self) -> u16 {
        self.0.unit
    }

    /// Whether Init has accepted the image.
    pub fn is_initialized(&self) -> bool {
        self.0.initialized != 0
    }

    /// The area processes, at most eight.
    pub fn areas(&self) -> impl Iterator<Item = Area> + '_ {
        self.0
            .areas
            .iter()
            .filter(|area| area.live != 0)
            .map(Area::from)
    }

    /// The area process of a name.
    pub fn area(&self, name: Name) -> Option<Area> {
        self.areas().find(|area| area.name == name)
    }

    /// The state as C has it.
    pub fn raw(&self) -> &UnitState {
        &self.0
    }

    pub(crate) fn raw_mut(&mut self) -> &mut UnitState {
        &mut self.0
    }
}

impl From<UnitState> for State {
    /// Any state at all: every call judges it with the image.
    fn from(raw: UnitState) -> State {
        State(raw)
    }
}

impl From<&AreaState> for Area {
    fn from(area: &AreaState) -> Area {
        Area {
            name: Name::from_words(area.name),
            index: area.index,
            length: area.length,
            users: area
                .users
                .iter()
                .filter(|user| user.id != 0)
                .map(User::from)
                .collect(),
        }
    }
}

impl From<&UserState> for User {
    fn from(user: &UserState) -> User {
        User {
            id: user.id,
            role: Role::from_number(user.role),
            opens: user.opens,
            position: user.position,
        }
    }
}
