//! Area create and remove, and the area messages other than transput.
//!
//! The questions are asked from the top; 'sound?' was answered when the unit was read.

use super::names::{text, unit_in};
use super::transput::Transput;
use super::{accepted, ask, Member, Outcome, Plain, Refused};
use crate::types::{Name, Operation, Role};

/// The area that a message names and its users: the sender, if it is one, and the others.
pub(super) struct Users {
    pub(super) area: String,
    pub(super) own: Option<Member>,
    pub(super) others: Vec<Member>,
}

impl Users {
    /// Whether another user has this role.
    pub(super) fn another_is(&self, role: Role) -> bool {
        self.others.iter().any(|user| user.role == role)
    }

    /// Sender a user?
    pub(super) fn sender(&self) -> Result<Member, Refused> {
        self.own.clone().ok_or(Refused(0x0810, 0))
    }

    /// Entry vacant or own?
    fn entry(&self, sender: u16, role: Role) -> Result<Member, Refused> {
        ask(self.own.is_some() || self.others.len() < 3, 0x0808)?;
        Ok(self.own.clone().unwrap_or(Member {
            id: sender,
            role,
            opens: 0,
            position: 0,
        }))
    }
}

/// Known operation (Reserve 0, 2, 3, 4; Position; Sense; transput 1, 3, 5, 7, 19)?
fn is_known(operation: Operation) -> bool {
    match operation {
        Operation::Reserve(count) => [0, 2, 3, 4].contains(&count),
        Operation::Position(_) | Operation::Sense => true,
        Operation::Transput { operation, .. } => [1, 3, 5, 7, 19].contains(&operation),
        Operation::Other(_) => false,
    }
}

impl Plain {
    pub(super) fn create_area(&mut self, name: Name) -> Outcome {
        ask(self.knows(unit_in(name)), 0x0A00)?;
        let name = self.standing(name, 0x4800)?;
        ask(self.files.contains_key(&name), 0x0A00)?;
        let open = self.areas.contains_key(&name);
        ask(open || self.areas.len() < 8, 0x0900)?;
        self.areas.entry(name).or_default();
        accepted()
    }

    pub(super) fn remove_area(&mut self, name: Name) -> Outcome {
        ask(self.knows(unit_in(name)), 0x0A00)?;
        let Some(name) = text(name) else {
            return accepted();
        };
        ask(name != "SYS" && name != "MAP", 0x0A00)?;
        if self.areas.get(&name).is_some_and(|users| users.is_empty()) {
            self.areas.remove(&name);
            let file = self.files.get_mut(&name).expect("an open file stands");
            file.booked_length = file.sectors.len();
            file.booked_slices = file.slices.len();
        }
        accepted()
    }

    pub(super) fn area_message(
        &mut self,
        name: Name,
        sender: u16,
        operation: Operation,
        lent: &mut [u16],
    ) -> Outcome {
        ask(self.knows(unit_in(name)), 0x0A00)?;
        let open = text(name).filter(|name| self.areas.contains_key(name));
        let users = self.users(open.ok_or(Refused(0x4800, 0))?, sender);
        ask(!users.another_is(Role::ExclusiveUser), 0x0200)?;
        ask(sender != 0, 0x0810)?;
        ask(is_known(operation), 0x0A00)?;
        match operation {
            Operation::Reserve(0) => self.release(users),
            Operation::Reserve(count) => self.reserve(users, sender, count),
            Operation::Position(block) => self.position(users, block),
            Operation::Transput {
                operation,
                bytes,
                block,
            } => {
                let asked = Transput {
                    operation,
                    bytes,
                    block,
                };
                self.transput(users, asked, lent)
            }
            Operation::Sense | Operation::Other(_) => users.sender().and_then(|_| accepted()),
        }
    }

    /// The users of an open area, the sender apart.
    fn users(&self, area: String, sender: u16) -> Users {
        let users = self.areas[&area].iter().cloned();
        let (own, others): (Vec<_>, Vec<_>) = users.partition(|user| user.id == sender);
        Users {
            area,
            own: own.into_iter().next(),
            others,
        }
    }

    /// Gives an area its users: the others, and the sender where it is one afterwards.
    pub(super) fn put_users(&mut self, users: Users, own: Option<Member>) {
        let mut members = users.others;
        members.extend(own);
        members.sort_by_key(|user| user.id);
        self.areas.insert(users.area, members);
    }

    /// Reserve 2, 3 or 4.
    fn reserve(&mut self, users: Users, sender: u16, count: u16) -> Outcome {
        ask(
            count != 2 || !users.another_is(Role::ExclusiveWriter),
            0x0A00,
        )?;
        ask(count != 4 || users.others.is_empty(), 0x0A00)?;
        let role = match count {
            2 => Role::ExclusiveWriter,
            3 => Role::Sharing,
            _ => Role::ExclusiveUser,
        };
        let mut own = users.entry(sender, role)?;
        ask(own.opens < 65_535, 0x0808)?;
        own.opens += 1;
        own.role = own.role.max(role);
        self.put_users(users, Some(own));
        accepted()
    }

    fn release(&mut self, users: Users) -> Outcome {
        let mut own = users.sender()?;
        own.opens -= 1;
        let stays = (own.opens > 0).then_some(own);
        self.put_users(users, stays);
        accepted()
    }

    fn position(&mut self, users: Users, block: u16) -> Outcome {
        let mut own = users.sender()?;
        let moved = self.move_to(&users.area, &mut own, block);
        self.put_users(users, Some(own));
        moved.and_then(|()| accepted())
    }

    /// Position: not negative? not past the length? The user's position moves all the same.
    pub(super) fn move_to(&self, area: &str, own: &mut Member, block: u16) -> Result<(), Refused> {
        let length = self.files[area].sectors.len();
        let (position, moved) = match block as usize {
            32_768.. => (0, Err(Refused(0x0A00, 0))),
            past if past > length => (length, Err(Refused(0x0810, 0))),
            position => (position, Ok(())),
        };
        own.position = position;
        moved
    }
}
