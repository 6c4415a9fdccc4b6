//! Reasons of area create and remove and of the messages to area processes.

use super::{few_lent, in_other_case, Asked};
use crate::layout::{legal, SECTOR};
use crate::text::differ_in_case;
use crate::types::{Area, Message, Name, Operation, Role, User};
use crate::unit::{open, Question};

impl Asked<'_> {
    /// What holds where a question about areas is answered no.
    pub(super) fn of_area(&self, question: Question) -> String {
        match question {
            Question::NotSystem => "the file is SYS or MAP".into(),
            Question::DescriptorVacant => "all eight area processes are in use".into(),
            Question::Open => self.not_open(),
            Question::NoExclusiveUser => self.another(Role::ExclusiveUser),
            Question::SenderNotZero => "the sender is 0".into(),
            Question::OperationKnown => self.operation_unknown(),
            Question::NoOtherWriter | Question::OutputAllowed => {
                self.another(Role::ExclusiveWriter)
            }
            Question::NoOtherUser => self.beside(),
            Question::UserEntry => self.no_user_entry(),
            Question::SenderUser => format!("the sender is no user: {}", self.sender()),
            Question::NotProtected => "the file is write protected".into(),
            other => self.of_transput(other),
        }
    }

    /// What holds where a question about position and transput is answered no.
    fn of_transput(&self, question: Question) -> String {
        match question {
            Question::TransputRoom => self.transput_room(),
            Question::PositionNotNegative => "the position is negative".into(),
            Question::PositionNotPast => self.past_length(),
            Question::InputBelowFixedEnd => "the position is at the end of a fixed file".into(),
            Question::InputBelowExtendableEnd => {
                "the position is at the end of an extendable file".into()
            }
            Question::Extendable => "the file ends there and is not extendable".into(),
            Question::SliceFree => "no slice is free".into(),
            Question::AppendStretches => "the file would have more than 127 stretches".into(),
            // The rest are not put to a message.
            other => format!("{other:?}"),
        }
    }

    fn sender(&self) -> u16 {
        match *self.message {
            Message::AreaMessage { sender, .. } => sender,
            _ => 0,
        }
    }

    fn operation(&self) -> Operation {
        match *self.message {
            Message::AreaMessage { operation, .. } => operation,
            _ => Operation::Sense,
        }
    }

    /// The area process that the message is to.
    fn area(&self) -> Option<&Area> {
        open(self.state, self.name()).map(|descriptor| &self.state.areas[descriptor])
    }

    /// The users but for the sender.
    fn others(&self) -> Vec<&User> {
        let users = self.area().into_iter().flat_map(|area| &area.users);
        let is_other = |user: &&User| !user.is_vacant() && user.id != self.sender();
        users.filter(is_other).collect()
    }

    fn not_open(&self) -> String {
        let text = "there is no area process of the name";
        let Some(name) = legal(self.name()) else {
            return text.into();
        };
        let open = self.state.areas.iter().filter(|area| area.live);
        let names = open.map(|area| area.name);
        let others: Vec<Name> = names.filter(|&other| differ_in_case(name, other)).collect();
        let verbs = ["has one", "have one"];
        in_other_case(name, &others, "has no area process", verbs).unwrap_or_else(|| text.into())
    }

    /// Another user has a role.
    fn another(&self, role: Role) -> String {
        let others = self.others();
        let user = others.iter().find(|user| user.role == role);
        let id = user.map_or(0, |user| user.id);
        match role {
            Role::ExclusiveUser => format!("another user is exclusive user: {id}"),
            _ => format!("another user is exclusive writer: {id}"),
        }
    }

    fn beside(&self) -> String {
        let ids: Vec<String> = self
            .others()
            .iter()
            .map(|user| user.id.to_string())
            .collect();
        let ids = ids.join(", ");
        format!("exclusive use is asked for beside another user: {ids}")
    }

    fn operation_unknown(&self) -> String {
        match self.operation() {
            Operation::Reserve(count) => {
                format!("the count of the reservation is unknown: {count}")
            }
            Operation::Transput { operation, .. } | Operation::Other(operation) => {
                format!("the operation is unknown: {operation}")
            }
            _ => "the operation is unknown".into(),
        }
    }

    fn no_user_entry(&self) -> String {
        let sender = self.sender();
        let mut users = self.area().into_iter().flat_map(|area| &area.users);
        match users.any(|user| user.id == sender) {
            true => "the sender's open count is 65,535".into(),
            false => "all three user entries are taken".into(),
        }
    }

    fn transput_room(&self) -> String {
        match self.operation() {
            Operation::Transput { bytes, .. } if bytes != 512 => {
                format!("the byte count is not 512: {bytes}")
            }
            _ => few_lent(SECTOR, self.lent),
        }
    }

    fn past_length(&self) -> String {
        let (Operation::Position(block) | Operation::Transput { block, .. }) = self.operation()
        else {
            return "the position is past the length".into();
        };
        let length = self.area().map_or(0, |area| area.length);
        format!("the position is past the length: {block} is above {length}")
    }
}
