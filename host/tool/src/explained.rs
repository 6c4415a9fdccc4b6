//! A unit whose refusals are explained: the proved library refuses, the second implementation says
//! for which reason.

use std::ops::Deref;

use ruzkemp::sys::{AreaState, UnitState, UserState};
use ruzkemp::{
    Answer, Attributes, Block, Entry, Error, Message, Name, Operation, Record, Result, Role, Unit,
    ENTRY, SECTOR,
};

use crate::failure::{Failure, Outcome};

/// A unit that keeps its last call and the state before it. A refused call leaves the image as it
/// was, so that this is all that the second implementation needs to be asked the same.
///
/// Only calls that are kept change the unit: all else is read from [`Unit`].
pub struct Explained {
    unit: Unit<Vec<u16>>,
    state: reference::State,
    /// The last call; none if there was no call yet.
    asked: Option<Asked>,
}

/// A call.
enum Asked {
    Format(u16, Vec<u16>),
    Message(reference::Message, Vec<u16>),
}

impl Deref for Explained {
    type Target = Unit<Vec<u16>>;

    fn deref(&self) -> &Unit<Vec<u16>> {
        &self.unit
    }
}

impl Explained {
    /// A unit of this number with nothing open, not initialized.
    pub fn new(image: Vec<u16>, number: u16) -> Explained {
        Explained {
            unit: Unit::new(image, number),
            state: reference::State::new(number),
            asked: None,
        }
    }

    /// The failure that a refusal of the last call is, with its reason. If the second implementation
    /// would not refuse it so, that is told.
    pub fn refused(&self, what: String, error: Error) -> Failure {
        match self.reason(error) {
            Ok(reason) => Failure::Refused(what, error, reason),
            Err(failure) => failure,
        }
    }

    /// Why the last call was refused.
    pub fn reason(&self, error: Error) -> Outcome<String> {
        let (image, state) = (self.unit.image(), &self.state);
        let reason = |asked: &Asked| match asked {
            Asked::Format(bytes, record) => reference::format_reason(image, state, *bytes, record),
            Asked::Message(message, lent) => reference::reason(image, state, message, lent),
        };
        agreed(error.word(), self.asked.as_ref().and_then(reason))
    }

    /// Keeps a call that is going to be made.
    fn ask(&mut self, message: Message, lent: &[u16]) -> &mut Unit<Vec<u16>> {
        self.state = state_of(self.unit.state().raw());
        self.asked = Some(Asked::Message(message_of(&message), lent.to_vec()));
        &mut self.unit
    }

    /// Keeps a message to an area process.
    fn tell(
        &mut self,
        name: Name,
        sender: u16,
        operation: Operation,
        lent: &[u16],
    ) -> &mut Unit<Vec<u16>> {
        let name = name.on_unit(self.number());
        let message = Message::AreaMessage {
            name,
            sender,
            operation,
        };
        self.ask(message, lent)
    }

    /// Carries out any call with any lent words, and answers it.
    pub fn perform(&mut self, message: &Message, lent: &mut [u16]) -> Answer {
        self.ask(*message, lent).perform(message, lent)
    }

    /// Format with any record and any byte count; answers the result word.
    pub fn format_words(&mut self, record: &[u16], bytes: u16) -> u16 {
        self.state = state_of(self.unit.state().raw());
        self.asked = Some(Asked::Format(bytes, record.to_vec()));
        self.unit.format_words(record, bytes)
    }

    /// Format.
    pub fn format(&mut self, record: &Record) -> Result<()> {
        Error::check(self.format_words(&record.words(), 18))
    }

    /// Init.
    pub fn init(&mut self) -> Result<()> {
        let unit = self.number();
        self.ask(Message::Init { unit }, &[]).init()
    }

    /// Set Entry.
    pub fn set(&mut self, name: Name, entry: &Entry) -> Result<()> {
        let message = Message::Set {
            name: name.on_unit(self.number()),
        };
        self.ask(message, &entry.words()).set(name, entry)
    }

    /// Create Entry.
    pub fn create(&mut self, name: Name, size: u16, attributes: Attributes) -> Result<()> {
        let message = Message::Create {
            name: name.on_unit(self.number()),
            size,
            attributes: attributes.bits(),
        };
        self.ask(message, &[]).create(name, size, attributes)
    }

    /// Look-up Entry.
    pub fn look_up(&mut self, name: Name) -> Result<Entry> {
        let message = Message::LookUp {
            name: name.on_unit(self.number()),
        };
        self.ask(message, &[0; ENTRY]).look_up(name)
    }

    /// Change Entry.
    pub fn change(&mut self, name: Name, entry: &Entry) -> Result<()> {
        let message = Message::Change {
            name: name.on_unit(self.number()),
        };
        self.ask(message, &entry.words()).change(name, entry)
    }

    /// Remove Entry.
    pub fn remove(&mut self, name: Name) -> Result<()> {
        let message = Message::Remove {
            name: name.on_unit(self.number()),
        };
        self.ask(message, &[]).remove(name)
    }

    /// Create Area Process.
    pub fn create_area(&mut self, name: Name) -> Result<()> {
        let message = Message::CreateArea {
            name: name.on_unit(self.number()),
        };
        self.ask(message, &[]).create_area(name)
    }

    /// Remove Area Process.
    pub fn remove_area(&mut self, name: Name) -> Result<()> {
        let message = Message::RemoveArea {
            name: name.on_unit(self.number()),
        };
        self.ask(message, &[]).remove_area(name)
    }

    /// Reserve.
    pub fn reserve(&mut self, name: Name, sender: u16, role: Role) -> Result<()> {
        let operation = Operation::Reserve(role.count());
        self.tell(name, sender, operation, &[])
            .reserve(name, sender, role)
    }

    /// Release.
    pub fn release(&mut self, name: Name, sender: u16) -> Result<()> {
        self.tell(name, sender, Operation::Reserve(0), &[])
            .release(name, sender)
    }

    /// Input at the sender's position.
    pub fn read_block(&mut self, name: Name, sender: u16, words: &mut Block) -> Result<u16> {
        let operation = sequential(1);
        self.tell(name, sender, operation, words)
            .read_block(name, sender, words)
    }

    /// Output at the sender's position.
    pub fn write_block(&mut self, name: Name, sender: u16, words: &Block) -> Result<u16> {
        let operation = sequential(3);
        self.tell(name, sender, operation, words)
            .write_block(name, sender, words)
    }

    /// The listing.
    pub fn list(&mut self) -> Result<Vec<Entry>> {
        let unit = self.number();
        let words = vec![0; self.image().len()];
        self.ask(Message::Listing { unit }, &words).list()
    }
}

/// A transput at the sender's position.
fn sequential(operation: u16) -> Operation {
    Operation::Transput {
        operation,
        bytes: 2 * SECTOR as u16,
        block: 0,
    }
}

/// The reason for a refusal with a word, on which both implementations have to agree.
pub fn agreed(word: u16, reason: Option<reference::Reason>) -> Outcome<String> {
    let second = match &reason {
        Some(reason) if reason.question.word() == word => return Ok(reason.to_string()),
        Some(reason) => format!("refuses it with {:04X}h ({reason})", reason.question.word()),
        None => "obeys it".into(),
    };
    Err(Failure::Disagreement(format!(
        "the proved library refuses a call with {word:04X}h, the second implementation {second}"
    )))
}

/// A message as the second implementation has it.
fn message_of(message: &Message) -> reference::Message {
    use reference::Message as To;
    match *message {
        Message::Init { unit } => To::Init { unit },
        Message::Set { name } => To::Set { name },
        Message::Create {
            name,
            size,
            attributes,
        } => To::Create {
            name,
            size,
            attributes,
        },
        Message::LookUp { name } => To::LookUp { name },
        Message::Change { name } => To::Change { name },
        Message::Remove { name } => To::Remove { name },
        Message::CreateArea { name } => To::CreateArea { name },
        Message::RemoveArea { name } => To::RemoveArea { name },
        Message::AreaMessage {
            name,
            sender,
            operation,
        } => To::AreaMessage {
            name,
            sender,
            operation: operation_of(operation),
        },
        Message::UnitDescription { unit, bytes } => To::UnitDescription { unit, bytes },
        Message::Listing { unit } => To::Listing { unit },
    }
}

fn operation_of(operation: Operation) -> reference::Operation {
    use reference::Operation as To;
    match operation {
        Operation::Reserve(count) => To::Reserve(count),
        Operation::Position(block) => To::Position(block),
        Operation::Sense => To::Sense,
        Operation::Transput {
            operation,
            bytes,
            block,
        } => To::Transput {
            operation,
            bytes,
            block,
        },
        Operation::Other(number) => To::Other(number),
    }
}

/// A state as the second implementation has it.
fn state_of(state: &UnitState) -> reference::State {
    reference::State {
        unit: state.unit,
        initialized: state.initialized != 0,
        areas: state.areas.map(area_of),
    }
}

fn area_of(area: AreaState) -> reference::Area {
    reference::Area {
        live: area.live != 0,
        name: area.name,
        index: area.index,
        length: area.length,
        users: area.users.map(user_of),
    }
}

fn user_of(user: UserState) -> reference::User {
    let role = match Role::from_number(user.role) {
        Role::Sharing => reference::Role::Sharing,
        Role::ExclusiveWriter => reference::Role::ExclusiveWriter,
        Role::ExclusiveUser => reference::Role::ExclusiveUser,
    };
    reference::User {
        id: user.id,
        role,
        opens: user.opens,
        position: user.position,
    }
}

#[cfg(test)]
mod tests {
    use super::*;

    #[test]
    fn a_refusal_that_only_one_of_the_two_gives_is_a_disagreement() {
        let image = vec![0; 256 * 20];
        let state = reference::State::new(0);
        let record = [0, 0, 2, 20, 10, 10, 20, 0, 0];
        let reason = || reference::format_reason(&image, &state, 18, &record);
        let text = agreed(0x1200, reason()).expect("both refuse with 1200h");
        assert_eq!(text, "H is 0 and has to be 1 to 64");
        for (word, reason, said) in [
            (
                0x1080,
                reason(),
                "refuses it with 1200h (H is 0 and has to be 1 to 64)",
            ),
            (0x1200, None, "obeys it"),
        ] {
            let failure = agreed(word, reason).expect_err("they differ");
            assert_eq!(failure.status(), 5);
            assert!(failure.to_string().contains(said), "{failure}");
        }
    }

    fn formatted() -> Explained {
        let record = Record::new(0, 1, 2, 20, 10);
        let mut unit = Explained::new(vec![0; record.image_words()], 0);
        unit.format(&record).expect("formatted");
        unit
    }

    fn pass() -> Name {
        Name::new("PASS").expect("a name")
    }

    /// A unit with PASS, of one sector, whose area process user 7 has alone.
    fn reserved() -> Explained {
        let mut unit = formatted();
        let name = pass();
        unit.init().expect("sound");
        unit.create(name, 1, Attributes::NONE).expect("created");
        unit.create_area(name).expect("opened");
        let role = Role::ExclusiveUser;
        unit.reserve(name, 7, role).expect("reserved");
        unit
    }

    fn is_refused<T>(unit: &Explained, result: Result<T>, text: &str) {
        let error = result.err().expect("refused");
        assert_eq!(unit.reason(error).expect("both refuse"), text);
    }

    #[test]
    fn before_the_first_call_there_is_no_reason() {
        let unit = Explained::new(vec![0; 256 * 20], 0);
        let failure = unit.reason(Error::NoEntry).expect_err("nothing was asked");
        assert_eq!(failure.status(), 5);
    }

    #[test]
    fn the_state_before_the_call_is_asked() {
        let name = pass();
        let mut unit = formatted();
        let early = unit.create(name, 1, Attributes::NONE);
        is_refused(&unit, early, "the unit is not initialized");
        let mut unit = reserved();
        let removed = unit.remove(name);
        is_refused(&unit, removed, "the file has an area process");
        let shared = unit.reserve(name, 8, Role::Sharing);
        is_refused(&unit, shared, "another user is exclusive user: 7");
    }

    #[test]
    fn the_position_before_the_call_is_asked() {
        let name = pass();
        let mut unit = reserved();
        unit.write_block(name, 7, &[1; 256]).expect("written");
        let read = unit.read_block(name, 7, &mut [0; 256]);
        is_refused(&unit, read, "the position is at the end of a fixed file");
        // A refused position moves: the one before it counts.
        let message = Message::AreaMessage {
            name: name.on_unit(0),
            sender: 7,
            operation: Operation::Position(5),
        };
        let answered = Error::check(unit.perform(&message, &mut []).result);
        let text = "the position is past the length: 5 is above 1";
        is_refused(&unit, answered, text);
    }
}
