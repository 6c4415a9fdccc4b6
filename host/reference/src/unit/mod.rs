//! The calls: [`format()`] and [`perform`].

mod areas;
mod catalog;
mod change;
mod formatting;
mod image;
mod question;
mod reasons;
mod slices;
mod transput;

use crate::layout::legal;
use crate::sound::{survey, Entry, Survey};
use crate::types::{Answer, Message, Name, State};
use question::Refusal;

pub use formatting::{explain_format, format};
pub(crate) use image::{book, count_free, enter, mark, write_index};
pub use question::Question;
pub use reasons::{format_reason, reason, Reason};

type Outcome = Result<Answer, Refusal>;

/// Carries out a call and answers it.
pub fn perform(
    image: &mut [u16],
    state: &mut State,
    message: &Message,
    lent: &mut [u16],
) -> Answer {
    explain(image, state, message, lent).0
}

/// Carries out a call, answers it and says which question was answered no, if one was.
pub fn explain(
    image: &mut [u16],
    state: &mut State,
    message: &Message,
    lent: &mut [u16],
) -> (Answer, Option<Question>) {
    match carry_out(image, state, message, lent) {
        Ok(answer) => (answer, None),
        Err(Refusal { question, block }) => {
            let answer = Answer {
                result: question.word(),
                bytes: 0,
                block,
                entries: 0,
            };
            (answer, Some(question))
        }
    }
}

/// Asks a call its questions from the top and carries it out if none is answered no.
fn carry_out(image: &mut [u16], state: &mut State, message: &Message, lent: &mut [u16]) -> Outcome {
    match *message {
        Message::Init { unit } => catalog::init(image, state, unit),
        Message::Set { name } => catalog::set(image, state, name, lent),
        Message::Create {
            name,
            size,
            attributes,
        } => catalog::create(image, state, name, size, attributes),
        Message::LookUp { name } => catalog::look_up(image, state, name, lent),
        Message::Change { name } => change::change(image, state, name, lent),
        Message::Remove { name } => catalog::remove(image, state, name),
        Message::CreateArea { name } => areas::create_area(image, state, name),
        Message::RemoveArea { name } => areas::remove_area(image, state, name),
        Message::AreaMessage {
            name,
            sender,
            operation,
        } => areas::area_message(image, state, name, sender, operation, lent),
        Message::UnitDescription { unit, bytes } => {
            catalog::unit_description(image, state, unit, bytes, lent)
        }
        Message::Listing { unit } => catalog::listing(image, state, unit, lent),
    }
}

// Questions that many calls share.

/// Unit known (the state's, 0 to 3)?
fn known(state: &State, unit: u16) -> bool {
    unit == state.unit && unit <= 3
}

/// Catalog questions 1 (but for Init) and 2.
fn catalog_survey(image: &[u16], state: &State, unit: u16) -> Result<Survey, Question> {
    if !known(state, unit) || !state.initialized {
        return Err(Question::UnitKnown);
    }
    survey(image, state).map_err(|_| Question::UnitSound)
}

/// The first two questions of area create, area remove and area messages.
fn area_survey(image: &[u16], state: &State, unit: u16) -> Result<Survey, Question> {
    if !known(state, unit) || !state.initialized {
        return Err(Question::AreaUnitKnown);
    }
    survey(image, state).map_err(|_| Question::AreaUnitSound)
}

/// Catalog question 3.
fn standing(survey: &Survey, name: Name) -> Result<&Entry, Question> {
    legal(name)
        .and_then(|name| survey.find(name))
        .ok_or(Question::NameStands)
}

/// The descriptor of an open area process.
fn open(state: &State, name: Name) -> Option<usize> {
    let name = legal(name)?;
    state
        .areas
        .iter()
        .position(|area| area.live && area.name == name)
}
