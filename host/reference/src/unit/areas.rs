//! Area create and remove, and the area messages other than transput.

use super::image::{book, write_entry};
use super::transput::{transput, Transput};
use super::{area_survey, open, standing, Outcome, Question};
use crate::layout::*;
use crate::sound::Survey;
use crate::types::{Answer, Area, Name, Operation, Role, State, User};

pub(super) fn create_area(image: &[u16], state: &mut State, name: Name) -> Outcome {
    let survey = area_survey(image, state, unit_of(name))?;
    let entry = standing(&survey, name).map_err(|_| Question::Entered)?;
    let name = entry.name();
    if entry.is_system() {
        return Err(Question::NotSystem.into());
    }
    if open(state, name).is_some() {
        return Ok(Answer::default());
    }
    let Some(vacant) = state.areas.iter().position(|area| !area.live) else {
        return Err(Question::DescriptorVacant.into());
    };
    state.areas[vacant] = Area {
        live: true,
        name,
        index: entry.words[8],
        length: entry.words[7],
        users: [User::VACANT; 3],
    };
    Ok(Answer::default())
}

pub(super) fn remove_area(image: &mut [u16], state: &mut State, name: Name) -> Outcome {
    let survey = area_survey(image, state, unit_of(name))?;
    if matches!(legal(name), Some(SYS | MAP)) {
        return Err(Question::NotSystem.into());
    }
    let Some(descriptor) = open(state, name) else {
        return Ok(Answer::default());
    };
    let area = &mut state.areas[descriptor];
    if area.users.iter().any(|user| !user.is_vacant()) {
        return Ok(Answer::default());
    }
    let entry = survey.find(area.name).expect("an open file is entered");
    let mut words = entry.words;
    book(&mut words, &survey.kit, area.length, &entry.slices);
    write_entry(image, entry.sector, entry.place, &words);
    *area = Area::VACANT;
    Ok(Answer::default())
}

pub(super) fn area_message(
    image: &mut [u16],
    state: &mut State,
    name: Name,
    sender: u16,
    operation: Operation,
    lent: &mut [u16],
) -> Outcome {
    let survey = area_survey(image, state, unit_of(name))?;
    let descriptor = open(state, name).ok_or(Question::Open)?;
    let area = &mut state.areas[descriptor];
    if another_is(area, sender, Role::ExclusiveUser) {
        return Err(Question::NoExclusiveUser.into());
    }
    if sender == 0 {
        return Err(Question::SenderNotZero.into());
    }
    if !is_known(operation) {
        return Err(Question::OperationKnown.into());
    }
    if let Operation::Reserve(count @ 2..=4) = operation {
        reserve(area, sender, count)?;
        return Ok(Answer::default());
    }
    let own = own_entry(area, sender).ok_or(Question::SenderUser)?;
    obey(image, &survey, area, own, operation, lent)
}

/// Known operation (Reserve 0, 2, 3, 4; Position; Sense; transput 1, 3, 5, 7, 19)?
fn is_known(operation: Operation) -> bool {
    match operation {
        Operation::Reserve(count) => matches!(count, 0 | 2 | 3 | 4),
        Operation::Position(_) | Operation::Sense => true,
        Operation::Transput { operation, .. } => matches!(operation, 1 | 3 | 5 | 7 | 19),
        Operation::Other(_) => false,
    }
}

/// Release and all else, once the sender is a user.
fn obey(
    image: &mut [u16],
    survey: &Survey,
    area: &mut Area,
    own: usize,
    operation: Operation,
    lent: &mut [u16],
) -> Outcome {
    match operation {
        Operation::Reserve(_) => release(&mut area.users[own]),
        Operation::Position(block) => move_to(area, own, block)?,
        Operation::Transput {
            operation,
            bytes,
            block,
        } => {
            let asked = Transput {
                operation,
                bytes,
                block,
            };
            return transput(image, survey, area, own, asked, lent);
        }
        Operation::Sense | Operation::Other(_) => {}
    }
    Ok(Answer::default())
}

/// The users other than the sender.
fn others(area: &Area, sender: u16) -> impl Iterator<Item = &User> {
    let users = area.users.iter();
    users.filter(move |user| !user.is_vacant() && user.id != sender)
}

/// Whether a user other than the sender has this role.
pub(super) fn another_is(area: &Area, sender: u16, role: Role) -> bool {
    others(area, sender).any(|user| user.role == role)
}

/// The sender's entry, if it is a user.
fn own_entry(area: &Area, sender: u16) -> Option<usize> {
    let is_own = |user: &User| !user.is_vacant() && user.id == sender;
    area.users.iter().position(is_own)
}

/// Reserve 2, 3 or 4.
fn reserve(area: &mut Area, sender: u16, count: u16) -> Result<(), Question> {
    if count == 2 && another_is(area, sender, Role::ExclusiveWriter) {
        return Err(Question::NoOtherWriter);
    }
    if count == 4 && others(area, sender).next().is_some() {
        return Err(Question::NoOtherUser);
    }
    let role = match count {
        2 => Role::ExclusiveWriter,
        3 => Role::Sharing,
        _ => Role::ExclusiveUser,
    };
    match own_entry(area, sender) {
        Some(own) => add_open(&mut area.users[own], role),
        None => insert(area, sender, role),
    }
}

/// Adds 1 to a user's open count, if it is below 65,535; the role only rises.
fn add_open(user: &mut User, role: Role) -> Result<(), Question> {
    if user.opens == u16::MAX {
        return Err(Question::UserEntry);
    }
    user.opens += 1;
    user.role = user.role.max(role);
    Ok(())
}

/// Inserts a user at position 0, if an entry is vacant.
fn insert(area: &mut Area, sender: u16, role: Role) -> Result<(), Question> {
    let vacant = area.users.iter_mut().find(|user| user.is_vacant());
    *vacant.ok_or(Question::UserEntry)? = User {
        id: sender,
        role,
        opens: 1,
        position: 0,
    };
    Ok(())
}

/// Takes 1 from a user's open count; at zero the user and its role go.
fn release(user: &mut User) {
    user.opens -= 1;
    if user.opens == 0 {
        *user = User::VACANT;
    }
}

/// Position: the move stands even where it is refused.
pub(super) fn move_to(area: &mut Area, own: usize, position: u16) -> Result<(), Question> {
    let user = &mut area.users[own];
    if position & NEGATIVE != 0 {
        user.position = 0;
        return Err(Question::PositionNotNegative);
    }
    if position > area.length {
        user.position = area.length;
        return Err(Question::PositionNotPast);
    }
    user.position = position;
    Ok(())
}
