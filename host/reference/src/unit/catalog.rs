//! The catalog messages but for Change, the unit description and the listing.

use super::image::{book, count_free, enter, mark, write_entry};
use super::slices::{grow, plan, resize};
use super::{catalog_survey, known, open, standing, Outcome, Question};
use crate::layout::*;
use crate::sound::{survey, Entry, Survey};
use crate::types::{Answer, Name, State};

pub(super) fn init(image: &[u16], state: &mut State, unit: u16) -> Outcome {
    if !known(state, unit) || state.areas.iter().any(|area| area.live) {
        return Err(Question::UnitKnown.into());
    }
    survey(image, state).map_err(|_| Question::UnitSound)?;
    state.initialized = true;
    Ok(Answer::default())
}

pub(super) fn set(image: &mut [u16], state: &State, name: Name, lent: &[u16]) -> Outcome {
    let survey = catalog_survey(image, state, unit_of(name))?;
    if lent.len() < ENTRY {
        return Err(Question::Legal.into());
    }
    let mut entry = [0; ENTRY];
    entry[3..7].copy_from_slice(&lent[3..7]);
    entry[10..].copy_from_slice(&lent[10..ENTRY]);
    new_file(image, &survey, name, lent[9], entry)
}

pub(super) fn create(
    image: &mut [u16],
    state: &State,
    name: Name,
    size: u16,
    attributes: u16,
) -> Outcome {
    let survey = catalog_survey(image, state, unit_of(name))?;
    let mut entry = [0; ENTRY];
    entry[6] = attributes;
    new_file(image, &survey, name, size, entry)
}

/// Set and Create from question 4 on; the entry brings optional, attributes and tail.
fn new_file(
    image: &mut [u16],
    survey: &Survey,
    name: Name,
    size: u16,
    mut entry: [u16; ENTRY],
) -> Outcome {
    let kit = &survey.kit;
    let wanted = kit.need(size as usize);
    let Some(name) = legal(name) else {
        return Err(Question::Legal.into());
    };
    if size & NEGATIVE != 0 || !may_be_given(entry[6]) {
        return Err(Question::Legal.into());
    }
    if survey.find(name).is_some() {
        return Err(Question::NameUnused.into());
    }
    let plan = plan(image, survey, Some((key(name, kit.h), None)), &[], wanted)?;
    grow(image, survey, &plan);
    resize(image, kit, &[], &plan.file, 0, size as usize);
    entry[..3].copy_from_slice(&name);
    book(&mut entry, kit, size, &plan.file);
    enter(image, kit, &plan.sys, plan.layers, &entry);
    count_free(image, kit);
    Ok(Answer::default())
}

pub(super) fn look_up(image: &[u16], state: &State, name: Name, lent: &mut [u16]) -> Outcome {
    let survey = catalog_survey(image, state, unit_of(name))?;
    let entry = standing(&survey, name)?;
    if lent.len() < ENTRY {
        return Err(Question::Legal.into());
    }
    lent[..ENTRY].copy_from_slice(&entry.words);
    Ok(Answer::default())
}

pub(super) fn remove(image: &mut [u16], state: &State, name: Name) -> Outcome {
    let survey = catalog_survey(image, state, unit_of(name))?;
    let entry = standing(&survey, name)?;
    let name = entry.name();
    if open(state, name).is_some() || entry.is_system() || entry.words[6] & PERMANENT != 0 {
        return Err(Question::Changeable.into());
    }
    for &slice in &entry.slices {
        mark(image, slice, true);
    }
    write_entry(image, entry.sector, entry.place, &[0; ENTRY]);
    count_free(image, &survey.kit);
    Ok(Answer::default())
}

pub(super) fn unit_description(
    image: &[u16],
    state: &State,
    unit: u16,
    bytes: u16,
    lent: &mut [u16],
) -> Outcome {
    let kit = catalog_survey(image, state, unit)?.kit;
    if bytes < 32 || lent.len() < 16 {
        return Err(Question::DescriptionRoom.into());
    }
    lent[..4].copy_from_slice(&[0, unit, 0, 20]);
    lent[4..7].copy_from_slice(&name_of("UNIT", 0));
    lent[6] = unit << 8;
    lent[7..12].fill(0);
    lent[12..16].copy_from_slice(&[kit.h as u16, kit.s as u16, kit.n as u16, kit.free as u16]);
    Ok(Answer {
        bytes: 32,
        ..Answer::default()
    })
}

/// All entries by name, first word first, SYS and MAP among them.
pub(super) fn listing(image: &[u16], state: &State, unit: u16, lent: &mut [u16]) -> Outcome {
    let mut entries = catalog_survey(image, state, unit)?.entries;
    if lent.len() < ENTRY * entries.len() {
        return Err(Question::ListingRoom.into());
    }
    // Words are unsigned, and a list of words is compared from the first word on.
    entries.sort_by_key(Entry::name);
    for (page, entry) in lent.chunks_exact_mut(ENTRY).zip(&entries) {
        page.copy_from_slice(&entry.words);
    }
    Ok(Answer {
        entries: entries.len() as u32,
        ..Answer::default()
    })
}
