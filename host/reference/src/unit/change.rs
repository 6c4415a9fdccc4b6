//! Change Entry.

use super::image::{book, count_free, enter, write_entry};
use super::slices::{grow, plan, resize, Plan};
use super::{catalog_survey, open, standing, Outcome, Question};
use crate::layout::*;
use crate::sound::{Entry, Survey};
use crate::types::{Answer, Name, State};

/// What a Change asks for: the file as it would stand after the message.
pub(super) struct Changed {
    pub(super) name: Name,
    attributes: u16,
    length: u16,
    /// How many slices the file shall have.
    pub(super) wanted: usize,
}

impl Changed {
    pub(super) fn renames(&self, entry: &Entry) -> bool {
        self.name != entry.name()
    }

    pub(super) fn resizes(&self, entry: &Entry) -> bool {
        self.length != entry.words[7]
    }
}

fn is_permanent(entry: &Entry) -> bool {
    entry.words[6] & PERMANENT != 0
}

pub(super) fn change(image: &mut [u16], state: &State, name: Name, lent: &[u16]) -> Outcome {
    let survey = catalog_survey(image, state, unit_of(name))?;
    let entry = standing(&survey, name)?;
    let new = changed(&survey.kit, entry, lent)?;
    // Question 5.
    if !is_changeable(state, entry, &new) {
        return Err(Question::Changeable.into());
    }
    // Question 6.
    if new.renames(entry) && survey.find(new.name).is_some() {
        return Err(Question::NameUnused.into());
    }
    let plan = plan_change(image, &survey, entry, &new)?;
    carry_out(image, &survey, entry, &new, &plan, lent);
    Ok(Answer::default())
}

/// Question 4: name kept if entry word 0 is 0, attributes or length if negative.
pub(super) fn changed(kit: &Kit, entry: &Entry, lent: &[u16]) -> Result<Changed, Question> {
    if lent.len() < ENTRY {
        return Err(Question::Legal);
    }
    let name = match lent[0] {
        0 => entry.name(),
        _ => legal([lent[0], lent[1], lent[2]]).ok_or(Question::Legal)?,
    };
    let unless_negative = |new: u16, old: u16| if new & NEGATIVE != 0 { old } else { new };
    let attributes = unless_negative(lent[6], entry.words[6]);
    let length = unless_negative(lent[9], entry.words[7]);
    let wanted = if length == entry.words[7] {
        entry.slices.len()
    } else {
        kit.need(length as usize)
    };
    // Kept attributes are judged as the entry would stand after the message.
    let is_legal = match lent[6] & NEGATIVE {
        0 => may_be_given(attributes),
        _ => legal_attributes(attributes, wanted),
    };
    if !is_legal {
        return Err(Question::Legal);
    }
    Ok(Changed {
        name,
        attributes,
        length,
        wanted,
    })
}

/// No area process, not SYS or MAP; not permanent, or name and length kept?
fn is_changeable(state: &State, entry: &Entry, new: &Changed) -> bool {
    let kept = !new.renames(entry) && !new.resizes(entry);
    open(state, entry.name()).is_none() && !entry.is_system() && (!is_permanent(entry) || kept)
}

/// Questions 7 and 8: only a rename needs a place, and the entry's own counts as unused.
fn plan_change(
    image: &[u16],
    survey: &Survey,
    entry: &Entry,
    new: &Changed,
) -> Result<Plan, Question> {
    let own = Some((entry.sector, entry.place));
    let entering = new
        .renames(entry)
        .then(|| (key(new.name, survey.kit.h), own));
    plan(image, survey, entering, &entry.slices, new.wanted)
}

/// The step.
fn carry_out(
    image: &mut [u16],
    survey: &Survey,
    entry: &Entry,
    new: &Changed,
    plan: &Plan,
    lent: &[u16],
) {
    let kit = &survey.kit;
    grow(image, survey, plan);
    let mut words = entry.words;
    words[..3].copy_from_slice(&new.name);
    words[6] = new.attributes;
    if !is_permanent(entry) {
        words[3..6].copy_from_slice(&lent[3..6]);
        words[10..].copy_from_slice(&lent[10..ENTRY]);
    }
    if new.resizes(entry) {
        let (old_length, new_length) = (entry.words[7] as usize, new.length as usize);
        resize(
            image,
            kit,
            &entry.slices,
            &plan.file,
            old_length,
            new_length,
        );
        book(&mut words, kit, new.length, &plan.file);
    }
    if new.renames(entry) {
        write_entry(image, entry.sector, entry.place, &[0; ENTRY]);
        enter(image, kit, &plan.sys, plan.layers, &words);
    } else {
        write_entry(image, entry.sector, entry.place, &words);
    }
    count_free(image, kit);
}
