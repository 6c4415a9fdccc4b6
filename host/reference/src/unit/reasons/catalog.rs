//! Reasons of the catalog messages, the listing and the unit description.

use super::{few_lent, Asked};
use crate::layout::*;
use crate::sound::{Entry, Survey};
use crate::text::name_text;
use crate::types::{Message, Name};
use crate::unit::change::{changed, Changed};
use crate::unit::slices::{chosen, demand, Demand};
use crate::unit::{open, standing};

/// The slices that a message wants: the key that needs a place, with a place that counts as unused,
/// those that the file has, and how many it shall have.
struct Wanted {
    entering: Option<(usize, Option<(usize, usize)>)>,
    held: Vec<usize>,
    slices: usize,
}

impl Asked<'_> {
    /// Catalog question 4.
    pub(super) fn illegal(&self) -> String {
        let lends = !matches!(self.message, Message::Create { .. });
        if lends && self.lent.len() < ENTRY {
            return few_lent(ENTRY, self.lent);
        }
        match *self.message {
            Message::Create {
                name,
                size,
                attributes,
            } => illegal_new(name, size, attributes),
            Message::Set { name } => illegal_new(name, self.lent[9], self.lent[6]),
            _ => self.illegal_change(),
        }
    }

    /// Question 4 of Change.
    fn illegal_change(&self) -> String {
        let lent = self.lent;
        if lent[0] != 0 && legal([lent[0], lent[1], lent[2]]).is_none() {
            return "the new name is illegal".into();
        }
        if lent[6] & NEGATIVE == 0 {
            return illegal_attributes(lent[6]);
        }
        match legal(self.name()) {
            Some(name @ (SYS | MAP)) => {
                let name = name_text(name);
                format!(
                    "SYS and MAP are never changed (the attributes that {name} would keep, 8010h, \
                     are not those of a file)"
                )
            }
            _ => "an entry-only file would get slices".into(),
        }
    }

    /// Catalog question 5.
    pub(super) fn unchangeable(&self) -> String {
        if open(self.state, self.name()).is_some() {
            return "the file has an area process".into();
        }
        if matches!(legal(self.name()), Some(SYS | MAP)) {
            return "the file is SYS or MAP, which are never changed or removed".into();
        }
        let survey = self.survey();
        let change = survey.as_ref().and_then(|survey| self.change(survey));
        let Some((entry, new)) = change else {
            return "the file is permanent".into();
        };
        let what = match (new.renames(entry), new.resizes(entry)) {
            (true, true) => "name and its length",
            (true, false) => "name",
            (false, _) => "length",
        };
        format!("the file is permanent and its {what} would change")
    }

    /// The entry that a Change is about, and what it asks for; none for other messages.
    fn change<'a>(&self, survey: &'a Survey) -> Option<(&'a Entry, Changed)> {
        let Message::Change { name } = *self.message else {
            return None;
        };
        let entry = standing(survey, name).ok()?;
        let new = changed(&survey.kit, entry, self.lent).ok()?;
        Some((entry, new))
    }

    /// What a Create, Set or Change asks for, once questions 1 to 6 are passed.
    fn wanted(&self, survey: &Survey) -> Wanted {
        if let Some((entry, new)) = self.change(survey) {
            let own = Some((entry.sector, entry.place));
            let renamed = new.renames(entry);
            return Wanted {
                entering: renamed.then(|| (key(new.name, survey.kit.h), own)),
                held: entry.slices.clone(),
                slices: new.wanted,
            };
        }
        let size = match *self.message {
            Message::Create { size, .. } => size,
            _ => self.lent.get(9).copied().unwrap_or(0),
        };
        let name = legal(self.name()).unwrap_or_default();
        Wanted {
            entering: Some((key(name, survey.kit.h), None)),
            held: Vec::new(),
            slices: survey.kit.need(size as usize),
        }
    }

    fn demand(&self, survey: &Survey, wanted: &Wanted) -> Demand {
        let held = wanted.held.len();
        demand(self.image, survey, wanted.entering, held, wanted.slices)
    }

    /// Catalog question 7.
    pub(super) fn not_enough(&self) -> String {
        let text = "there are not enough free slices";
        let Some(survey) = self.survey() else {
            return text.into();
        };
        let wanted = self.wanted(&survey);
        let demand = self.demand(&survey, &wanted);
        let needed = demand.for_sys + demand.for_file;
        let for_sys = match (demand.for_sys, demand.for_file) {
            (0, _) => String::new(),
            (_, 0) => " for SYS".into(),
            (some, _) => format!(" ({some} of them for SYS)"),
        };
        // Those that a file has already do not count.
        let more = if wanted.held.is_empty() { "" } else { " more" };
        let verb = |number: usize| if number == 1 { "is" } else { "are" };
        format!(
            "{text}: {needed}{more} {} needed{for_sys} and {} {} free",
            verb(needed),
            demand.free,
            verb(demand.free)
        )
    }

    /// Catalog question 8.
    pub(super) fn many_stretches(&self) -> String {
        let Some(survey) = self.survey() else {
            return "there are more than 127 stretches".into();
        };
        let wanted = self.wanted(&survey);
        let demand = self.demand(&survey, &wanted);
        let plan = chosen(self.image, &survey, &demand, &wanted.held, wanted.slices);
        let (who, number) = match stretches(&plan.sys).len() {
            number if number > STRETCHES => ("SYS", number),
            _ => ("the file", stretches(&plan.file).len()),
        };
        format!("{who} would have {number} stretches, and 127 are the most")
    }

    pub(super) fn listing_room(&self) -> String {
        let entries = self.survey().map_or(0, |survey| survey.entries.len());
        let (needed, lent) = (ENTRY * entries, self.lent.len());
        format!("{entries} entries need {needed} words, and {lent} are lent")
    }

    pub(super) fn description_room(&self) -> String {
        match *self.message {
            Message::UnitDescription { bytes, .. } if bytes < 32 => {
                format!("the byte count is below 32: {bytes}")
            }
            _ => few_lent(16, self.lent),
        }
    }
}

/// Question 4 of Create and Set.
fn illegal_new(name: Name, size: u16, attributes: u16) -> String {
    if legal(name).is_none() {
        return "the name is illegal: it has to be a letter, then letters or digits".into();
    }
    if size & NEGATIVE != 0 {
        return format!("the size is negative: {size} is above 32767");
    }
    illegal_attributes(attributes)
}

/// Attributes that no caller may give.
fn illegal_attributes(attributes: u16) -> String {
    match attributes & !ATTRIBUTES {
        0 => "entry only is asked for (such files are no longer created)".into(),
        foreign => format!("the attributes are illegal: no file has bits {foreign:04X}h"),
    }
}
