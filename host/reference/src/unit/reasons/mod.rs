//! The one reason for which a call is refused, in plain words.

mod areas;
mod catalog;
mod formatting;

use std::fmt;

use super::{explain, Question};
use crate::findings::findings;
use crate::layout::{legal, unit_of};
use crate::sound::{survey, Survey};
use crate::text::{differ_in_case, name_text, names_text};
use crate::types::{Message, Name, State};

pub use formatting::format_reason;

/// Why a call is refused.
#[derive(Clone, PartialEq, Eq, Debug)]
pub struct Reason {
    /// The question that is answered no.
    pub question: Question,
    text: String,
}

impl fmt::Display for Reason {
    /// What holds, in a line.
    fn fmt(&self, to: &mut fmt::Formatter) -> fmt::Result {
        to.write_str(&self.text)
    }
}

/// The reason for which a call would be refused; none if it would be obeyed. Nothing changes. The
/// question is the one that [`explain`] says.
pub fn reason(image: &[u16], state: &State, message: &Message, lent: &[u16]) -> Option<Reason> {
    let (mut image_after, mut state_after) = (image.to_vec(), *state);
    let mut lent_after = lent.to_vec();
    let (_, question) = explain(&mut image_after, &mut state_after, message, &mut lent_after);
    let question = question?;
    let asked = Asked {
        image,
        state,
        message,
        lent,
    };
    let text = asked.text(question);
    Some(Reason { question, text })
}

/// A call that is refused.
struct Asked<'a> {
    image: &'a [u16],
    state: &'a State,
    message: &'a Message,
    lent: &'a [u16],
}

impl Asked<'_> {
    /// What holds where a question is answered no.
    fn text(&self, question: Question) -> String {
        match question {
            Question::UnitKnown | Question::AreaUnitKnown => self.unit_unknown(),
            Question::UnitSound | Question::AreaUnitSound => self.unsound(),
            Question::NameStands | Question::Entered => self.not_standing(),
            Question::Legal => self.illegal(),
            Question::Changeable => self.unchangeable(),
            Question::NameUnused => "the name is used by another file".into(),
            Question::EnoughFree => self.not_enough(),
            Question::FewStretches => self.many_stretches(),
            Question::ListingRoom => self.listing_room(),
            Question::DescriptionRoom => self.description_room(),
            other => self.of_area(other),
        }
    }

    /// The name that the call is about.
    fn name(&self) -> Name {
        let mut message = *self.message;
        message.name_mut().copied().unwrap_or_default()
    }

    /// The unit that the call is about.
    fn unit(&self) -> u16 {
        match *self.message {
            Message::Init { unit }
            | Message::UnitDescription { unit, .. }
            | Message::Listing { unit } => unit,
            _ => unit_of(self.name()),
        }
    }

    /// What stands on the unit, if it is sound.
    fn survey(&self) -> Option<Survey> {
        survey(self.image, self.state).ok()
    }

    fn unit_unknown(&self) -> String {
        if let Some(text) = unknown(self.unit(), self.state) {
            return text;
        }
        match self.message {
            Message::Init { .. } => areas_open(self.state),
            _ => "the unit is not initialized".into(),
        }
    }

    fn unsound(&self) -> String {
        let alone = !self.state.areas.iter().any(|area| area.live);
        match findings(self.image).first().filter(|_| alone) {
            Some(first) => {
                let number = first.rule.number();
                format!("the image is not a sound unit: rule {number}: {first}")
            }
            None => "the image is not sound with the area processes that are open".into(),
        }
    }

    /// No such name; one that differs in case only may stand.
    fn not_standing(&self) -> String {
        let Some(name) = legal(self.name()) else {
            return "the name is illegal, so that no file has it".into();
        };
        let survey = self.survey();
        let entries = survey.iter().flat_map(|survey| &survey.entries);
        let names = entries.map(|entry| entry.name());
        let others: Vec<Name> = names.filter(|&other| differ_in_case(name, other)).collect();
        let not_so = "does not stand in the catalog";
        in_other_case(name, &others, not_so, ["does", "do"])
            .unwrap_or_else(|| format!("the name {not_so}"))
    }
}

/// What is not so of a name and is so of others that differ from it in case only, if there are any;
/// the verb of one and of several.
fn in_other_case(name: Name, others: &[Name], not_so: &str, verbs: [&str; 2]) -> Option<String> {
    let verb = match others.len() {
        0 => return None,
        1 => verbs[0],
        _ => verbs[1],
    };
    let (name, others) = (name_text(name), names_text(others, 0));
    Some(format!("{name} {not_so}, {others} {verb}"))
}

/// A unit that is not the state's.
fn unknown(unit: u16, state: &State) -> Option<String> {
    match unit {
        4.. => Some(format!("the unit is not known: {unit} is not 0 to 3")),
        _ if unit != state.unit => Some(format!(
            "the unit is not known: this is unit {}, not {unit}",
            state.unit
        )),
        _ => None,
    }
}

/// The area processes that are open.
fn areas_open(state: &State) -> String {
    let open = state.areas.iter().filter(|area| area.live);
    let names: Vec<Name> = open.map(|area| area.name).collect();
    format!("an area process is open: {}", names_text(&names, 0))
}

/// Fewer words are lent than a call needs.
fn few_lent(needed: usize, lent: &[u16]) -> String {
    format!("fewer than {needed} words are lent: {}", lent.len())
}
