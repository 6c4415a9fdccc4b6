//! Calls that take slices for files of length 0, and for new ones of about as many slices as an index
//! block has descriptions.

use super::choice::{bare_in, several};
use super::{open_names, Call, Caller};
use crate::generate::names::in_message;
use crate::layout::{stretches, Kit, ENTRY, STRETCHES};
use crate::random::Random;
use crate::sound::{survey, Entry};
use crate::types::{Message, Name, State};

impl Caller {
    /// Change of a file of length 0 that gets one, often of a file that has slices all the same.
    pub(super) fn lengthen_empty(
        &self,
        random: &mut Random,
        image: &[u16],
        state: &State,
    ) -> Option<Call> {
        let survey = survey(image, state).ok()?;
        let empty = survey.entries.iter().filter(|entry| entry.words[7] == 0);
        let (bare, surplus): (Vec<&Entry>, Vec<&Entry>) =
            empty.partition(|entry| entry.slices.is_empty());
        let files = if surplus.is_empty() || random.chance(40) {
            bare
        } else {
            surplus
        };
        if files.is_empty() {
            return None;
        }
        let file = random.pick(&files);
        let name = in_message(random, file.name(), state.unit);
        // More than it has, or any.
        let length = if random.chance(60) {
            let held = survey.kit.s * file.slices.len();
            several(random, survey.kit.s) + held as u16
        } else {
            self.size(random, image)
        };
        Some(change(random, name, length))
    }

    /// Takes about 127 slices for a file that has none; where one has so many in one stretch, most of
    /// the time a call that gives them back.
    pub(super) fn long_file(
        &self,
        random: &mut Random,
        image: &[u16],
        state: &State,
    ) -> Option<Call> {
        let survey = survey(image, state).ok()?;
        let files = survey.entries.iter().filter(|entry| !entry.is_system());
        let files: Vec<&Entry> = files.collect();
        let size = long(random, &survey.kit);
        let open = open_names(state);
        let mut closed = files.iter().filter(|file| !open.contains(&file.name()));
        let whole = closed.find(|file| is_whole(file));
        if let Some(whole) = whole.filter(|_| random.chance(90)) {
            let name = in_message(random, whole.name(), state.unit);
            return Some(giving_back(random, name));
        }
        let bare = bare_in(&files, state);
        if !bare.is_empty() && random.chance(40) {
            let name = random.pick(&bare).name();
            let name = in_message(random, name, state.unit);
            return Some(change(random, name, size));
        }
        let name = self.unused(random, image, state);
        Some(entering(random, name, size))
    }
}

/// Whether a file has many slices, all in one stretch.
fn is_whole(entry: &Entry) -> bool {
    entry.slices.len() > STRETCHES / 2 && stretches(&entry.slices).len() == 1
}

/// A size of about 127 slices.
fn long(random: &mut Random, kit: &Kit) -> u16 {
    let slices = random.pick(&[127, 128, 128, 128, 129, 130]);
    (slices * kit.s - random.between(1, kit.s)) as u16
}

/// Remove, or Change to length 0.
fn giving_back(random: &mut Random, name: Name) -> Call {
    if random.chance(50) {
        return change(random, name, 0);
    }
    let (message, lent) = (Message::Remove { name }, Vec::new());
    Call { message, lent }
}

/// Change of the length, the name kept.
fn change(random: &mut Random, name: Name, length: u16) -> Call {
    let mut lent = random.words(ENTRY);
    let attributes = random.pick(&[0, 1, 1, 0xFFFF]);
    (lent[0], lent[6], lent[9]) = (0, attributes, length);
    let message = Message::Change { name };
    Call { message, lent }
}

/// Create or Set.
pub(super) fn entering(random: &mut Random, name: Name, size: u16) -> Call {
    let attributes = 1;
    if random.chance(35) {
        let message = Message::Create {
            name,
            size,
            attributes,
        };
        let lent = Vec::new();
        return Call { message, lent };
    }
    let mut lent = random.words(ENTRY);
    (lent[6], lent[9]) = (attributes, size);
    let message = Message::Set { name };
    Call { message, lent }
}
