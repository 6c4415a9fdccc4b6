//! Calls that make SYS grow.

use super::choice::{bare_in, several};
use super::taking::entering;
use super::{Call, Caller};
use crate::generate::names::in_message;
use crate::layout::{key, ENTRY, PLACES};
use crate::random::Random;
use crate::sound::{survey, Entry, Survey};
use crate::types::{Message, Name, State};

impl Caller {
    /// Where the crowded key is full: a rename or a new file that makes SYS grow.
    pub(super) fn fill_full_key(
        &self,
        random: &mut Random,
        image: &[u16],
        state: &State,
    ) -> Option<Call> {
        let survey = survey(image, state).ok()?;
        let h = survey.kit.h;
        let of_key = |name: Name| key(name, h) == self.crowded_key % h;
        let full = survey.entries.iter().filter(|entry| of_key(entry.name()));
        let mut new = self.names.clone();
        new.retain(|name| of_key(*name) && survey.find(*name).is_none());
        if full.count() < PLACES * survey.layers || new.is_empty() {
            return None;
        }
        let name = random.pick(&new);
        let name = in_message(random, name, state.unit);
        if random.chance(45) {
            let size = several(random, survey.kit.s);
            return Some(entering(random, name, size));
        }
        let others = survey.entries.iter().filter(|entry| !of_key(entry.name()));
        let others: Vec<&Entry> = others.filter(|entry| !entry.is_system()).collect();
        let bare = bare_in(&others, state);
        if !bare.is_empty() && random.chance(80) {
            let lent = lengthening(random, &survey, name);
            return Some(rename(random.pick(&bare), state, lent));
        }
        let file = longest_or_any(random, &others)?;
        let lent = self.renaming(random, image, name, file.words[7]);
        Some(rename(file, state, lent))
    }

    /// The lent words that give a file of a length a new name; it keeps its length, takes slices or
    /// gives some back.
    fn renaming(&self, random: &mut Random, image: &[u16], name: Name, length: u16) -> Vec<u16> {
        let mut lent = random.words(ENTRY);
        lent[..3].copy_from_slice(&name);
        lent[6] = 0xFFFF;
        lent[9] = match random.below(4) {
            0 => 0xFFFF,
            1 => random.between(0, length as usize) as u16,
            2 => 0,
            _ => self.size(random, image),
        };
        lent
    }
}

/// The lent words that give a file a new name and several slices.
fn lengthening(random: &mut Random, survey: &Survey, name: Name) -> Vec<u16> {
    let mut lent = random.words(ENTRY);
    lent[..3].copy_from_slice(&name);
    lent[6] = random.pick(&[0, 1]);
    lent[9] = several(random, survey.kit.s);
    lent
}

fn rename(file: &Entry, state: &State, lent: Vec<u16>) -> Call {
    let mut name = file.name();
    name[2] |= state.unit & 0x00FF;
    let message = Message::Change { name };
    Call { message, lent }
}

/// One of the files, if there are any; often the one with the most slices.
fn longest_or_any<'a>(random: &mut Random, files: &[&'a Entry]) -> Option<&'a Entry> {
    let longest = files.iter().max_by_key(|e| e.slices.len())?;
    if random.chance(60) {
        Some(longest)
    } else {
        Some(random.pick(files))
    }
}
