//! Lists of calls.

mod area;
mod catalog;
mod choice;
mod full_key;
mod taking;

use super::names::names_of;
use crate::layout::{key, stretches, MAP, SYS};
use crate::random::Random;
use crate::sound::{survey, Survey};
use crate::types::{Message, Name, State};

/// A call with the words that it lends.
#[derive(Clone, PartialEq, Eq, Debug)]
pub struct Call {
    /// The message.
    pub message: Message,
    /// The lent words.
    pub lent: Vec<u16>,
}

/// Makes calls to one unit, one after the other.
#[derive(Clone, Debug)]
pub struct Caller {
    names: Vec<Name>,
    senders: Vec<u16>,
    mix: Mix,
    fixed_mix: bool,
    crowded_key: usize,
    sizes: Sizes,
}

/// Which calls are made most often.
#[derive(Clone, Copy, PartialEq, Eq, Debug)]
enum Mix {
    /// Enters and changes.
    Enter,
    /// Fills a key with small files, by new names and by renaming.
    Fill,
    /// Removes more than it enters.
    Clear,
    /// Opens, reads and writes.
    Areas,
    /// All calls.
    Mixed,
}

/// Which sizes are asked for.
#[derive(Clone, Copy, PartialEq, Eq, Debug)]
enum Sizes {
    /// Mostly small ones.
    Small,
    /// Often as many slices as an index has descriptions.
    Stretches,
}

/// The kinds of calls.
#[derive(Clone, Copy, PartialEq, Eq, Debug)]
enum Kind {
    Init,
    Set,
    Create,
    LookUp,
    Change,
    Remove,
    CreateArea,
    RemoveArea,
    Area,
    Description,
    Listing,
}

/// The kinds in the order of [`Mix::weights`].
const KINDS: [Kind; 11] = [
    Kind::Init,
    Kind::Set,
    Kind::Create,
    Kind::LookUp,
    Kind::Change,
    Kind::Remove,
    Kind::CreateArea,
    Kind::RemoveArea,
    Kind::Area,
    Kind::Description,
    Kind::Listing,
];

impl Mix {
    /// How often each of the kinds comes.
    fn weights(self) -> [usize; 11] {
        match self {
            Mix::Enter => [1, 12, 40, 4, 22, 8, 2, 2, 6, 1, 1],
            Mix::Fill => [1, 10, 50, 2, 30, 1, 1, 1, 2, 1, 1],
            Mix::Clear => [1, 2, 6, 4, 16, 40, 2, 20, 25, 1, 1],
            Mix::Areas => [1, 1, 4, 1, 3, 2, 8, 4, 90, 1, 1],
            Mix::Mixed => [1, 5, 12, 4, 12, 8, 6, 6, 40, 2, 2],
        }
    }

    /// One of the kinds, by their weights.
    fn kind(self, random: &mut Random) -> Kind {
        let weights = self.weights();
        let mut draw = random.below(weights.iter().sum());
        for (weight, kind) in weights.into_iter().zip(KINDS) {
            if draw < weight {
                return kind;
            }
            draw -= weight;
        }
        unreachable!("the draw is below the sum of the weights")
    }
}

impl Caller {
    /// A caller that knows some of the names that stand in the image and some that do not.
    pub fn new(random: &mut Random, image: &[u16], state: &State) -> Caller {
        let (h, mut known, sizes) = match survey(image, state) {
            Ok(survey) => (survey.kit.h, names_in(&survey), sizes_for(&survey)),
            Err(_) => (random.between(1, 8), vec![SYS, MAP], Sizes::Small),
        };
        let crowded_key = key(random.pick(&known), h);
        while known.len() > 40 {
            let place = random.below(known.len());
            known.swap_remove(place);
        }
        let fixed_mix = sizes == Sizes::Small && random.chance(25);
        let number = if fixed_mix {
            120
        } else {
            random.pick(&[6, 12, 30, 45, 60])
        };
        known.extend(names_of(random, h, number, crowded_key));
        Caller {
            names: known,
            senders: vec![1, 2, 3, 4, 0xFFFF],
            mix: first_mix(random, state, fixed_mix),
            fixed_mix,
            crowded_key,
            sizes,
        }
    }

    /// The next call. Image and state are only read to choose it.
    pub fn call(&mut self, random: &mut Random, image: &[u16], state: &State) -> Call {
        if !self.fixed_mix && random.chance(5) {
            self.mix = random.pick(&[
                Mix::Enter,
                Mix::Fill,
                Mix::Clear,
                Mix::Areas,
                Mix::Areas,
                Mix::Mixed,
            ]);
        }
        let mut kind = self.mix.kind(random);
        let fills = match self.mix {
            Mix::Fill => 90,
            Mix::Enter => 60,
            Mix::Mixed => 40,
            _ => 0,
        };
        if random.chance(fills) {
            if let Some(call) = self.fill_full_key(random, image, state) {
                return call;
            }
        }
        let long = if self.mix == Mix::Areas { 10 } else { 60 };
        if self.sizes == Sizes::Stretches && random.chance(long) {
            if let Some(call) = self.long_file(random, image, state) {
                return call;
            }
        }
        if kind == Kind::Area && open_names(state).is_empty() && random.chance(80) {
            kind = Kind::CreateArea;
        }
        self.call_of(random, image, state, kind)
    }
}

/// The mix that a caller begins with.
fn first_mix(random: &mut Random, state: &State, fixed: bool) -> Mix {
    if fixed {
        Mix::Fill
    } else if open_names(state).is_empty() {
        random.pick(&[Mix::Enter, Mix::Fill, Mix::Mixed])
    } else {
        Mix::Areas
    }
}

/// The sizes to ask for: by stretches where SYS or a file lies in many.
fn sizes_for(survey: &Survey) -> Sizes {
    let crowded = |slices: &[usize]| stretches(slices).len() > 60;
    if crowded(&survey.sys) || survey.entries.iter().any(|e| crowded(&e.slices)) {
        Sizes::Stretches
    } else {
        Sizes::Small
    }
}

/// The names in the catalog.
fn names_in(survey: &Survey) -> Vec<Name> {
    survey.entries.iter().map(|e| e.name()).collect()
}

/// The names of the open area processes.
pub fn open_names(state: &State) -> Vec<Name> {
    let open = state.areas.iter().filter(|area| area.live);
    open.map(|area| area.name).collect()
}
