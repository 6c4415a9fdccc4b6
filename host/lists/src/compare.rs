//! What two implementations show after a call, compared.

use std::fmt;

use reference::layout::SECTOR;
use reference::Answer;

use crate::state::{self, StateWords};
use crate::Side;

/// What an implementation shows after a call.
#[derive(Clone, Copy)]
pub struct Seen<'a> {
    /// The answer.
    pub answer: Answer,
    /// The lent words.
    pub lent: &'a [u16],
    /// The image.
    pub image: &'a [u16],
    /// The state.
    pub state: StateWords,
    /// Whether they are a sound unit.
    pub sound: bool,
}

impl<'a> Seen<'a> {
    /// What a side shows after it gave this answer and these lent words.
    pub fn of(side: &'a impl Side, answer: Answer, lent: &'a [u16]) -> Seen<'a> {
        Seen {
            answer,
            lent,
            image: side.image(),
            state: side.state(),
            sound: side.is_sound(),
        }
    }
}

/// The first thing that differs.
#[derive(Clone, PartialEq, Eq, Debug)]
pub struct Difference {
    /// Which answer, word or verdict it is.
    pub place: String,
    /// What the proved library has.
    pub proved: u32,
    /// What the second implementation has.
    pub second: u32,
}

impl fmt::Display for Difference {
    fn fmt(&self, f: &mut fmt::Formatter<'_>) -> fmt::Result {
        let Difference {
            place,
            proved,
            second,
        } = self;
        write!(
            f,
            "{place}: {proved:04X}h from the proved library, {second:04X}h from the second implementation"
        )
    }
}

/// The first difference between the two sides, if there is one. A unit that was sound before the
/// call must be so after it, even where the sides agree.
pub fn compare(was_sound: bool, proved: &Seen, second: &Seen) -> Option<Difference> {
    let in_image = |word| format!("image sector {} word {}", word / SECTOR, word % SECTOR);
    let in_state = |word| format!("state {}", state::place(word));
    let in_lent = |word| format!("lent word {word}");
    first_answer(proved.answer, second.answer)
        .or_else(|| first_word(proved.lent, second.lent, in_lent))
        .or_else(|| first_word(proved.image, second.image, in_image))
        .or_else(|| first_word(&proved.state, &second.state, in_state))
        .or_else(|| {
            let place = "soundness after the call".into();
            differing(place, proved.sound.into(), second.sound.into())
        })
        .or_else(|| {
            (was_sound && !second.sound).then(|| Difference {
                place: "soundness of a unit that was sound before".into(),
                proved: 0,
                second: 0,
            })
        })
}

fn differing(place: String, proved: u32, second: u32) -> Option<Difference> {
    (proved != second).then_some(Difference {
        place,
        proved,
        second,
    })
}

fn first_answer(proved: Answer, second: Answer) -> Option<Difference> {
    let numbers = [
        ("result word", proved.result.into(), second.result.into()),
        ("byte count", proved.bytes.into(), second.bytes.into()),
        ("block", proved.block.into(), second.block.into()),
        ("number of entries", proved.entries, second.entries),
    ];
    let mut numbers = numbers.into_iter();
    numbers.find_map(|(place, proved, second)| differing(place.into(), proved, second))
}

/// The first word that differs; past the end of the shorter list the numbers of words.
fn first_word(
    proved: &[u16],
    second: &[u16],
    place: impl Fn(usize) -> String,
) -> Option<Difference> {
    if proved == second {
        return None;
    }
    let pairs = proved.iter().zip(second);
    let word = pairs
        .take_while(|(proved, second)| proved == second)
        .count();
    match (proved.get(word), second.get(word)) {
        (Some(&proved), Some(&second)) => differing(place(word), proved.into(), second.into()),
        _ => {
            let place = format!("number of words, from {} on", place(word));
            differing(place, proved.len() as u32, second.len() as u32)
        }
    }
}
