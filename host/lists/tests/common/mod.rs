//! What the test programs share: sides that do something otherwise than the second implementation,
//! and the lists that shall find them.
#![allow(dead_code)]

use lists::random::Lists;
use lists::state::{state_of, StateWords};
use lists::stored::first_difference;
use lists::{Second, Side};
use reference::generate::Unit;
use reference::layout::{Kit, ENTRY, SECTOR};
use reference::plain::Plain;
use reference::raw::{message_of, MessageWords};
use reference::Question::*;
use reference::{explain, Answer, Message, Question};

/// What a side shows after a call: image, words of the state and verdict.
pub struct Shown {
    pub image: Vec<u16>,
    pub state: StateWords,
    pub sound: bool,
}

impl Shown {
    fn of(second: &Second) -> Shown {
        Shown {
            image: second.image().to_vec(),
            state: second.state(),
            sound: second.is_sound(),
        }
    }
}

/// What is done otherwise.
pub trait Otherwise {
    /// Puts a message in its own way.
    fn put(&self, second: &mut Second, message: &Message, lent: &mut [u16]) -> Answer {
        second.perform(message, lent)
    }

    /// Changes what is shown after a call.
    fn show(&self, _put: &Put, _answer: &mut Answer, _lent: &mut [u16], _shown: &mut Shown) {}
}

/// A call that was put: the unit before it, and how many calls there were with it.
pub struct Put {
    pub before: Unit,
    pub calls: u64,
}

/// The second implementation with something done otherwise.
pub struct Wrong<O> {
    second: Second,
    shown: Shown,
    otherwise: O,
}

impl<O: Otherwise> Wrong<O> {
    pub fn new(otherwise: O) -> Wrong<O> {
        let second = Second::default();
        Wrong {
            shown: Shown::of(&second),
            second,
            otherwise,
        }
    }

    fn show(&mut self, before: Unit, answer: &mut Answer, lent: &mut [u16]) {
        self.shown = Shown::of(&self.second);
        let calls = self.second.counts.calls;
        let put = Put { before, calls };
        self.otherwise.show(&put, answer, lent, &mut self.shown);
    }
}

impl<O: Otherwise> Side for Wrong<O> {
    fn set(&mut self, unit: &Unit) {
        self.second.set(unit);
        self.shown = Shown::of(&self.second);
    }

    fn format(&mut self, bytes: u16, record: &[u16]) -> u16 {
        let before = self.second.current().clone();
        let mut answer = Answer {
            result: self.second.format(bytes, record),
            ..Answer::default()
        };
        self.show(before, &mut answer, &mut []);
        answer.result
    }

    fn perform(&mut self, message: &Message, lent: &mut [u16]) -> Answer {
        let before = self.second.current().clone();
        let mut answer = self.otherwise.put(&mut self.second, message, lent);
        self.show(before, &mut answer, lent);
        answer
    }

    fn perform_raw(&mut self, message: &MessageWords, lent: &mut [u16]) -> Answer {
        if let Ok(message) = message_of(message) {
            return self.perform(&message, lent);
        }
        let before = self.second.current().clone();
        let mut answer = self.second.perform_raw(message, lent);
        self.show(before, &mut answer, lent);
        answer
    }

    fn is_sound(&self) -> bool {
        self.shown.sound
    }

    fn image(&self) -> &[u16] {
        &self.shown.image
    }

    fn state(&self) -> StateWords {
        self.shown.state
    }
}

/// What the random lists and a stored list find wrong of a side: the failure of each.
pub fn found<O: Otherwise>(what: &str, otherwise: impl Fn() -> O, stored: &str) -> [String; 2] {
    let mut lists = Lists::new(Wrong::new(otherwise()), 7);
    let random = lists.run(100_000).expect_err(what).to_string();
    let stored = first_difference(stored, &mut Wrong::new(otherwise())).expect_err(what);
    [random, stored]
}

/// Says that neither the random lists nor a stored list find a side wrong.
pub fn is_right<O: Otherwise>(otherwise: impl Fn() -> O, stored: &str) {
    let mut lists = Lists::new(Wrong::new(otherwise()), 7);
    assert!(lists.run(5_000).is_ok());
    let stored = first_difference(stored, &mut Wrong::new(otherwise()));
    assert_eq!(stored, Ok(()));
}

/// How a message is put.
pub type Putting = fn(&mut Second, &Message, &mut [u16]) -> Answer;
/// How what is shown after an accepted call differs, by the unit before it.
pub type Showing = fn(&Unit, &mut Shown);

/// A side that puts messages or shows what they did in its own way.
#[derive(Clone, Copy)]
pub struct Own {
    pub put: Putting,
    pub show: Showing,
}

/// The side that does nothing otherwise.
pub const RIGHT: Own = Own {
    put: |second, message, lent| second.perform(message, lent),
    show: |_, _| (),
};

impl Otherwise for Own {
    fn put(&self, second: &mut Second, message: &Message, lent: &mut [u16]) -> Answer {
        (self.put)(second, message, lent)
    }

    fn show(&self, put: &Put, answer: &mut Answer, _: &mut [u16], shown: &mut Shown) {
        if answer.result == 0 && put.before.state.initialized {
            (self.show)(&put.before, shown);
        }
    }
}

/// The calls by their numbers, as lists write them; those to an area process share one.
const CALLS: [&[&str]; 11] = [
    &["init"],
    &["set"],
    &["create"],
    &["look-up"],
    &["change"],
    &["remove"],
    &["create-area"],
    &["remove-area"],
    &["reserve", "position", "sense", "transput", "other"],
    &["description"],
    &["listing"],
];

/// Whether a failure of the random lists is at a call of this number, in one of its forms.
fn is_at(failure: &str, number: u16) -> bool {
    let raw = format!("raw {number}");
    let mut forms = CALLS[usize::from(number)]
        .iter()
        .copied()
        .chain([raw.as_str()]);
    forms.any(|form| failure.contains(&format!("  the call: {form} ")))
}

/// Says that the random lists find the side wrong at a call of one of these numbers, and that a
/// stored list does at this line.
pub fn is_found(list: &str, side: Own, calls: &[u16], line: &str) {
    let [random, stored] = found(line, || side, list);
    let told = calls.iter().any(|call| is_at(&random, *call));
    assert!(told, "{line}: {random}");
    let shown = stored.contains(&format!("  stored   {line}"));
    assert!(shown, "{line}: {stored}");
}

/// The question that a message is refused at, if it is.
pub fn question(second: &Second, message: &Message, lent: &[u16]) -> Option<Question> {
    let Unit { image, state } = &mut second.current().clone();
    explain(image, state, message, &mut lent.to_vec()).1
}

pub fn answer(result: u16) -> Answer {
    Answer {
        result,
        ..Answer::default()
    }
}

/// Whether a message is accepted or refused at a question from this one on, of those of a name that
/// is entered.
pub fn passes(second: &Second, message: &Message, lent: &[u16], from: Question) -> bool {
    let asked = question(second, message, lent);
    asked.is_none_or(|question| (from..=FewStretches).contains(&question))
}

/// Refuses whatever asks for soundness where the unit is of some kind.
pub fn refuse_where(
    second: &mut Second,
    message: &Message,
    lent: &mut [u16],
    wrong: fn(&Unit) -> bool,
) -> Answer {
    let asked = question(second, message, lent);
    let is_known = !matches!(asked, Some(UnitKnown | AreaUnitKnown));
    if !is_known || !wrong(second.current()) {
        return second.perform(message, lent);
    }
    let unsound = match message {
        Message::CreateArea { .. } | Message::RemoveArea { .. } => AreaUnitSound,
        Message::AreaMessage { .. } => AreaUnitSound,
        _ => UnitSound,
    };
    answer(unsound.word())
}

/// Where the places of SYS begin, or those of a key.
pub fn places(shown: &Shown, key: Option<usize>) -> Vec<usize> {
    let state = state_of(&shown.state);
    let plain = Plain::read(&shown.image, &state).expect("a sound unit");
    let kit = Kit::read(&shown.image);
    let blocks = (0..kit.h * plain.layers).filter(|block| key.is_none_or(|k| block % kit.h == k));
    let sectors = blocks.map(|block| SECTOR * kit.sys_sector(&plain.sys, block));
    sectors
        .flat_map(|from| (from..from + SECTOR).step_by(ENTRY))
        .collect()
}
