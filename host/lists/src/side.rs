//! A unit as one implementation has it.

use reference::generate::{Call, RawCall, Unit};
use reference::layout::{legal, unit_of};
use reference::pairs::{call_name, Counts, FORMAT, NO_CALL};
use reference::raw::{explain_words, message_of, MessageWords};
use reference::{explain, explain_format, soundness, Answer, Message, Name, State};

use crate::state::{given_words, kept_words, state_of, words_of, StateWords};

/// One step of a list.
#[derive(Clone, PartialEq, Eq, Debug)]
pub enum Step {
    /// Format.
    Format {
        /// The byte count.
        bytes: u16,
        /// The lent record.
        record: Vec<u16>,
    },
    /// Any other call.
    Call(Call),
    /// A message of words, whose number may be no call's.
    Raw(RawCall),
}

impl Step {
    /// The message with its lent words, if the step is one of a call.
    pub(crate) fn message(&self) -> Option<(Message, &[u16])> {
        match self {
            Step::Format { .. } => None,
            Step::Call(call) => Some((call.message, &call.lent)),
            Step::Raw(call) => Some((message_of(&call.message).ok()?, &call.lent)),
        }
    }
}

/// The name of the file that a message to a known, initialized unit names.
pub(crate) fn named(message: &Message, unit: &Unit) -> Option<Name> {
    let mut message = *message;
    let name = message.name_mut().copied();
    name.filter(|name| knows(unit, unit_of(*name)))
        .and_then(legal)
}

/// Whether the unit is known under this number and initialized.
pub(crate) fn knows(unit: &Unit, number: u16) -> bool {
    number <= 3 && number == unit.state.unit && unit.state.initialized
}

/// An implementation with the unit that it works on.
pub trait Side {
    /// Takes a unit to work on, with the words of [`given_words`].
    fn set(&mut self, unit: &Unit);
    /// Formats the unit and answers the result word.
    fn format(&mut self, bytes: u16, record: &[u16]) -> u16;
    /// Carries out any other call and answers it.
    fn perform(&mut self, message: &Message, lent: &mut [u16]) -> Answer;
    /// Carries out a message of words and answers it.
    fn perform_raw(&mut self, message: &MessageWords, lent: &mut [u16]) -> Answer;
    /// Whether image and state are a sound unit.
    fn is_sound(&self) -> bool;
    /// The image.
    fn image(&self) -> &[u16];
    /// The words of the state.
    fn state(&self) -> StateWords;

    /// The unit.
    fn unit(&self) -> Unit {
        Unit {
            image: self.image().to_vec(),
            state: state_of(&self.state()),
        }
    }

    /// Carries out a step: the answer, and the lent words after it.
    fn put(&mut self, step: &Step) -> (Answer, Vec<u16>) {
        match step {
            Step::Format { bytes, record } => {
                let result = self.format(*bytes, record);
                let answer = Answer {
                    result,
                    ..Answer::default()
                };
                (answer, record.clone())
            }
            Step::Call(Call { message, lent }) => {
                let mut lent = lent.clone();
                (self.perform(message, &mut lent), lent)
            }
            Step::Raw(RawCall { message, lent }) => {
                let mut lent = lent.clone();
                (self.perform_raw(message, &mut lent), lent)
            }
        }
    }
}

/// The second implementation. It counts the words and questions that come up.
pub struct Second {
    /// What came up so far.
    pub counts: Counts,
    unit: Unit,
    words: StateWords,
}

impl Second {
    /// The unit, as it stands.
    pub fn current(&self) -> &Unit {
        &self.unit
    }

    /// The words of the state after a call: those that stand for the same value stay.
    fn keep_words(&mut self) {
        self.words = kept_words(&self.words, &self.unit.state);
    }
}

impl Default for Second {
    /// On an empty image.
    fn default() -> Second {
        Second {
            counts: Counts::default(),
            unit: Unit {
                image: Vec::new(),
                state: State::new(0),
            },
            words: words_of(&State::new(0)),
        }
    }
}

impl Side for Second {
    fn set(&mut self, unit: &Unit) {
        self.unit.clone_from(unit);
        self.words = given_words(unit);
    }

    fn format(&mut self, bytes: u16, record: &[u16]) -> u16 {
        let Unit { image, state } = &mut self.unit;
        let outcome = explain_format(image, state, bytes, record);
        let word = outcome.map_or_else(|question| question.word(), |()| 0);
        self.counts.add(FORMAT, word, outcome.err());
        self.keep_words();
        word
    }

    fn perform(&mut self, message: &Message, lent: &mut [u16]) -> Answer {
        let Unit { image, state } = &mut self.unit;
        let (answer, question) = explain(image, state, message, lent);
        self.counts.add(call_name(message), answer.result, question);
        self.keep_words();
        answer
    }

    fn perform_raw(&mut self, message: &MessageWords, lent: &mut [u16]) -> Answer {
        let Unit { image, state } = &mut self.unit;
        let (answer, question) = explain_words(image, state, message, lent);
        let name = message_of(message).map_or(NO_CALL, |message| call_name(&message));
        self.counts.add(name, answer.result, question);
        self.keep_words();
        answer
    }

    fn is_sound(&self) -> bool {
        soundness(&self.unit.image, &self.unit.state).is_ok()
    }

    fn image(&self) -> &[u16] {
        &self.unit.image
    }

    fn state(&self) -> StateWords {
        self.words
    }
}
