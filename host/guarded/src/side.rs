//! The proved library on images whose sectors 0 to 5 allow no access.

use lists::state::{given_words, words_of, StateWords};
use lists::text::step_text;
use lists::{answer_of, message_of, mirror_of, mirror_words, raw_message_of, Side, Step};
use reference::generate::{Call, RawCall, Unit};
use reference::raw::MessageWords;
use reference::{Answer, Message, State};
use ruzkemp::sys::{UnitMessage, UnitState};

use crate::memory::{GuardedImage, UNTOUCHED};

/// The proved library with the unit that it works on.
pub struct Guarded {
    image: GuardedImage,
    state: UnitState,
    /// The image for comparing. Its sectors 0 to 5 are as they were given, which the second
    /// implementation leaves so too.
    shown: Vec<u16>,
    /// Whether each call is printed before it is put.
    trace: bool,
}

impl Guarded {
    /// On an empty image.
    pub fn new(trace: bool) -> Guarded {
        Guarded {
            image: GuardedImage::new(&[]),
            state: mirror_of(&words_of(&State::new(0))),
            shown: Vec::new(),
            trace,
        }
    }

    fn tell(&self, step: impl Fn() -> Step) {
        if self.trace {
            println!("{}", step_text(&step()));
        }
    }

    fn show(&mut self) {
        if let Some(shown) = self.shown.get_mut(UNTOUCHED..) {
            shown.copy_from_slice(self.image.accessible());
        }
    }

    fn call(&mut self, message: UnitMessage, lent: &mut [u16]) -> Answer {
        let answer = self.image.perform(&mut self.state, lent, message);
        self.show();
        answer_of(answer.into())
    }
}

impl Side for Guarded {
    fn set(&mut self, unit: &Unit) {
        self.image = GuardedImage::new(&unit.image);
        self.state = mirror_of(&given_words(unit));
        self.shown.clone_from(&unit.image);
    }

    fn format(&mut self, bytes: u16, record: &[u16]) -> u16 {
        self.tell(|| {
            let record = record.to_vec();
            Step::Format { bytes, record }
        });
        let result = self.image.format(&mut self.state, record, bytes);
        self.show();
        result
    }

    fn perform(&mut self, message: &Message, lent: &mut [u16]) -> Answer {
        self.tell(|| {
            let (message, lent) = (*message, lent.to_vec());
            Step::Call(Call { message, lent })
        });
        self.call((&message_of(message)).into(), lent)
    }

    fn perform_raw(&mut self, message: &MessageWords, lent: &mut [u16]) -> Answer {
        self.tell(|| {
            let (message, lent) = (*message, lent.to_vec());
            Step::Raw(RawCall { message, lent })
        });
        self.call(raw_message_of(message), lent)
    }

    fn is_sound(&self) -> bool {
        if self.trace {
            println!("sound?");
        }
        self.image.sound(&self.state)
    }

    fn image(&self) -> &[u16] {
        &self.shown
    }

    fn state(&self) -> StateWords {
        mirror_words(&self.state)
    }
}
