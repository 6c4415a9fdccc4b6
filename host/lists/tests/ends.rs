//! A side that has a wrong word at the end of a file is found, by the random lists and by the
//! stored list of such ends.

mod common;

use common::{found, is_right, Otherwise};
use lists::{Second, Side};
use reference::generate::Unit;
use reference::pairs::call_name;
use reference::Question::{InputBelowExtendableEnd, InputBelowFixedEnd, PositionNotPast};
use reference::{explain, perform, Answer, Message, Question};

/// The word of a question that was answered no, by whether the file is extendable.
type Words = fn(Question, bool) -> u16;

/// Other words for one call.
struct OtherWords {
    call: &'static str,
    words: Words,
}

impl OtherWords {
    /// The word for a message of the call which is refused; none for others.
    fn word(&self, unit: &Unit, message: &Message, lent: &[u16]) -> Option<u16> {
        let Message::AreaMessage { name, .. } = *message else {
            return None;
        };
        let Unit { image, state } = &mut unit.clone();
        let mut entry = [0; 16];
        perform(image, state, &Message::LookUp { name }, &mut entry);
        let (_, question) = explain(image, state, message, &mut lent.to_vec());
        let is_chosen = call_name(message) == self.call;
        let word = |question| (self.words)(question, entry[6] & 1 == 1);
        question.filter(|_| is_chosen).map(word)
    }
}

impl Otherwise for OtherWords {
    fn put(&self, second: &mut Second, message: &Message, lent: &mut [u16]) -> Answer {
        let word = self.word(second.current(), message, lent);
        let answer = second.perform(message, lent);
        Answer {
            result: word.unwrap_or(answer.result),
            ..answer
        }
    }
}

/// The stored list of ends.
const ENDS: &str = include_str!("../stored/ends.list");

/// A wrong word and the right one.
type Difference = (u16, u16);

/// Whether a failure of the random lists tells of this difference.
fn is_told(failure: &str, (wrong, right): Difference) -> bool {
    let told =
        format!("result word: {wrong:04X}h from the proved library, {right:04X}h from the second");
    failure.contains(&told)
}

/// Whether a failure of the stored list does.
fn is_shown(failure: &str, (wrong, right): Difference) -> bool {
    let (line, replayed) = failure
        .split_once("  replayed ")
        .expect("both lines are told");
    line.contains(&format!("-> {right:04X}h")) && replayed.contains(&format!("-> {wrong:04X}h"))
}

/// Says that the random lists and the stored list find the words wrong, by one of the differences.
fn is_found(call: &'static str, words: Words, differences: &[Difference]) {
    let [random, stored] = found(call, || OtherWords { call, words }, ENDS);
    let told = differences.iter().any(|pair| is_told(&random, *pair));
    assert!(told, "{call}: {random}");
    let shown = differences.iter().any(|pair| is_shown(&stored, *pair));
    assert!(shown, "{call}: {stored}");
}

#[test]
fn the_right_words_are_no_difference() {
    for call in ["Transput 1", "Transput 5", "Transput 7", "Position"] {
        let words: Words = |question, _| question.word();
        is_right(|| OtherWords { call, words }, ENDS);
    }
}

#[test]
fn one_word_for_both_ends_is_found() {
    for call in ["Transput 1", "Transput 5"] {
        let as_before: Words = |question, _| match question {
            InputBelowFixedEnd => 0x0810,
            other => other.word(),
        };
        is_found(call, as_before, &[(0x0810, 0x0A00)]);
        let as_fixed: Words = |question, _| match question {
            InputBelowExtendableEnd => 0x0A00,
            other => other.word(),
        };
        is_found(call, as_fixed, &[(0x0A00, 0x0810)]);
    }
}

#[test]
fn the_two_ends_exchanged_are_found() {
    for call in ["Transput 1", "Transput 5"] {
        let words: Words = |question, _| match question {
            InputBelowFixedEnd => 0x0810,
            InputBelowExtendableEnd => 0x0A00,
            other => other.word(),
        };
        is_found(call, words, &[(0x0810, 0x0A00), (0x0A00, 0x0810)]);
    }
}

#[test]
fn position_past_a_fixed_end_is_no_end_of_input() {
    for call in ["Transput 5", "Transput 7", "Position"] {
        let words: Words = |question, is_extendable| match question {
            PositionNotPast if !is_extendable => 0x0A00,
            other => other.word(),
        };
        is_found(call, words, &[(0x0A00, 0x0810)]);
    }
}
