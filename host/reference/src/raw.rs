//! Messages as a C program sends them: twelve words.

use crate::types::{Answer, Message, Operation, State};
use crate::unit::{explain, Question};

/// The number of the call, the name (three words), unit, size, attributes, sender, operation,
/// number, bytes and block. Each call reads its own.
pub type MessageWords = [u16; 12];

/// The message that words ask for; a number above 10 is no call's.
pub fn message_of(words: &MessageWords) -> Result<Message, Question> {
    let [call, name @ .., unit, size, attributes, sender, operation, number, bytes, block] = *words;
    Ok(match call {
        0 => Message::Init { unit },
        1 => Message::Set { name },
        2 => Message::Create {
            name,
            size,
            attributes,
        },
        3 => Message::LookUp { name },
        4 => Message::Change { name },
        5 => Message::Remove { name },
        6 => Message::CreateArea { name },
        7 => Message::RemoveArea { name },
        8 => Message::AreaMessage {
            name,
            sender,
            operation: operation_of(operation, number, bytes, block),
        },
        9 => Message::UnitDescription { unit, bytes },
        10 => Message::Listing { unit },
        _ => return Err(Question::CallNumbered),
    })
}

/// What a message to an area process asks for; a number above 3 is an unknown operation.
fn operation_of(operation: u16, number: u16, bytes: u16, block: u16) -> Operation {
    match operation {
        0 => Operation::Reserve(number),
        1 => Operation::Position(block),
        2 => Operation::Sense,
        3 => Operation::Transput {
            operation: number,
            bytes,
            block,
        },
        _ => Operation::Other(number),
    }
}

/// The words of a message; those that it does not read are the ones given.
pub fn words_of(message: &Message, unread: &MessageWords) -> MessageWords {
    let mut words = *unread;
    words[0] = match *message {
        Message::Init { .. } => 0,
        Message::Set { .. } => 1,
        Message::Create { .. } => 2,
        Message::LookUp { .. } => 3,
        Message::Change { .. } => 4,
        Message::Remove { .. } => 5,
        Message::CreateArea { .. } => 6,
        Message::RemoveArea { .. } => 7,
        Message::AreaMessage { .. } => 8,
        Message::UnitDescription { .. } => 9,
        Message::Listing { .. } => 10,
    };
    match *message {
        Message::Set { name }
        | Message::LookUp { name }
        | Message::Change { name }
        | Message::Remove { name }
        | Message::CreateArea { name }
        | Message::RemoveArea { name } => words[1..4].copy_from_slice(&name),
        Message::Init { unit } | Message::Listing { unit } => words[4] = unit,
        Message::UnitDescription { unit, bytes } => (words[4], words[10]) = (unit, bytes),
        Message::Create {
            name,
            size,
            attributes,
        } => {
            words[1..4].copy_from_slice(&name);
            (words[5], words[6]) = (size, attributes);
        }
        Message::AreaMessage {
            name,
            sender,
            operation,
        } => {
            words[1..4].copy_from_slice(&name);
            words[7] = sender;
            put_operation(operation, &mut words);
        }
    }
    words
}

fn put_operation(operation: Operation, words: &mut MessageWords) {
    match operation {
        Operation::Reserve(count) => (words[8], words[9]) = (0, count),
        Operation::Position(block) => (words[8], words[11]) = (1, block),
        Operation::Sense => words[8] = 2,
        Operation::Transput {
            operation,
            bytes,
            block,
        } => (words[8], words[9], words[10], words[11]) = (3, operation, bytes, block),
        // Any number above 3 is one; the unread word says which.
        Operation::Other(number) => (words[8], words[9]) = (words[8].max(4), number),
    }
}

/// Carries out a message of words, answers it and says which question was answered no, if one
/// was. A number that no call has changes nothing.
pub fn explain_words(
    image: &mut [u16],
    state: &mut State,
    words: &MessageWords,
    lent: &mut [u16],
) -> (Answer, Option<Question>) {
    match message_of(words) {
        Ok(message) => explain(image, state, &message, lent),
        Err(question) => {
            let answer = Answer {
                result: question.word(),
                ..Answer::default()
            };
            (answer, Some(question))
        }
    }
}

#[cfg(test)]
mod tests {
    use super::*;
    use crate::generate::{raw, unit, Caller};
    use crate::random::Random;

    #[test]
    fn words_ask_for_their_message() {
        let random = &mut Random::new(12);
        let made = unit(random);
        let mut caller = Caller::new(random, &made.image, &made.state);
        for _ in 0..2_000 {
            let message = caller.call(random, &made.image, &made.state).message;
            let words = words_of(&message, &raw::any_words(random));
            assert_eq!(message_of(&words), Ok(message));
        }
    }

    #[test]
    fn eleven_numbers_are_calls() {
        for call in 0..=u16::MAX {
            let mut words = [0; 12];
            words[0] = call;
            assert_eq!(message_of(&words).is_ok(), call < 11, "{call}");
        }
    }
}
