//! Which result words are allowed to each call, and a count of those that came up.

use std::collections::{BTreeMap, BTreeSet};
use std::fmt;

use crate::types::{Message, Operation};
use crate::unit::Question::{self, *};

/// The name of Format in the table.
pub const FORMAT: &str = "Format";
/// The name of a message whose number is no call's.
pub const NO_CALL: &str = "No call";

/// The name of a message in the table.
pub fn call_name(message: &Message) -> &'static str {
    match message {
        Message::Init { .. } => "Init",
        Message::Set { .. } => "Set",
        Message::Create { .. } => "Create",
        Message::LookUp { .. } => "LookUp",
        Message::Change { .. } => "Change",
        Message::Remove { .. } => "Remove",
        Message::CreateArea { .. } => "CreateArea",
        Message::RemoveArea { .. } => "RemoveArea",
        Message::UnitDescription { .. } => "UnitDescription",
        Message::Listing { .. } => "Listing",
        Message::AreaMessage { operation, .. } => operation_name(operation),
    }
}

fn operation_name(operation: &Operation) -> &'static str {
    match operation {
        Operation::Reserve(0) => "Reserve 0",
        Operation::Reserve(2) => "Reserve 2",
        Operation::Reserve(3) => "Reserve 3",
        Operation::Reserve(4) => "Reserve 4",
        Operation::Reserve(_) => "Reserve ?",
        Operation::Position(_) => "Position",
        Operation::Sense => "Sense",
        Operation::Transput { operation, .. } => match operation {
            1 => "Transput 1",
            3 => "Transput 3",
            5 => "Transput 5",
            7 => "Transput 7",
            19 => "Transput 19",
            _ => "Transput ?",
        },
        Operation::Other(_) => "Other",
    }
}

/// A call with the words that it may answer.
#[derive(Clone, Debug)]
pub struct Row {
    /// The call's name.
    pub call: &'static str,
    /// Whether 0 may come.
    pub accepted: bool,
    /// The other words, each with a question whose no gives it.
    pub refusals: Vec<(u16, Question)>,
}

impl Row {
    /// The result words that may come.
    pub fn words(&self) -> BTreeSet<u16> {
        let accepted = self.accepted.then_some(0);
        let refusals = self.refusals.iter().map(|(word, _)| *word);
        accepted.into_iter().chain(refusals).collect()
    }
}

type Refusals = &'static [(u16, Question)];

// Groups of questions that calls share, with the words that documents 01 and 02 write
// beside them.

const CATALOG: Refusals = &[(0x1200, UnitKnown), (0x9000, UnitSound)];
const STANDING: Refusals = &[(0x5000, NameStands)];
const LEGAL: Refusals = &[(0x1200, Legal)];
const CHANGEABLE: Refusals = &[(0x1200, Changeable)];
const ENTERING: Refusals = &[
    (0x1010, NameUnused),
    (0x1100, EnoughFree),
    (0x1008, FewStretches),
];
const AREA: Refusals = &[(0x0A00, AreaUnitKnown), (0x8800, AreaUnitSound)];
const NOT_SYSTEM: Refusals = &[(0x0A00, NotSystem)];
const MESSAGE: Refusals = &[
    (0x4800, Open),
    (0x0200, NoExclusiveUser),
    (0x0810, SenderNotZero),
];
const UNKNOWN: Refusals = &[(0x0A00, OperationKnown)];
const USER_ENTRY: Refusals = &[(0x0808, UserEntry)];
const USER: Refusals = &[(0x0810, SenderUser)];
const MOVE: Refusals = &[(0x0A00, PositionNotNegative), (0x0810, PositionNotPast)];
const ROOM: Refusals = &[(0x0880, TransputRoom)];
const INPUT: Refusals = &[
    (0x0A00, InputBelowFixedEnd),
    (0x0810, InputBelowExtendableEnd),
];
const OUTPUT: Refusals = &[
    (0x0A00, OutputAllowed),
    (0x0C00, NotProtected),
    (0x0A00, Extendable),
    (0x0900, SliceFree),
    (0x0808, AppendStretches),
];

fn row(call: &'static str, accepted: bool, groups: &[Refusals]) -> Row {
    Row {
        call,
        accepted,
        refusals: groups.concat(),
    }
}

/// Every pair of call and result word that documents 01 and 02 allow, with the questions that
/// give it; and the one pair of a number that no call has.
pub fn allowed() -> Vec<Row> {
    let mut rows = catalog_rows();
    rows.extend(area_rows());
    rows.push(row(NO_CALL, false, &[&[(0xFFFF, CallNumbered)]]));
    rows
}

/// Format, the catalog messages, Get Unit Description and the listing.
fn catalog_rows() -> Vec<Row> {
    vec![
        row(
            FORMAT,
            true,
            &[&[(0x1080, FormatRoom)], &[(0x1200, FormatLegal)]],
        ),
        row("Init", true, &[CATALOG]),
        row("Set", true, &[CATALOG, LEGAL, ENTERING]),
        row("Create", true, &[CATALOG, LEGAL, ENTERING]),
        row("LookUp", true, &[CATALOG, STANDING, LEGAL]),
        row(
            "Change",
            true,
            &[CATALOG, STANDING, LEGAL, CHANGEABLE, ENTERING],
        ),
        row("Remove", true, &[CATALOG, STANDING, CHANGEABLE]),
        row(
            "UnitDescription",
            true,
            &[CATALOG, &[(0x1200, DescriptionRoom)]],
        ),
        row("Listing", true, &[CATALOG, &[(0x1200, ListingRoom)]]),
    ]
}

/// Area create, area remove and the area messages.
fn area_rows() -> Vec<Row> {
    let create: Refusals = &[(0x4800, Entered), (0x0900, DescriptorVacant)];
    let reserve2: Refusals = &[(0x0A00, NoOtherWriter)];
    let reserve4: Refusals = &[(0x0A00, NoOtherUser)];
    let to_area = |call, accepted, groups: &[Refusals]| {
        row(call, accepted, &[&[AREA, MESSAGE], groups].concat())
    };
    vec![
        row("CreateArea", true, &[AREA, NOT_SYSTEM, create]),
        row("RemoveArea", true, &[AREA, NOT_SYSTEM]),
        to_area("Reserve 0", true, &[USER]),
        to_area("Reserve 2", true, &[reserve2, USER_ENTRY]),
        to_area("Reserve 3", true, &[USER_ENTRY]),
        to_area("Reserve 4", true, &[reserve4, USER_ENTRY]),
        to_area("Reserve ?", false, &[UNKNOWN]),
        to_area("Position", true, &[USER, MOVE]),
        to_area("Sense", true, &[USER]),
        to_area("Transput 1", true, &[USER, ROOM, INPUT]),
        // After Position has passed, input can still stand at the length.
        to_area("Transput 5", true, &[USER, ROOM, MOVE, INPUT]),
        to_area("Transput 3", true, &[USER, ROOM, OUTPUT]),
        to_area("Transput 7", true, &[USER, ROOM, MOVE, OUTPUT]),
        to_area("Transput 19", true, &[USER, ROOM, OUTPUT]),
        to_area("Transput ?", false, &[UNKNOWN]),
        to_area("Other", false, &[UNKNOWN]),
    ]
}

/// How often each result word and each question came up, by call.
#[derive(Clone, Default, Debug)]
pub struct Counts {
    /// By call and result word.
    pub words: BTreeMap<(&'static str, u16), u64>,
    /// By call and question answered no.
    pub questions: BTreeMap<(&'static str, Question), u64>,
    /// All calls.
    pub calls: u64,
}

impl Counts {
    /// Counts one call.
    pub fn add(&mut self, call: &'static str, word: u16, question: Option<Question>) {
        self.calls += 1;
        *self.words.entry((call, word)).or_default() += 1;
        if let Some(question) = question {
            *self.questions.entry((call, question)).or_default() += 1;
        }
    }

    /// The allowed words and questions that never came up.
    pub fn missing(&self) -> Vec<String> {
        let mut missing = Vec::new();
        for row in allowed() {
            let words = row.words().into_iter();
            let words = words.filter(|&word| !self.words.contains_key(&(row.call, word)));
            missing.extend(words.map(|word| format!("{} {word:04X}h", row.call)));
            let questions = row.refusals.iter().map(|(_, question)| *question);
            let questions = questions.filter(|&q| !self.questions.contains_key(&(row.call, q)));
            missing.extend(questions.map(|question| format!("{} {question:?}", row.call)));
        }
        missing
    }

    /// The words and questions that came up and are not allowed.
    pub fn foreign(&self) -> Vec<String> {
        let rows = allowed();
        let row = |call: &str| rows.iter().find(|row| row.call == call);
        let is_word = |call: &str, word| row(call).is_some_and(|row| row.words().contains(&word));
        let asks = |row: &Row, question| row.refusals.iter().any(|(_, q)| *q == question);
        let is_asked = |call: &str, question| row(call).is_some_and(|row| asks(row, question));
        let words = self
            .words
            .keys()
            .filter(|(call, word)| !is_word(call, *word));
        let questions = self.questions.keys();
        let questions = questions.filter(|(call, question)| !is_asked(call, *question));
        let words = words.map(|(call, word)| format!("{call} {word:04X}h"));
        let questions = questions.map(|(call, question)| format!("{call} {question:?}"));
        words.chain(questions).collect()
    }

    /// A line for a word that several questions give a call: how often each of them gave it.
    fn write_questions(&self, f: &mut fmt::Formatter<'_>, row: &Row, word: u16) -> fmt::Result {
        let questions = row.refusals.iter().filter(|(given, _)| *given == word);
        let count = |question| self.questions.get(&(row.call, question)).unwrap_or(&0);
        let counted = questions.map(|(_, question)| format!("{question:?} {}", count(*question)));
        let counted: Vec<String> = counted.collect();
        if counted.len() < 2 {
            return Ok(());
        }
        writeln!(f, "{:18}{word:04X}h: {}", "", counted.join(", "))
    }
}

impl fmt::Display for Counts {
    /// A line for each call: its words, and how often each came up. Below it a line for each of
    /// them that several questions give.
    fn fmt(&self, f: &mut fmt::Formatter<'_>) -> fmt::Result {
        for row in allowed() {
            write!(f, "{:16}", row.call)?;
            for word in row.words() {
                let count = self.words.get(&(row.call, word)).unwrap_or(&0);
                write!(f, "  {word:04X}h {count}")?;
            }
            writeln!(f)?;
            for word in row.words() {
                self.write_questions(f, &row, word)?;
            }
        }
        Ok(())
    }
}

#[cfg(test)]
mod tests {
    use super::*;

    #[test]
    fn the_words_are_those_of_the_questions() {
        for row in allowed() {
            for (word, question) in &row.refusals {
                assert_eq!(*word, question.word(), "{} {question:?}", row.call);
            }
        }
    }

    #[test]
    fn missing_and_foreign_words_are_named() {
        let mut counts = Counts::default();
        for row in allowed() {
            for (word, question) in &row.refusals {
                counts.add(row.call, *word, Some(*question));
            }
            if row.accepted {
                counts.add(row.call, 0, None);
            }
        }
        assert_eq!((counts.missing(), counts.foreign()), (vec![], vec![]));
        counts.words.remove(&("Create", 0x1100));
        counts.questions.remove(&("Sense", SenderUser));
        assert_eq!(counts.missing(), ["Create 1100h", "Sense SenderUser"]);
        counts.add("Sense", 0x0880, Some(TransputRoom));
        assert_eq!(counts.foreign(), ["Sense 0880h", "Sense TransputRoom"]);
    }

    #[test]
    fn a_word_that_several_questions_give_is_told_by_question() {
        let mut counts = Counts::default();
        for question in [AreaUnitKnown, InputBelowFixedEnd, InputBelowFixedEnd] {
            counts.add("Transput 1", 0x0A00, Some(question));
        }
        counts.add("Transput 1", 0x0810, Some(InputBelowExtendableEnd));
        counts.add("Transput 1", 0x4800, Some(Open));
        let table = counts.to_string();
        let lines = table.lines();
        let mut lines = lines.skip_while(|line| !line.starts_with("Transput 1 "));
        let words = lines.next().unwrap_or_default();
        assert!(words.contains("  0810h 1  0880h 0  0A00h 3  4800h 1"));
        let questions: Vec<&str> = lines.by_ref().take(2).map(str::trim_start).collect();
        let expected = [
            "0810h: SenderNotZero 0, SenderUser 0, InputBelowExtendableEnd 1",
            "0A00h: AreaUnitKnown 1, InputBelowFixedEnd 2",
        ];
        assert_eq!(questions, expected);
        assert!(lines
            .next()
            .is_some_and(|line| line.starts_with("Transput 5 ")));
    }
}
