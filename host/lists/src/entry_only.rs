//! How often calls met entry-only files, or gave the attribute that makes one.

use reference::generate::{open_names, Unit};
use reference::layout::{ENTRY, ENTRY_ONLY, EXTENDABLE, NEGATIVE};
use reference::{entries, Answer, Message, Name, Operation};

use crate::side::{knows, named};
use crate::table::{Row, Table};
use crate::Step;

/// What a call does with an entry-only file, or with bit 13.
#[derive(Clone, Copy, PartialEq, Eq, PartialOrd, Ord, Debug)]
pub enum Use {
    /// Set gives bit 13.
    SetGives,
    /// Create gives bit 13.
    CreateGives,
    /// Change gives bit 13 to an entry-only file.
    GivenAgain,
    /// Change gives bit 13 to another file that has no booked slices.
    GivenToBare,
    /// Change gives bit 13 to a file that has booked slices.
    GivenToSlices,
    /// Change keeps bit 13; name and length stay.
    Kept,
    /// Change keeps bit 13 and gives another name.
    KeptRenamed,
    /// Change keeps bit 13 and gives a length above 0.
    KeptLonger,
    /// Change gives attributes without bit 13; the length stays.
    Ordinary,
    /// Change gives attributes without bit 13 and a length above 0.
    OrdinaryLonger,
    /// Change gives attributes without bit 13 and with bit 15.
    Extendable,
    /// Look-up.
    LookUp,
    /// Remove.
    Remove,
    /// Area create.
    CreateArea,
    /// Area remove.
    RemoveArea,
    /// A message to the area process, no transput.
    Control,
    /// Input from the area process.
    Input,
    /// Output to the area process.
    Output,
    /// The listing of a unit that has one.
    Listing,
}

/// How often each use came up, accepted and refused.
pub type Uses = Table<Use>;

const OUTCOMES: [&str; 2] = ["accepted", "refused"];

impl Row for Use {
    const TITLE: &'static str = "entry-only files";
    const ROWS: &'static [Use] = &[
        Use::SetGives,
        Use::CreateGives,
        Use::GivenAgain,
        Use::GivenToBare,
        Use::GivenToSlices,
        Use::Kept,
        Use::KeptRenamed,
        Use::KeptLonger,
        Use::Ordinary,
        Use::OrdinaryLonger,
        Use::Extendable,
        Use::LookUp,
        Use::Remove,
        Use::CreateArea,
        Use::RemoveArea,
        Use::Control,
        Use::Input,
        Use::Output,
        Use::Listing,
    ];

    /// The outcomes that it may have. The file has no block and is not extendable, so that nothing
    /// is read or written; an area remove of a file has no question on a sound unit.
    fn columns(self) -> &'static [&'static str] {
        match self {
            Use::SetGives | Use::CreateGives => &OUTCOMES[1..],
            Use::GivenAgain | Use::GivenToBare | Use::GivenToSlices => &OUTCOMES[1..],
            Use::KeptLonger | Use::Input | Use::Output => &OUTCOMES[1..],
            Use::RemoveArea => &OUTCOMES[..1],
            _ => &OUTCOMES,
        }
    }
}

/// The column of an answer.
pub fn outcome(answer: Answer) -> &'static str {
    OUTCOMES[usize::from(answer.result != 0)]
}

/// The uses that a step makes on a sound unit, before it is put.
pub fn met(step: &Step, unit: &Unit) -> Vec<Use> {
    let Some((message, lent)) = step.message() else {
        return Vec::new();
    };
    if let Message::Listing { unit: number } = message {
        let is_one = |entry: &&[u16]| entry[6] & ENTRY_ONLY != 0;
        let listed = knows(unit, number) && entries(&unit.image).iter().any(is_one);
        return Vec::from_iter(listed.then_some(Use::Listing));
    }
    let Some(name) = named(&message, unit) else {
        return Vec::new();
    };
    match message {
        Message::Set { .. } => of_given(lent.get(6), Use::SetGives),
        Message::Create { attributes, .. } => of_given(Some(&attributes), Use::CreateGives),
        _ => of_standing(&message, unit, name, lent),
    }
}

/// Whether attributes that are given contain bit 13.
fn gives(attributes: u16) -> bool {
    attributes & (NEGATIVE | ENTRY_ONLY) == ENTRY_ONLY
}

fn of_given(attributes: Option<&u16>, given: Use) -> Vec<Use> {
    let is_given = attributes.is_some_and(|attributes| gives(*attributes));
    Vec::from_iter(is_given.then_some(given))
}

/// The uses of a message to a file that stands.
fn of_standing(message: &Message, unit: &Unit, name: Name, lent: &[u16]) -> Vec<Use> {
    let mut entries = entries(&unit.image).into_iter();
    let Some(entry) = entries.find(|entry| entry[..3] == name) else {
        return Vec::new();
    };
    let is_open = open_names(&unit.state).contains(&name);
    match message {
        Message::Change { .. } if lent.len() >= ENTRY => of_change(entry, lent),
        _ if entry[6] & ENTRY_ONLY == 0 => Vec::new(),
        Message::LookUp { .. } => vec![Use::LookUp],
        Message::Remove { .. } => vec![Use::Remove],
        Message::CreateArea { .. } => vec![Use::CreateArea],
        Message::RemoveArea { .. } => vec![Use::RemoveArea],
        Message::AreaMessage { operation, .. } if is_open => vec![of_operation(operation)],
        _ => Vec::new(),
    }
}

/// The uses of a Change of an entry.
fn of_change(entry: &[u16], lent: &[u16]) -> Vec<Use> {
    let is_one = entry[6] & ENTRY_ONLY != 0;
    let (attributes, length) = (lent[6], lent[9]);
    let is_longer = length & NEGATIVE == 0 && length > 0;
    // The sixth character of a lent name is ignored.
    let new = [lent[0], lent[1], lent[2] & 0xFF00];
    let is_renamed = lent[0] != 0 && new != entry[..3];
    match attributes & NEGATIVE {
        0 if gives(attributes) => vec![match (is_one, entry[9]) {
            (true, _) => Use::GivenAgain,
            (false, 0) => Use::GivenToBare,
            (false, _) => Use::GivenToSlices,
        }],
        _ if !is_one => Vec::new(),
        0 => {
            let length = [Use::Ordinary, Use::OrdinaryLonger][usize::from(is_longer)];
            let extendable = (attributes & EXTENDABLE != 0).then_some(Use::Extendable);
            [length].into_iter().chain(extendable).collect()
        }
        _ if is_longer => vec![Use::KeptLonger],
        _ if is_renamed => vec![Use::KeptRenamed],
        _ => vec![Use::Kept],
    }
}

fn of_operation(operation: &Operation) -> Use {
    match operation {
        Operation::Transput { operation, .. } => match operation {
            1 | 5 => Use::Input,
            3 | 7 | 19 => Use::Output,
            _ => Use::Control,
        },
        _ => Use::Control,
    }
}

#[cfg(test)]
mod tests {
    use super::*;
    use crate::{stored::replay, text::parse_step, Second, Side};

    /// NOTE is an entry only, OPEN another one, which is open; FIXED has a slice, BARE has none.
    fn unit() -> Unit {
        let mut side = Second::default();
        let lines = "disc 0 1 2 20 10\nfile NOTE 0004h 0 -\nfile OPEN 0004h 0 -\n\
                     file FIXED 0 1 2\nfile BARE 0 0 -\ncreate-area OPEN -> 0000h\n";
        replay(lines, &mut side).expect("the lines can be read");
        side.unit()
    }

    /// Says that these lines are these uses.
    fn are_told(lines: &[(&str, &[Use])]) {
        let unit = unit();
        for (line, uses) in lines {
            let step = parse_step(line).expect("a step");
            assert_eq!(met(&step, &unit), *uses, "{line}");
        }
    }

    #[test]
    fn what_is_given_and_kept_is_told() {
        are_told(&[
            ("set NEW lent 6*0 0004h 9*0", &[Use::SetGives]),
            ("set NEW lent 6*0 8004h 9*0", &[]),
            ("create NEW 0 7FFFh", &[Use::CreateGives]),
            ("create NEW 0 0", &[]),
            ("change NOTE lent 6*0 0014h 9*0", &[Use::GivenAgain]),
            ("change BARE lent 6*0 0004h 9*0", &[Use::GivenToBare]),
            ("change FIXED lent 6*0 0005h 9*0", &[Use::GivenToSlices]),
            ("change NOTE lent 6*0 8004h 9*0", &[Use::Kept]),
            ("change NOTE lent 6*0 FFFFh 2*0 FFFFh 6*0", &[Use::Kept]),
            ("change NOTE lent 16*FFFFh", &[Use::KeptRenamed]),
            (
                "change NOTE lent 4E4Fh 5445h 00EEh 3*0 FFFFh 9*0",
                &[Use::Kept],
            ),
            ("change NOTE lent 6*0 FFFFh 9*1", &[Use::KeptLonger]),
            ("change BARE lent 6*0 FFFFh 9*1", &[]),
            ("change NOTE lent 16*0", &[Use::Ordinary]),
            ("change NOTE lent 9*0 1 6*0", &[Use::OrdinaryLonger]),
            (
                "change NOTE lent 6*0 1 9*0",
                &[Use::Ordinary, Use::Extendable],
            ),
            ("change BARE lent 16*0", &[]),
            ("change NOTE lent 15*0", &[]),
        ]);
    }

    #[test]
    fn the_other_uses_are_told() {
        are_told(&[
            ("look-up NOTE", &[Use::LookUp]),
            ("look-up NOTE/1", &[]),
            ("look-up BARE", &[]),
            ("remove NOTE", &[Use::Remove]),
            ("create-area NOTE", &[Use::CreateArea]),
            ("remove-area NOTE", &[Use::RemoveArea]),
            ("sense OPEN 7", &[Use::Control]),
            ("sense NOTE 7", &[]),
            ("transput OPEN 7 2 512 0", &[Use::Control]),
            ("transput OPEN 7 5 512 0", &[Use::Input]),
            ("transput OPEN 7 19 512 0", &[Use::Output]),
            ("raw 5 4E4Fh 5445h 9*0", &[Use::Remove]),
            ("listing 0", &[Use::Listing]),
            ("listing 1", &[]),
            ("format 18", &[]),
        ]);
    }

    #[test]
    fn accepted_and_refused_are_kept_apart() {
        let mut uses = Uses::default();
        let answer = |result| Answer {
            result,
            ..Answer::default()
        };
        uses.add(vec![Use::Kept, Use::CreateGives], outcome(answer(0x1200)));
        uses.add(vec![Use::Kept], outcome(answer(0)));
        let table = uses.to_string();
        assert!(
            table.contains("  Kept            accepted 1  refused 1\n"),
            "{table}"
        );
        assert!(table.contains("  CreateGives     refused 1\n"), "{table}");
        assert_eq!(uses.missing().len(), 10 * 2 + 9 - 3);
        assert_eq!(uses.missing()[0], "refused SetGives");
        assert_eq!(uses.foreign(), [""; 0]);
        uses.add(vec![Use::CreateGives], outcome(answer(0)));
        assert_eq!(uses.foreign(), ["accepted CreateGives"]);
    }
}
