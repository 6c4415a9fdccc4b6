//! How often calls met names that differ in case only.

use reference::generate::{open_names, Unit};
use reference::pairs::call_name;
use reference::text::differ_in_case;
use reference::{entered, Message, Name};

use crate::side::named;
use crate::table::{Row, Table};
use crate::Step;

/// What a call met that names a file of a sound unit.
#[derive(Clone, Copy, PartialEq, Eq, PartialOrd, Ord, Debug)]
pub enum Case {
    /// The name stands, and so does one that differs in case only.
    BothStand,
    /// Only one that differs in case only stands.
    OtherStands,
    /// An area process of the name is open, and one of a name that differs in case only.
    BothOpen,
    /// Only one of a name that differs in case only is open.
    OtherOpen,
    /// Change: the new name is the old one in another case.
    NewIsOwn,
    /// Change: the new name is another file's in another case.
    NewIsAnothers,
}

const AREA_MESSAGE: &str = "AreaMessage";

/// How often each case came up, by call.
pub type Cases = Table<Case>;

impl Row for Case {
    const TITLE: &'static str = "names that differ in case only";
    const ROWS: &'static [Case] = &[
        Case::BothStand,
        Case::OtherStands,
        Case::BothOpen,
        Case::OtherOpen,
        Case::NewIsOwn,
        Case::NewIsAnothers,
    ];

    /// The calls by which it is counted.
    fn columns(self) -> &'static [&'static str] {
        const ALL: [&str; 8] = [
            "Set",
            "Create",
            "LookUp",
            "Change",
            "Remove",
            "CreateArea",
            "RemoveArea",
            AREA_MESSAGE,
        ];
        match self {
            Case::BothStand | Case::OtherStands => &ALL,
            Case::BothOpen | Case::OtherOpen => &ALL[3..],
            Case::NewIsOwn | Case::NewIsAnothers => &ALL[3..4],
        }
    }
}

/// Counts what a step meets on a sound unit, before it is put.
pub fn count(cases: &mut Cases, step: &Step, unit: &Unit) {
    let Some((message, lent)) = step.message() else {
        return;
    };
    let Some(name) = named(&message, unit) else {
        return;
    };
    let call = match message {
        Message::AreaMessage { .. } => AREA_MESSAGE,
        _ => call_name(&message),
    };
    let mut met = met(unit, &message, name, lent);
    met.retain(|case| case.columns().contains(&call));
    cases.add(met, call);
}

/// The cases that a message of a name meets.
fn met(unit: &Unit, message: &Message, name: Name, lent: &[u16]) -> Vec<Case> {
    let standing = entered(&unit.image);
    let open = open_names(&unit.state);
    let among = |names: &[Name], both: Case, other: Case| {
        let is_other = names.iter().any(|one| differ_in_case(*one, name));
        let case = if names.contains(&name) { both } else { other };
        is_other.then_some(case)
    };
    let mut cases = Vec::new();
    cases.extend(among(&standing, Case::BothStand, Case::OtherStands));
    cases.extend(among(&open, Case::BothOpen, Case::OtherOpen));
    if matches!(message, Message::Change { .. }) && standing.contains(&name) {
        cases.extend(of_new_name(&standing, name, lent));
    }
    cases
}

/// The cases of the new name that a Change of a standing name lends.
fn of_new_name(standing: &[Name], old: Name, lent: &[u16]) -> Vec<Case> {
    let Some(new) = lent.first_chunk().filter(|new: &&Name| new[0] != 0) else {
        return Vec::new();
    };
    let mut others = standing.iter().filter(|one| **one != old);
    let mut cases = Vec::new();
    if differ_in_case(old, *new) {
        cases.push(Case::NewIsOwn);
    }
    if others.any(|one| differ_in_case(*one, *new)) {
        cases.push(Case::NewIsAnothers);
    }
    cases
}

#[cfg(test)]
mod tests {
    use super::*;
    use crate::{stored::replay, text::parse_step, Second, Side};

    /// PASS and Pass entered, PASS open, and after these lines.
    fn unit(lines: &str) -> Unit {
        let mut side = Second::default();
        let begin = "disc 0 3 2 20 10\nfile PASS 0001h 1 3\nfile Pass 0001h 1 4\n\
                     create-area PASS -> 0000h\n";
        replay(&(begin.to_string() + lines), &mut side).expect("the lines can be read");
        side.unit()
    }

    /// The line of a case in the table of what these lines met on a unit.
    fn counted(case: &str, unit: &Unit, lines: &[&str]) -> String {
        let mut cases = Cases::default();
        for line in lines {
            count(&mut cases, &parse_step(line).expect("a step"), unit);
        }
        let table = cases.to_string();
        let line = table
            .lines()
            .find(|line| line.trim_start().starts_with(case));
        line.expect(case).to_string()
    }

    #[test]
    fn what_is_met_is_counted_by_call() {
        let lines = [
            "look-up PASS lent 16*0",
            "look-up pass lent 16*0",
            "look-up NONE lent 16*0",
            "look-up PASS/1 lent 16*0",
            "look-up SYS lent 16*0",
            "create sys 0 0",
            "sense Pass 7",
            "sense PASS 7",
            "change Pass lent 7061h 7373h 14*0",
            "change Pass lent 16*0",
            "change SYS lent 7061h 7373h 14*0",
            "raw 3 7061h 7373h 9*0 lent 16*0",
        ];
        let one_open = unit("");
        let line = |case: &str| counted(case, &one_open, &lines);
        assert!(line("BothStand").contains("LookUp 1  Change 2  Remove 0"));
        assert!(line("BothStand").ends_with("AreaMessage 2"));
        assert!(line("OtherStands").contains("Create 1  LookUp 2  Change 0"));
        assert!(line("OtherOpen")
            .ends_with("Change 2  Remove 0  CreateArea 0  RemoveArea 0  AreaMessage 1"));
        assert!(line("BothOpen").ends_with("AreaMessage 0"));
        assert!(line("NewIsOwn").ends_with("Change 1"));
        assert!(line("NewIsAnothers").ends_with("Change 2"));
    }

    #[test]
    fn two_open_areas_are_counted() {
        let both_open = unit("create-area Pass -> 0000h\n");
        let lines = ["sense Pass 7", "sense PASS 7", "sense pass 7"];
        let line = |case: &str| counted(case, &both_open, &lines);
        assert!(line("BothOpen").ends_with("AreaMessage 2"));
        assert!(line("OtherOpen").ends_with("AreaMessage 1"));
    }

    #[test]
    fn cases_that_never_came_up_are_named() {
        let cases = Cases::default();
        assert_eq!(cases.missing().len(), 8 + 8 + 5 + 5 + 1 + 1);
        assert_eq!(cases.missing()[0], "Set BothStand");
    }
}
