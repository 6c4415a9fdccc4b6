//! A side that takes names in two cases for one is found, by the random lists and by the stored
//! list of such names. Each side does so in one place only, but for the first, which folds names as
//! they were folded before.

mod common;

use common::{answer, is_found, is_right, passes, places, question, refuse_where};
use common::{Own, Putting, Showing, Shown, RIGHT};
use lists::{Second, Side};
use reference::generate::{open_names, Unit};
use reference::layout::{key, Kit, MAP, SYS};
use reference::raw::words_of;
use reference::Question::*;
use reference::{entered, Answer, Message, Name};
use ruzkemp::sys::call::*;

/// The stored list of names that differ in case only.
const CASES: &str = include_str!("../stored/cases.list");

/// [`is_found`] of a side that only puts messages otherwise.
fn is_found_put(put: Putting, calls: &[u16], line: &str) {
    is_found(CASES, Own { put, ..RIGHT }, calls, line);
}

/// [`is_found`] of a side that only shows otherwise what they did.
fn is_found_shown(show: Showing, line: &str) {
    let calls = [SET, CREATE, CHANGE];
    is_found(CASES, Own { show, ..RIGHT }, &calls, line);
}

/// The name in capitals, sixth character as it is.
fn folded(name: Name) -> Name {
    name.map(|word| {
        let [high, low] = word.to_be_bytes();
        u16::from_be_bytes([high.to_ascii_uppercase(), low.to_ascii_uppercase()])
    })
}

/// The name without its sixth character.
fn bare(name: Name) -> Name {
    [name[0], name[1], name[2] & 0xFF00]
}

/// The first of the names that is equal to another after folding, with that one's sixth character.
fn first_of(names: impl IntoIterator<Item = Name>, name: Name) -> Option<Name> {
    let wanted = folded(bare(name));
    let mut names = names.into_iter();
    let found = names.find(|one| folded(*one) == wanted)?;
    Some([found[0], found[1], found[2] | (name[2] & 0x00FF)])
}

/// The name of the first area process that a folded search finds.
fn first_open(unit: &Unit, name: Name) -> Option<Name> {
    first_of(open_names(&unit.state), name)
}

/// The first entry that a folded search finds in the sectors of the name's key.
fn first_entered(unit: &Unit, name: Name) -> Option<Name> {
    let key_of = |name: Name| key(bare(name), Kit::read(&unit.image).h);
    let mut names = entered(&unit.image);
    names.retain(|one| key_of(*one) == key_of(name));
    first_of(names, name)
}

/// Puts a message with another name, if it has one and is of a unit that passes the first questions.
fn put_named(
    second: &mut Second,
    message: &Message,
    lent: &mut [u16],
    find: fn(&Unit, Name) -> Option<Name>,
) -> Answer {
    let mut other = *message;
    let asked = question(second, message, lent);
    let early = [UnitKnown, UnitSound, AreaUnitKnown, AreaUnitSound];
    if !asked.is_some_and(|question| early.contains(&question)) {
        if let Some(name) = other.name_mut() {
            *name = find(second.current(), *name).unwrap_or(*name);
        }
    }
    second.perform(&other, lent)
}

#[test]
fn names_as_given_are_no_difference() {
    is_right(|| RIGHT, CASES);
}

/// Small letters count as their capitals, as they did before.
#[test]
fn names_in_capitals_are_found() {
    let put: Putting = |second, message, lent| {
        let mut other = *message;
        if let Some(name) = other.name_mut() {
            *name = folded(*name);
        }
        let mut entry = lent.to_vec();
        if let (Message::Change { .. }, Some(new)) = (message, entry.first_chunk_mut()) {
            *new = folded(*new);
            return second.perform(&other, &mut entry);
        }
        second.perform(&other, lent)
    };
    let calls: Vec<u16> = (SET..=AREA_MESSAGE).collect();
    is_found_put(put, &calls, "create Pass 1 0001h -> 0000h");
}

/// The unit's places with a name that was not there before: the first word of each.
fn new_places(before: &Unit, shown: &Shown) -> Vec<usize> {
    let old = entered(&before.image);
    let new = entered(&shown.image).into_iter();
    let new: Vec<Name> = new.filter(|name| !old.contains(name)).collect();
    let from = places(shown, None).into_iter();
    from.filter(|&from| new.iter().any(|name| shown.image[from..from + 3] == *name))
        .collect()
}

#[test]
fn capitals_stored_are_found() {
    let show: Showing = |before, shown| {
        for from in new_places(before, shown) {
            let words = &mut shown.image[from..from + 3];
            let capitals = folded([words[0], words[1], words[2]]);
            words.copy_from_slice(&capitals);
        }
    };
    is_found_shown(show, "create Pass 1 0001h -> 0000h");
}

#[test]
fn a_folded_key_is_found() {
    let show: Showing = |before, shown| {
        for from in new_places(before, shown) {
            let entry: [u16; 16] = shown.image[from..from + 16].try_into().expect("16 words");
            let name = folded([entry[0], entry[1], entry[2]]);
            let of_key = places(shown, Some(key(name, Kit::read(&shown.image).h)));
            shown.image[from..from + 16].fill(0);
            let is_unused = |from: &&usize| shown.image[**from..**from + 16] == [0; 16];
            let to = of_key.iter().find(is_unused).copied().unwrap_or(from);
            shown.image[to..to + 16].copy_from_slice(&entry);
        }
    };
    // 'Pass' has PASS's key; 'pass' has not.
    is_found_shown(show, "change Pass lent 7061h 7373h ");
}

/// Puts the messages of one call to the first entry that a folded search finds.
fn put_folded<const CALL: u16>(second: &mut Second, message: &Message, lent: &mut [u16]) -> Answer {
    if words_of(message, &[0; 12])[0] == CALL {
        put_named(second, message, lent, first_entered)
    } else {
        second.perform(message, lent)
    }
}

#[test]
fn a_folded_search_of_the_catalog_is_found() {
    is_found_put(put_folded::<LOOK_UP>, &[LOOK_UP], "look-up Pass ");
    is_found_put(put_folded::<CHANGE>, &[CHANGE], "change Pass ");
    is_found_put(put_folded::<REMOVE>, &[REMOVE], "remove PASS -> 5000h");
    is_found_put(
        put_folded::<CREATE_AREA>,
        &[CREATE_AREA],
        "create-area Pass ",
    );
}

#[test]
fn a_folded_search_for_the_new_name_is_found() {
    let put: Putting = |second, message, lent| match *message {
        Message::Create { name, .. } | Message::Set { name }
            if passes(second, message, lent, NameUnused)
                && first_entered(second.current(), name).is_some() =>
        {
            answer(NameUnused.word())
        }
        _ => second.perform(message, lent),
    };
    is_found_put(put, &[SET, CREATE], "create Pass 1 0001h -> 0000h");
    let put: Putting = |second, message, lent| match *message {
        Message::Change { name } if passes(second, message, lent, NameUnused) => {
            let new = [lent[0], lent[1], lent[2]];
            let renames = lent[0] != 0 && bare(new) != bare(name);
            if renames && first_entered(second.current(), new).is_some() {
                return answer(NameUnused.word());
            }
            second.perform(message, lent)
        }
        _ => second.perform(message, lent),
    };
    // 'pass' is alone in key 1; 'pAss' would stand in key 2 beside PASS.
    is_found_put(put, &[CHANGE], "change pass lent 5061h 7373h ");
}

#[test]
fn a_folded_search_of_the_area_processes_is_found() {
    let put: Putting = |second, message, lent| match message {
        Message::AreaMessage { .. } => put_named(second, message, lent, first_open),
        _ => second.perform(message, lent),
    };
    is_found_put(put, &[AREA_MESSAGE], "sense Pass 7 -> 4800h");
    let put: Putting = |second, message, lent| match *message {
        Message::RemoveArea { name } if ![SYS, MAP].contains(&bare(name)) => {
            put_named(second, message, lent, first_open)
        }
        _ => second.perform(message, lent),
    };
    is_found_put(put, &[REMOVE_AREA], "remove-area Pass -> 0000h");
    let put: Putting = |second, message, lent| match *message {
        Message::CreateArea { name }
            if matches!(
                question(second, message, lent),
                None | Some(DescriptorVacant)
            ) && first_open(second.current(), name).is_some() =>
        {
            answer(0)
        }
        _ => second.perform(message, lent),
    };
    is_found_put(put, &[CREATE_AREA], "create-area Pass -> 0000h state");
    let put: Putting = |second, message, lent| match *message {
        Message::Change { name } | Message::Remove { name }
            if passes(second, message, lent, Changeable)
                && first_open(second.current(), name).is_some() =>
        {
            answer(Changeable.word())
        }
        _ => second.perform(message, lent),
    };
    is_found_put(put, &[CHANGE, REMOVE], "change Pass lent 7061h 7373h ");
}

/// A new name that differs from the own one in case only is taken for the same.
#[test]
fn a_rename_in_case_only_that_is_none_is_found() {
    let put: Putting = |second, message, lent| match *message {
        Message::Change { name } if lent.len() >= 16 => {
            let mut entry = lent.to_vec();
            if folded(bare([lent[0], lent[1], lent[2]])) == folded(bare(name)) {
                entry[0] = 0;
            }
            second.perform(message, &mut entry)
        }
        _ => second.perform(message, lent),
    };
    is_found_put(put, &[CHANGE], "change Pass lent 5041h 5353h ");
}

#[test]
fn sound_units_with_small_letters_or_names_in_two_cases_that_are_refused_are_found() {
    let calls: Vec<u16> = (INIT..=LISTING).collect();
    let put: Putting = |second, message, lent| {
        refuse_where(second, message, lent, |unit| {
            let names = entered(&unit.image);
            names.iter().any(|name| *name != folded(*name))
        })
    };
    is_found_put(put, &calls, "create PASS 0 0 -> 1010h");
    let put: Putting = |second, message, lent| {
        refuse_where(second, message, lent, |unit| {
            let names = entered(&unit.image);
            let twice = |name: &&Name| first_of(names.iter().copied(), **name) != Some(**name);
            names.iter().any(|name| twice(&name))
        })
    };
    is_found_put(put, &calls, "create PASS 0 0 -> 1010h");
}
