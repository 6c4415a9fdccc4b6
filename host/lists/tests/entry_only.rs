//! A side that still makes entry-only files, or does not use those of old discs as before, is found, by
//! the random lists and by the stored list of such files (02, R-9).

mod common;

use common::{answer, is_found, passes, places, question, refuse_where};
use common::{Own, Putting, Showing, RIGHT};
use lists::{Second, Side};
use reference::generate::Unit;
use reference::layout::{legal, ENTRY, ENTRY_ONLY, EXTENDABLE, NEGATIVE};
use reference::raw::words_of;
use reference::Question::*;
use reference::{entries, Answer, Message, Name};
use ruzkemp::sys::call::*;

/// The stored list of entry-only files.
const LIST: &str = include_str!("../stored/entry-only.list");

/// [`is_found`] of a side that only puts messages otherwise.
fn is_found_put(put: Putting, calls: &[u16], line: &str) {
    is_found(LIST, Own { put, ..RIGHT }, calls, line);
}

/// Whether a message is one of a call.
fn is_of(call: u16, message: &Message) -> bool {
    words_of(message, &[0; 12])[0] == call
}

/// The entry of a name, if it stands.
fn entry(unit: &Unit, name: Name) -> Option<Vec<u16>> {
    let name = legal(name)?;
    let mut entries = entries(&unit.image).into_iter();
    entries
        .find(|entry| entry[..3] == name)
        .map(<[u16]>::to_vec)
}

/// The entry of the entry-only file that a message names.
fn entry_only(second: &Second, message: &Message) -> Option<Vec<u16>> {
    let mut message = *message;
    let entry = entry(second.current(), *message.name_mut()?)?;
    Some(entry).filter(|entry| entry[6] & ENTRY_ONLY != 0)
}

/// The attributes that a message gives.
fn given(message: &Message, lent: &[u16]) -> Option<u16> {
    let attributes = match message {
        Message::Create { attributes, .. } => Some(*attributes),
        Message::Set { .. } | Message::Change { .. } => lent.get(6).copied(),
        _ => None,
    };
    attributes.filter(|attributes| attributes & NEGATIVE == 0)
}

/// A message that gives bit 13, put without it.
fn put_without(second: &mut Second, message: &Message, lent: &[u16]) -> Answer {
    let (mut other, mut lent) = (*message, lent.to_vec());
    if let Message::Create { attributes, .. } = &mut other {
        *attributes &= !ENTRY_ONLY;
    } else {
        lent[6] &= !ENTRY_ONLY;
    }
    second.perform(&other, &mut lent)
}

/// Whether a message is refused for bit 13, which it gives, and was accepted before R-9: without bit
/// 15, and with no slices after it.
fn was_accepted(second: &Second, message: &Message, lent: &[u16]) -> bool {
    let attributes = given(message, lent).unwrap_or_default();
    let both = attributes & (ENTRY_ONLY | EXTENDABLE);
    let is_short = !matches!(message, Message::Create { .. }) && lent.len() < ENTRY;
    if question(second, message, lent) != Some(Legal) || both != ENTRY_ONLY || is_short {
        return false;
    }
    match *message {
        Message::Create { size, .. } => size == 0,
        Message::Change { name } => {
            let entry = entry(second.current(), name).expect("question 3 has passed");
            let is_kept = lent[9] & NEGATIVE != 0 || lent[9] == entry[7];
            if is_kept {
                entry[9] == 0
            } else {
                lent[9] == 0
            }
        }
        _ => lent[9] == 0,
    }
}

/// Answers 0 to the messages of one call that were accepted before R-9.
fn put_as_before<const CALL: u16>(
    second: &mut Second,
    message: &Message,
    lent: &mut [u16],
) -> Answer {
    if is_of(CALL, message) && was_accepted(second, message, lent) {
        put_without(second, message, lent)
    } else {
        second.perform(message, lent)
    }
}

#[test]
fn bit_13_that_set_or_create_gives_is_found() {
    let line = "create NEW 0 0004h -> 1200h";
    is_found_put(put_as_before::<CREATE>, &[CREATE], line);
    let line = "set NEW lent 6*0 0004h 9*0 -> 1200h";
    is_found_put(put_as_before::<SET>, &[SET], line);
}

/// Answers 0 to a Change that gives bit 13 and was accepted before R-9, by what the file has.
fn put_change(
    second: &mut Second,
    message: &Message,
    lent: &mut [u16],
    meant: fn(&[u16]) -> bool,
) -> Answer {
    if let Message::Change { name } = *message {
        let entry = entry(second.current(), name);
        if entry.is_some_and(|entry| meant(&entry)) && was_accepted(second, message, lent) {
            return put_without(second, message, lent);
        }
    }
    second.perform(message, lent)
}

#[test]
fn bit_13_that_change_gives_is_found() {
    let again: Putting = |second, message, lent| {
        put_change(second, message, lent, |entry| entry[6] & ENTRY_ONLY != 0)
    };
    let line = "change NOTE lent 6*0 0004h 2*0 FFFFh 6*0 -> 1200h";
    is_found_put(again, &[CHANGE], line);
    let to_bare: Putting = |second, message, lent| {
        put_change(second, message, lent, |entry| {
            entry[6] & ENTRY_ONLY == 0 && entry[9] == 0
        })
    };
    let line = "change BARE lent 6*0 0004h 2*0 FFFFh 6*0 -> 1200h";
    is_found_put(to_bare, &[CHANGE], line);
    let to_slices: Putting =
        |second, message, lent| put_change(second, message, lent, |entry| entry[9] != 0);
    let line = "change FIXED lent 6*0 0004h 2*0 0 6*0 -> 1200h";
    is_found_put(to_slices, &[CHANGE], line);
}

#[test]
fn bit_13_judged_at_another_question_is_found() {
    // Before the third.
    let put: Putting = |second, message, lent| {
        let is_absent = question(second, message, lent) == Some(NameStands);
        match given(message, lent) {
            Some(attributes) if is_absent && attributes & ENTRY_ONLY != 0 => answer(Legal.word()),
            _ => second.perform(message, lent),
        }
    };
    let line = "change NONE lent 6*0 0004h 2*0 FFFFh 6*0 -> 5000h";
    is_found_put(put, &[CHANGE], line);
    // After all others.
    let put: Putting = |second, message, lent| {
        let attributes = given(message, lent).unwrap_or_default();
        if attributes & ENTRY_ONLY == 0 {
            return second.perform(message, lent);
        }
        let mut other = Second::default();
        other.set(second.current());
        let refused = put_without(&mut other, message, lent);
        let answered = second.perform(message, lent);
        match refused.result {
            0 => answered,
            result => answer(result),
        }
    };
    let calls = [SET, CREATE, CHANGE];
    is_found_put(put, &calls, "create NOTE 0 0004h -> 1200h");
}

#[test]
fn kept_attributes_that_are_refused_are_found() {
    // Those of an entry-only file.
    let put: Putting = |second, message, lent| match message {
        Message::Change { .. }
            if passes(second, message, lent, Changeable)
                && given(message, lent).is_none()
                && entry_only(second, message).is_some() =>
        {
            answer(Legal.word())
        }
        _ => second.perform(message, lent),
    };
    let line = "change NOTE lent 4241h 5245h 4*0 FFFFh 2*0 FFFFh 6*0 -> 1010h";
    is_found_put(put, &[CHANGE], line);
    // Those of another, where the negative word has bit 13.
    let put: Putting = |second, message, lent| match message {
        Message::Change { .. }
            if passes(second, message, lent, Changeable)
                && lent[6] & (NEGATIVE | ENTRY_ONLY) == NEGATIVE | ENTRY_ONLY
                && entry_only(second, message).is_none() =>
        {
            answer(Legal.word())
        }
        _ => second.perform(message, lent),
    };
    let line = "change BARE lent 6*0 8004h 2*0 FFFFh 6*0 -> 0000h";
    is_found_put(put, &[CHANGE], line);
}

/// A Change that keeps bit 13 gives the file slices.
#[test]
fn slices_of_an_entry_only_file_are_found() {
    let put: Putting = |second, message, lent| {
        let is_refused = question(second, message, lent) == Some(Legal);
        match entry_only(second, message) {
            Some(entry) if is_refused && lent.len() >= ENTRY && lent[6] & NEGATIVE != 0 => {
                let mut lent = lent.to_vec();
                lent[6] = entry[6] & !ENTRY_ONLY;
                second.perform(message, &mut lent)
            }
            _ => second.perform(message, lent),
        }
    };
    let line = "change NOTE lent 6*0 FFFFh 2*0 1 6*0 -> 1200h";
    is_found_put(put, &[CHANGE], line);
}

/// Refuses a Change that makes an entry-only file ordinary, with one of the lengths.
fn put_refusing(
    second: &mut Second,
    message: &Message,
    lent: &mut [u16],
    meant: fn(u16) -> bool,
) -> Answer {
    let is_meant = matches!(message, Message::Change { .. })
        && passes(second, message, lent, Changeable)
        && given(message, lent).is_some()
        && entry_only(second, message).is_some();
    if is_meant && meant(lent[9]) {
        answer(Legal.word())
    } else {
        second.perform(message, lent)
    }
}

#[test]
fn an_entry_only_file_that_is_not_made_ordinary_is_found() {
    let put: Putting = |second, message, lent| put_refusing(second, message, lent, |_| true);
    let line = "change NOTE lent 3*0 1 2 3 0000h 2*0 FFFFh 1984h 12 4*0 -> 0000h";
    is_found_put(put, &[CHANGE], line);
    // Only with a length in the same message.
    let put: Putting = |second, message, lent| {
        put_refusing(second, message, lent, |length| {
            (1..NEGATIVE).contains(&length)
        })
    };
    let line = "change NOTE lent 6*0 0000h 2*0 8 6*0 -> 1100h";
    is_found_put(put, &[CHANGE], line);
}

#[test]
fn bit_13_that_stays_is_found() {
    let show: Showing = |before, shown| {
        for from in places(shown, None) {
            let place = &shown.image[from..from + ENTRY];
            let old = entry(before, [place[0], place[1], place[2]]);
            if old.is_some_and(|old| old[6] & ENTRY_ONLY != 0) {
                shown.image[from + 6] |= ENTRY_ONLY;
            }
        }
    };
    let line = "change NOTE lent 3*0 1 2 3 0000h 2*0 FFFFh 1984h 12 4*0 -> 0000h";
    is_found(LIST, Own { show, ..RIGHT }, &[CHANGE], line);
}

/// Refuses the messages of one call to an entry-only file.
fn put_refused<const CALL: u16>(
    second: &mut Second,
    message: &Message,
    lent: &mut [u16],
) -> Answer {
    let is_meant = is_of(CALL, message)
        && question(second, message, lent).is_none()
        && entry_only(second, message).is_some();
    if is_meant {
        answer(Legal.word())
    } else {
        second.perform(message, lent)
    }
}

#[test]
fn a_use_that_is_refused_is_found() {
    is_found_put(put_refused::<LOOK_UP>, &[LOOK_UP], "look-up NOTE lent 17*9");
    is_found_put(put_refused::<REMOVE>, &[REMOVE], "remove NOTE -> 0000h");
    is_found_put(
        put_refused::<CREATE_AREA>,
        &[CREATE_AREA],
        "create-area NOTE -> 0000h state",
    );
}

/// Leaves the entry-only files out of a listing.
fn put_listing_short(second: &mut Second, message: &Message, lent: &mut [u16]) -> Answer {
    let before = lent.to_vec();
    let mut answer = second.perform(message, lent);
    if !matches!(message, Message::Listing { .. }) {
        return answer;
    }
    let listed = lent.chunks_exact(ENTRY).take(answer.entries as usize);
    let ordinary = listed.filter(|entry| entry[6] & ENTRY_ONLY == 0);
    let mut words: Vec<u16> = ordinary.flatten().copied().collect();
    answer.entries = (words.len() / ENTRY) as u32;
    words.extend(&before[words.len()..]);
    lent.copy_from_slice(&words);
    answer
}

#[test]
fn an_entry_only_file_that_is_not_listed_is_found() {
    let line = "listing 0 lent 49*9 -> 0000h entries 3";
    is_found_put(put_listing_short, &[LISTING], line);
}

#[test]
fn an_old_disc_that_is_refused_is_found() {
    let put: Putting = |second, message, lent| {
        refuse_where(second, message, lent, |unit| {
            let mut entries = entries(&unit.image).into_iter();
            entries.any(|entry| entry[6] & ENTRY_ONLY != 0)
        })
    };
    let calls: Vec<u16> = (INIT..=LISTING).collect();
    is_found_put(put, &calls, "init 0 -> 0000h");
}
