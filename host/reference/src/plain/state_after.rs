//! The state after a call.

use super::names::{text, words_of};
use super::{Member, Plain};
use crate::types::{Area, Name, State, User};

/// The state that must stand after a call, from the state before it and the plain unit
/// after it: what goes leaves zeros, what comes takes the lowest vacant descriptor or entry.
pub fn state_after(state: &State, after: &Plain) -> State {
    let mut next = *state;
    for area in next.areas.iter_mut().filter(|area| area.live) {
        let name = text(area.name).expect("sound");
        if !after.areas.contains_key(&name) {
            *area = Area::VACANT;
        }
    }
    for (name, users) in &after.areas {
        let file = &after.files[name];
        let area = descriptor(&mut next, words_of(name));
        area.index = after.index_sector(&file.slices) as u16;
        area.length = file.sectors.len() as u16;
        put_users(area, users);
    }
    next
}

/// The descriptor of an area that is open after the call.
fn descriptor(next: &mut State, name: Name) -> &mut Area {
    let is_open = |area: &Area| area.live && area.name == name;
    if let Some(open) = next.areas.iter().position(is_open) {
        return &mut next.areas[open];
    }
    let vacant = next.areas.iter_mut().find(|area| !area.live);
    let vacant = vacant.expect("a descriptor is vacant");
    *vacant = Area {
        live: true,
        name,
        ..Area::VACANT
    };
    vacant
}

/// The users of an area after the call.
fn put_users(area: &mut Area, users: &[Member]) {
    for user in area.users.iter_mut().filter(|user| !user.is_vacant()) {
        if !users.iter().any(|member| member.id == user.id) {
            *user = User::VACANT;
        }
    }
    for member in users {
        *entry_of(area, member.id) = User {
            id: member.id,
            role: member.role,
            opens: member.opens as u16,
            position: member.position as u16,
        };
    }
}

/// The user's own entry, else the lowest vacant one.
fn entry_of(area: &mut Area, id: u16) -> &mut User {
    let is_own = |user: &User| !user.is_vacant() && user.id == id;
    let own = area.users.iter().position(is_own);
    let vacant = area.users.iter().position(|user| user.is_vacant());
    &mut area.users[own.or(vacant).expect("an entry is own or vacant")]
}
