//! Area processes.

use super::names::name;
use super::words::first_word;
use super::Unit;
use crate::layout::{stretches, Kit};
use crate::random::Random;
use crate::sound::{survey, Entry};
use crate::types::{Area, Role, State, User};

/// The roles.
pub(super) const ROLES: [Role; 3] = [Role::Sharing, Role::ExclusiveWriter, Role::ExclusiveUser];

/// Opens area processes with users on a sound unit, some with more than is booked.
pub fn open_areas(random: &mut Random, unit: &mut Unit) {
    let survey = survey(&unit.image, &unit.state).expect("a sound unit");
    let mut entries: Vec<_> = survey.entries.iter().collect();
    entries.sort_by_key(|entry| stretches(&entry.slices).len() < 60);
    for entry in entries {
        let skip = if entry.slices.len() < 60 { 40 } else { 5 };
        if entry.is_system() || is_open(&unit.state, entry) || random.chance(skip) {
            continue;
        }
        let vacant: Vec<usize> = (0..8).filter(|&a| !unit.state.areas[a].live).collect();
        if vacant.is_empty() {
            return;
        }
        if random.chance(50) {
            book_less(random, &mut unit.image, &survey.kit, entry);
        }
        let area = Area {
            live: true,
            name: entry.name(),
            index: entry.words[8],
            length: entry.words[7],
            users: users(random, entry.words[7], skip),
        };
        unit.state.areas[random.pick(&vacant)] = area;
    }
}

/// Whether an area process is open on an entry.
fn is_open(state: &State, entry: &Entry) -> bool {
    let name = entry.name();
    state.areas.iter().any(|a| a.live && a.name == name)
}

/// Books less for a file than it has.
fn book_less(random: &mut Random, image: &mut [u16], kit: &Kit, entry: &Entry) {
    let length = random.between(0, entry.words[7] as usize);
    let slices = random.between(kit.need(length), entry.slices.len());
    let from = first_word(entry);
    image[from + 7] = length as u16;
    image[from + 8] = if slices == 0 { 0 } else { entry.words[8] };
    image[from + 9] = (slices * kit.s) as u16;
}

/// Users of an area process of a live length; a high `skip`
/// makes fewer users, more exclusive writers and more positions before the end.
fn users(random: &mut Random, length: u16, skip: usize) -> [User; 3] {
    let mut users = [User::VACANT; 3];
    let mut ids = vec![1, 2, 3, 4, 65_535];
    let mut writer = false;
    for user in &mut users {
        if random.chance(skip) {
            continue;
        }
        user.id = ids.remove(random.below(ids.len()));
        if !writer && random.chance(skip / 2) {
            writer = true;
            user.role = Role::ExclusiveWriter;
        }
        user.opens = random.pick(&[1, 1, 2, 3, 65_534, 65_535, 65_535]);
        user.position = if random.chance(skip) {
            random.between(0, length as usize) as u16
        } else {
            length
        };
    }
    let mut present: Vec<&mut User> = users.iter_mut().filter(|u| !u.is_vacant()).collect();
    if present.len() == 1 && random.chance(40) {
        present[0].role = Role::ExclusiveUser;
    }
    users
}

/// Fills what a state holds in vacant descriptors and vacant user entries with words that
/// mean nothing: no rule speaks of them.
pub fn fill_vacant(random: &mut Random, state: &mut State) {
    for area in &mut state.areas {
        if !area.live && random.chance(50) {
            fill_descriptor(random, area);
        }
        fill_users(random, area);
    }
}

/// Fills a vacant descriptor, user entries with numbers among them.
fn fill_descriptor(random: &mut Random, area: &mut Area) {
    area.name = name(random);
    area.index = random.word();
    area.length = random.word();
    for user in &mut area.users {
        user.id = random.below(5) as u16;
    }
}

/// Fills about half of the user entries that mean nothing, their numbers left as they are.
fn fill_users(random: &mut Random, area: &mut Area) {
    for user in &mut area.users {
        if (!area.live || user.is_vacant()) && random.chance(50) {
            user.role = random.pick(&ROLES);
            user.opens = random.word();
            user.position = random.word();
        }
    }
}
