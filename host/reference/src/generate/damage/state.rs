//! Damage to a state.

use crate::generate::areas::ROLES;
use crate::generate::names::other_case;
use crate::generate::words::alter;
use crate::layout::{MAP, SYS};
use crate::random::Random;
use crate::types::{Area, Name, State};

/// Changes one thing of a state, most of the time of an open area process.
pub(super) fn damage_state(random: &mut Random, state: &mut State) -> String {
    let live: Vec<usize> = (0..8).filter(|&area| state.areas[area].live).collect();
    let number = if !live.is_empty() && random.chance(85) {
        random.pick(&live)
    } else {
        random.below(8)
    };
    let other_name = state.areas[random.below(8)].name;
    let area = &mut state.areas[number];
    let place = random.below(3);
    let what = match random.below(13) {
        draw @ 0..=4 => damage_area(random, area, other_name, draw),
        draw @ 5..=10 => damage_user(random, area, place, draw),
        11 => {
            state.unit = random.pick(&[0, 1, 2, 3, 4, 0x0100]);
            "the unit"
        }
        _ => {
            state.initialized = !state.initialized;
            "initialized"
        }
    };
    format!("area {number}, user {place}: {what} changed")
}

/// Changes one thing of a descriptor, for a draw from 0 to 4, and says which.
fn damage_area(
    random: &mut Random,
    area: &mut Area,
    other_name: Name,
    draw: usize,
) -> &'static str {
    match draw {
        0 => {
            area.live = !area.live;
            "live"
        }
        1 => {
            let word = random.below(3);
            area.name[word] = alter(random, area.name[word]);
            "a name word"
        }
        2 => {
            let in_case = other_case(random, area.name);
            area.name = random.pick(&[SYS, MAP, other_name, in_case]);
            "the name"
        }
        3 => {
            area.index = alter(random, area.index);
            "the index sector"
        }
        _ => {
            area.length = alter(random, area.length);
            "the length"
        }
    }
}

/// Changes one thing of a user entry, for a draw from 5 to 10, and says which.
fn damage_user(random: &mut Random, area: &mut Area, place: usize, draw: usize) -> &'static str {
    let user = &mut area.users[place];
    match draw {
        5 => {
            user.id = random.pick(&[0, 1, 2, 3, 4, 7]);
            "a user"
        }
        6 | 7 => {
            user.role = random.pick(&ROLES);
            "a role"
        }
        8 => {
            user.opens = random.pick(&[0, 1, 65_535]);
            "an open count"
        }
        9 => {
            user.position = alter(random, user.position);
            "a position"
        }
        _ => {
            user.position = area.length.wrapping_add(random.below(2) as u16);
            "a position"
        }
    }
}
