//! The state as words, in the order in which the C interface has them.

use std::array::from_fn;

use reference::generate::Unit;
use reference::layout::SECTOR;
use reference::{Area, Role, State, User};

/// Unit, initialized, and for each area process live, name, index sector, length and users; for
/// each user number, role (0 sharing, 1 exclusive writer, 2 exclusive user), open count, position.
pub type StateWords = [u16; BEFORE_AREAS + 8 * AREA];

const BEFORE_AREAS: usize = 2;
const BEFORE_USERS: usize = 6;
const USER: usize = 4;
const AREA: usize = BEFORE_USERS + 3 * USER;

/// The words of a state.
pub fn words_of(state: &State) -> StateWords {
    let user = |user: &User| [user.id, user.role as u16, user.opens, user.position];
    let area = |area: &Area| {
        let users = area.users.iter().flat_map(user);
        let before = [area.live.into(), area.name[0], area.name[1], area.name[2]];
        let before = before.into_iter().chain([area.index, area.length]);
        before.chain(users).collect::<Vec<u16>>()
    };
    let mut words = vec![state.unit, state.initialized.into()];
    words.extend(state.areas.iter().flat_map(area));
    words.try_into().expect("a state has so many words")
}

/// Words that stand for the unit's state. Any but 0 is yes and any role above 1 is exclusive
/// user: which ones are given depends on the place and on the image's length, so that lists bring
/// different ones.
pub fn given_words(unit: &Unit) -> StateWords {
    let sectors = unit.image.len() / SECTOR;
    let words = words_of(&unit.state);
    from_fn(|word| {
        let more = [0, 1, 0x7FFF, 0xFFFD][(sectors + word) % 4];
        let place = place(word);
        let is_yes = (place == "initialized" || place.ends_with("live")) && words[word] == 1;
        let is_exclusive = place.ends_with("role") && words[word] == 2;
        if is_yes || is_exclusive {
            words[word] + more
        } else {
            words[word]
        }
    })
}

/// The words that a call leaves: each that stands for the same value stays, any other is that of
/// the new state.
pub fn kept_words(before: &StateWords, after: &State) -> StateWords {
    let (old, new) = (words_of(&state_of(before)), words_of(after));
    from_fn(|word| {
        if old[word] == new[word] {
            before[word]
        } else {
            new[word]
        }
    })
}

/// The state that words stand for: any word but 0 is yes, and roles above 2 are exclusive user.
pub fn state_of(words: &StateWords) -> State {
    let mut words = words.iter().copied();
    let mut next = || words.next().expect("a state has so many words");
    State {
        unit: next(),
        initialized: next() != 0,
        areas: from_fn(|_| Area {
            live: next() != 0,
            name: from_fn(|_| next()),
            index: next(),
            length: next(),
            users: from_fn(|_| User {
                id: next(),
                role: role_of(next()),
                opens: next(),
                position: next(),
            }),
        }),
    }
}

fn role_of(number: u16) -> Role {
    match number {
        0 => Role::Sharing,
        1 => Role::ExclusiveWriter,
        _ => Role::ExclusiveUser,
    }
}

/// What a word of the state is called.
pub fn place(word: usize) -> String {
    let Some(in_areas) = word.checked_sub(BEFORE_AREAS) else {
        return ["unit", "initialized"][word].into();
    };
    let (area, in_area) = (in_areas / AREA, in_areas % AREA);
    let fields = ["live", "name 0", "name 1", "name 2", "index", "length"];
    match in_area.checked_sub(BEFORE_USERS) {
        None => format!("area {area} {}", fields[in_area]),
        Some(in_users) => {
            let field = ["id", "role", "opens", "position"][in_users % USER];
            format!("area {area} user {} {field}", in_users / USER)
        }
    }
}

#[cfg(test)]
mod tests {
    use super::*;

    #[test]
    fn words_stand_for_their_state() {
        // Words that are all different, but for yes and no and the roles.
        let words: StateWords = from_fn(|word| match place(word) {
            place if place.ends_with("live") || place == "initialized" => 1,
            place if place.ends_with("role") => word as u16 % 3,
            _ => word as u16,
        });
        assert_eq!(words_of(&state_of(&words)), words);
        assert_eq!(state_of(&words).areas[7].users[2].position, 145);
        assert_eq!(place(145), "area 7 user 2 position");
    }

    #[test]
    fn given_words_stand_for_the_state() {
        let mut unit = Unit {
            image: vec![0; 10 * SECTOR],
            state: State::new(2),
        };
        unit.state.initialized = true;
        for area in &mut unit.state.areas {
            area.live = true;
            area.users[1].role = Role::ExclusiveWriter;
            area.users[2].role = Role::ExclusiveUser;
        }
        let words = given_words(&unit);
        assert_eq!(state_of(&words), unit.state);
        assert_ne!(words, words_of(&unit.state));
    }

    #[test]
    fn a_word_that_stands_for_its_value_is_kept() {
        let mut words = words_of(&State::new(2));
        let area0 = |field: &str| (0..146).find(|&word| place(word) == format!("area 0 {field}"));
        let (live, role) = (area0("live").unwrap(), area0("user 0 role").unwrap());
        (words[1], words[live], words[role]) = (0x8000, 7, 9);
        let mut state = state_of(&words);
        assert_eq!(kept_words(&words, &state), words);
        state.areas[0].users[0].position = 5;
        (state.areas[0].live, state.areas[1].live) = (false, true);
        state.areas[0].users[0].role = Role::ExclusiveWriter;
        let kept = kept_words(&words, &state);
        let area1 = (0..146).find(|&word| place(word) == "area 1 live").unwrap();
        assert_eq!((kept[1], kept[live], kept[role]), (0x8000, 0, 1));
        assert_eq!((kept[area1], kept[role + 2]), (1, 5));
    }
}
