//! The rules of a sound unit decided straightforwardly, with no account of what is wrong: the
//! version whose speed the proved check is compared with.

use std::collections::HashSet;

use crate::layout::*;
use crate::types::{Area, Name, Role, State, User};

/// Whether image and state are a sound unit.
pub fn is_sound(image: &[u16], state: &State) -> bool {
    let Some(kit) = sound_kit(image) else {
        return false;
    };
    let mut owned = vec![false; kit.slices() + 1];
    let Some((sys, length)) = read_sys(image, &kit, &mut owned) else {
        return false;
    };
    let sys_entry = system_entry(SYS, length, SYS_INDEX, kit.s * sys.len());
    let map_entry = system_entry(MAP, 1, MAP_INDEX, 1);
    let mut names: HashSet<Name> = HashSet::new();
    let mut slices = Vec::new();
    for block in 0..length {
        let from = kit.sys_sector(&sys, block) * SECTOR;
        for entry in image[from..from + SECTOR].chunks_exact(ENTRY) {
            if entry.iter().all(|&word| word == 0) {
                continue;
            }
            let name = [entry[0], entry[1], entry[2]];
            if !is_legal(name) || key(name, kit.h) != block % kit.h {
                return false;
            }
            if !names.insert(name) {
                return false;
            }
            let sound = match name {
                SYS => entry == sys_entry,
                MAP => entry == map_entry,
                _ => {
                    let area = state.areas.iter().find(|a| a.live && a.name == name);
                    slices.clear();
                    sound_file(image, &kit, entry, area, &mut slices, &mut owned)
                }
            };
            if !sound {
                return false;
            }
        }
    }
    names.contains(&SYS)
        && names.contains(&MAP)
        && image[MAP_INDEX * SECTOR..][..3] == [1, 1, MAP_SECTOR as u16]
        && (1..=kit.slices()).all(|slice| marked_free(image, slice) != owned[slice])
        && sound_areas(state, &names)
}

/// The names in the used places of SYS, place by place; none where kit, index or length of SYS are
/// not sound.
pub fn entered(image: &[u16]) -> Vec<Name> {
    let entries = entries(image).into_iter();
    entries
        .map(|entry| [entry[0], entry[1], entry[2]])
        .collect()
}

/// The used places of SYS, as [`entered`] has their names.
pub fn entries(image: &[u16]) -> Vec<&[u16]> {
    let Some(kit) = sound_kit(image) else {
        return Vec::new();
    };
    let mut owned = vec![false; kit.slices() + 1];
    let (sys, length) = read_sys(image, &kit, &mut owned).unwrap_or_default();
    let sectors = (0..length).map(|block| kit.sys_sector(&sys, block) * SECTOR);
    let entries = sectors.flat_map(|from| image[from..from + SECTOR].chunks_exact(ENTRY));
    let used = entries.filter(|entry| entry.iter().any(|&word| word != 0));
    used.collect()
}

/// SYS's slices, which are taken, and its length.
fn read_sys(image: &[u16], kit: &Kit, owned: &mut [bool]) -> Option<(Vec<usize>, usize)> {
    let mut sys = Vec::new();
    if !read_index(image, kit, SYS_INDEX, &mut sys, owned) || sys[0] != 1 {
        return None;
    }
    let length = sys_length(image, kit, &sys)?;
    Some((sys, length))
}

/// The kit, if image length, limits, free sectors and the map past M are as they have to be.
fn sound_kit(image: &[u16]) -> Option<Kit> {
    if image.len() < (MAP_SECTOR + 1) * SECTOR {
        return None;
    }
    let kit = Kit::read(image);
    let sound = image.len() == SECTOR * kit.n
        && kit.limits().is_ok()
        && kit.free == kit.s * ones_in_map(image)
        && (kit.slices() + 1..=16 * SECTOR).all(|slice| !marked_free(image, slice));
    sound.then_some(kit)
}

/// Reads the slices of an index block and takes them.
fn read_index(
    image: &[u16],
    kit: &Kit,
    sector: usize,
    slices: &mut Vec<usize>,
    owned: &mut [bool],
) -> bool {
    let block = &image[sector * SECTOR..(sector + 1) * SECTOR];
    let count = block[0] as usize;
    if !(1..=STRETCHES).contains(&count) {
        return false;
    }
    for pair in block[1..1 + 2 * count].chunks_exact(2) {
        let (length, start) = (pair[0] as usize, pair[1] as usize);
        let Some(first) = kit.slice_at(start) else {
            return false;
        };
        if length == 0 || !length.is_multiple_of(kit.s) || start + length > kit.n {
            return false;
        }
        if slices.last().is_some_and(|&last| last + 1 == first) {
            return false;
        }
        let after = first + length / kit.s;
        let mut taken = (first..after).map(|slice| std::mem::replace(&mut owned[slice], true));
        if taken.any(|taken| taken) {
            return false;
        }
        slices.extend(first..after);
    }
    true
}

/// SYS's length by its first entry in the sectors of its key, if its slices are those of it.
fn sys_length(image: &[u16], kit: &Kit, sys: &[usize]) -> Option<usize> {
    for block in (key(SYS, kit.h)..sys.len() * kit.s).step_by(kit.h) {
        let from = kit.sys_sector(sys, block) * SECTOR;
        for entry in image[from..from + SECTOR].chunks_exact(ENTRY) {
            if entry[..3] == SYS {
                let length = entry[7] as usize;
                let layered = length.is_multiple_of(kit.h) && length > block;
                return (layered && length.div_ceil(kit.s) == sys.len()).then_some(length);
            }
        }
    }
    None
}

/// Whether an ordinary file's entry and index are sound; takes its slices.
fn sound_file(
    image: &[u16],
    kit: &Kit,
    entry: &[u16],
    area: Option<&Area>,
    slices: &mut Vec<usize>,
    owned: &mut [bool],
) -> bool {
    let (booked_length, booked_index) = (entry[7], entry[8]);
    let (index, length) = match area {
        Some(area) => (area.index, area.length),
        None => (booked_index, booked_length),
    };
    if index != 0 {
        let Some(first) = kit.slice_at(index as usize) else {
            return false;
        };
        if !read_index(image, kit, index as usize, slices, owned) || slices[0] != first {
            return false;
        }
    }
    let (reserved, number) = (entry[9] as usize, slices.len());
    let booked = reserved / kit.s;
    length <= 32_767
        && legal_attributes(entry[6], number)
        && number >= kit.need(length as usize)
        && reserved.is_multiple_of(kit.s)
        && match area {
            None => booked == number,
            Some(_) => {
                booked <= number
                    && booked_length <= length
                    && booked >= kit.need(booked_length as usize)
                    && booked_index == if booked == 0 { 0 } else { index }
            }
        }
}

/// Whether the open areas' names and users are legal.
fn sound_areas(state: &State, names: &HashSet<Name>) -> bool {
    let open: Vec<&Area> = state.areas.iter().filter(|area| area.live).collect();
    let distinct: HashSet<Name> = open.iter().map(|area| area.name).collect();
    distinct.len() == open.len()
        && open.iter().all(|area| {
            let users: Vec<&User> = area.users.iter().filter(|user| user.id != 0).collect();
            let ids: HashSet<u16> = users.iter().map(|user| user.id).collect();
            let with_role = |role| users.iter().filter(|user| user.role == role).count();
            names.contains(&area.name)
                && area.name != SYS
                && area.name != MAP
                && ids.len() == users.len()
                && users
                    .iter()
                    .all(|user| user.opens > 0 && user.position <= area.length)
                && (with_role(Role::ExclusiveUser) == 0 || users.len() == 1)
                && with_role(Role::ExclusiveWriter) <= 1
        })
}
