//! Format.

use super::image::{count_free, enter, mark, write_index, zero_sector};
use super::{known, Question};
use crate::layout::*;
use crate::types::State;

/// Formats a unit and answers the result word.
pub fn format(image: &mut [u16], state: &mut State, bytes: u16, record: &[u16]) -> u16 {
    match explain_format(image, state, bytes, record) {
        Ok(()) => 0,
        Err(question) => question.word(),
    }
}

/// Formats a unit and says which question was answered no, if one was.
pub fn explain_format(
    image: &mut [u16],
    state: &mut State,
    bytes: u16,
    record: &[u16],
) -> Result<(), Question> {
    if bytes != 18 || record.len() < 9 {
        return Err(Question::FormatRoom);
    }
    let kit = Kit::from_words(&record[1..7]);
    let legal = known(state, record[0])
        && !state.areas.iter().any(|area| area.live)
        && kit.limits().is_ok()
        && kit.free == kit.n - kit.f
        && image.len() == SECTOR * kit.n;
    if !legal {
        return Err(Question::FormatLegal);
    }
    write_unit(image, &kit, record);
    state.initialized = false;
    Ok(())
}

/// Writes sectors 6 to 9 and SYS of a fresh unit.
fn write_unit(image: &mut [u16], kit: &Kit, record: &[u16]) {
    let sys: Vec<usize> = (1..=kit.h.div_ceil(kit.s)).collect();
    image[SYS_INDEX * SECTOR..(MAP_SECTOR + 1) * SECTOR].fill(0);
    write_index(image, kit, SYS_INDEX, &sys);
    image[MAP_INDEX * SECTOR..][..3].copy_from_slice(&[1, 1, MAP_SECTOR as u16]);
    image[KIT * SECTOR..][..8].copy_from_slice(&record[1..9]);
    for slice in sys.len() + 1..=kit.slices() {
        mark(image, slice, true);
    }
    count_free(image, kit);
    for block in 0..kit.h {
        zero_sector(image, kit.sys_sector(&sys, block));
    }
    for (name, length, index, reserved) in [
        (SYS, kit.h, SYS_INDEX, kit.s * sys.len()),
        (MAP, 1, MAP_INDEX, 1),
    ] {
        let entry = system_entry(name, length, index, reserved);
        enter(image, kit, &sys, 1, &entry);
    }
}
