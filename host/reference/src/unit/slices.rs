//! Taking slices, and giving them back.

use super::image::{mark, unused_place, write_entry, write_index, zero_sector};
use super::Question;
use crate::layout::*;
use crate::sound::Survey;

/// Which slices are free, counted from 1; number 0 is never free.
pub(super) fn free_slices(image: &[u16], kit: &Kit) -> Vec<bool> {
    let mut free = vec![false];
    free.extend((1..=kit.slices()).map(|slice| marked_free(image, slice)));
    free
}

/// The lowest slice from which so many neighbours are free, if there is one. The pass over the map
/// keeps how many are free up to the slice that it has come to.
fn lowest_stretch(free: &[bool], number: usize) -> Option<usize> {
    let mut together = 0;
    for (slice, &is_free) in free.iter().enumerate() {
        together = if is_free { together + 1 } else { 0 };
        if together == number {
            return Some(slice + 1 - number);
        }
    }
    None
}

/// Takes slices until a file has as many as wanted; so many are free. One that has none takes the
/// lowest stretch of that many (02, R-6), if there is one; all else is taken one by one.
pub(super) fn take_file(free: &mut [bool], slices: &mut Vec<usize>, wanted: usize) {
    if slices.is_empty() && wanted > 0 {
        if let Some(first) = lowest_stretch(free, wanted) {
            let after = first + wanted;
            free[first..after].fill(false);
            slices.extend(first..after);
        }
    }
    while slices.len() < wanted {
        take(free, slices);
    }
}

/// Takes one slice: the next number after the file's last if free, else the lowest free.
/// At least one is free.
fn take(free: &mut [bool], slices: &mut Vec<usize>) {
    let next = slices.last().map_or(0, |last| last + 1);
    let slice = if next < free.len() && free[next] {
        next
    } else {
        free.iter().position(|&free| free).expect("one is free")
    };
    free[slice] = false;
    slices.push(slice);
}

/// How SYS and a file would stand after a message.
pub(super) struct Plan {
    pub(super) layers: usize,
    pub(super) sys: Vec<usize>,
    pub(super) file: Vec<usize>,
}

/// The slices that a message asks for.
pub(super) struct Demand {
    /// SYS's layers after it.
    layers: usize,
    /// SYS's slices after it.
    sys_slices: usize,
    /// How many more SYS takes.
    pub(super) for_sys: usize,
    /// How many more the file takes.
    pub(super) for_file: usize,
    /// How many are free.
    pub(super) free: usize,
}

/// What a message asks for. `entering` is the key that needs a place, with a place that counts as
/// unused; the file has `held` slices and shall have `wanted`.
pub(super) fn demand(
    image: &[u16],
    survey: &Survey,
    entering: Option<(usize, Option<(usize, usize)>)>,
    held: usize,
    wanted: usize,
) -> Demand {
    let kit = &survey.kit;
    let full = entering.is_some_and(|(key, counted_unused)| {
        unused_place(image, kit, &survey.sys, survey.layers, key, counted_unused).is_none()
    });
    let layers = survey.layers + full as usize;
    let sys_slices = (kit.h * layers).div_ceil(kit.s);
    let free = free_slices(image, kit).into_iter();
    Demand {
        layers,
        sys_slices,
        for_sys: sys_slices - survey.sys.len(),
        for_file: wanted.saturating_sub(held),
        free: free.filter(|&free| free).count(),
    }
}

/// The slices that SYS and the file have when it is met; there are enough. SYS takes first, one by
/// one, and the file of what is free then.
pub(super) fn chosen(
    image: &[u16],
    survey: &Survey,
    demand: &Demand,
    held: &[usize],
    wanted: usize,
) -> Plan {
    let mut free = free_slices(image, &survey.kit);
    let mut sys = survey.sys.clone();
    while sys.len() < demand.sys_slices {
        take(&mut free, &mut sys);
    }
    let mut file = held.to_vec();
    file.truncate(wanted);
    take_file(&mut free, &mut file, wanted);
    let layers = demand.layers;
    Plan { layers, sys, file }
}

/// Catalog questions 7 and 8. `entering` is the key that needs a place, with a place that
/// counts as unused; `held` are the file's slices and `wanted` how many it shall have.
pub(super) fn plan(
    image: &[u16],
    survey: &Survey,
    entering: Option<(usize, Option<(usize, usize)>)>,
    held: &[usize],
    wanted: usize,
) -> Result<Plan, Question> {
    let demand = demand(image, survey, entering, held.len(), wanted);
    if demand.for_sys + demand.for_file > demand.free {
        return Err(Question::EnoughFree);
    }
    let plan = chosen(image, survey, &demand, held, wanted);
    if stretches(&plan.sys).len() > STRETCHES || stretches(&plan.file).len() > STRETCHES {
        return Err(Question::FewStretches);
    }
    Ok(plan)
}

/// Lets SYS grow as planned.
pub(super) fn grow(image: &mut [u16], survey: &Survey, plan: &Plan) {
    let kit = &survey.kit;
    if plan.layers == survey.layers {
        return;
    }
    for &slice in &plan.sys[survey.sys.len()..] {
        mark(image, slice, false);
    }
    if plan.sys.len() > survey.sys.len() {
        write_index(image, kit, SYS_INDEX, &plan.sys);
    }
    for block in kit.h * survey.layers..kit.h * plan.layers {
        zero_sector(image, kit.sys_sector(&plan.sys, block));
    }
    let old = survey.find(SYS).expect("SYS is entered");
    let (length, reserved) = (kit.h * plan.layers, kit.s * plan.sys.len());
    let entry = system_entry(SYS, length, SYS_INDEX, reserved);
    write_entry(image, old.sector, old.place, &entry);
}

/// Lets a file give back or take as planned: map, index, and the sectors that join.
pub(super) fn resize(
    image: &mut [u16],
    kit: &Kit,
    held: &[usize],
    planned: &[usize],
    old_length: usize,
    new_length: usize,
) {
    for &slice in held.iter().skip(planned.len()) {
        mark(image, slice, true);
    }
    for &slice in planned.iter().skip(held.len()) {
        mark(image, slice, false);
    }
    if held != planned && !planned.is_empty() {
        write_index(image, kit, kit.first_sector(planned[0]), planned);
    }
    for block in old_length..new_length {
        zero_sector(image, kit.file_sector(planned, block));
    }
}
