//! Units of a given shape, and files with given slices.

use super::builder::Builder;
use super::names::name_in_capitals;
use super::Unit;
use crate::layout::ENTRY;
use crate::random::Random;
use crate::sound::survey;
use crate::types::Name;
use crate::unit::{book, count_free, enter, mark, write_index};

/// The shape of a unit for measurements.
#[derive(Clone, Copy, Debug)]
pub struct Shape {
    /// H.
    pub h: usize,
    /// s.
    pub s: usize,
    /// L.
    pub layers: usize,
    /// M.
    pub slices: usize,
    /// The number of files beside SYS and MAP.
    pub files: usize,
    /// The fewest and the most slices of a file.
    pub held: (usize, usize),
    /// How many stretches SYS lies in.
    pub sys_stretches: usize,
    /// The length of the stretches that files lie in; 0 for one stretch each.
    pub stretch: usize,
}

/// A unit of a given shape: nothing open, initialized.
pub fn shaped(random: &mut Random, shape: &Shape) -> Unit {
    let mut builder = Builder::empty(random, shape.h, shape.s, shape.slices, shape.layers);
    let sys = shape.sys();
    builder.take(&sys);
    builder.enter_system(random, &sys);
    let free = builder.free.iter().copied().collect();
    let mut free = in_stretches(random, free, shape.stretch).into_iter();
    for _ in 0..shape.files {
        let number = random.between(shape.held.0, shape.held.1);
        let slices: Vec<usize> = free.by_ref().take(number).collect();
        assert!(slices.len() == number, "the unit has room for its files");
        add_some_file(random, &mut builder, &slices);
    }
    builder.finish(0)
}

impl Shape {
    /// The slices of SYS, its stretches one slice apart.
    fn sys(&self) -> Vec<usize> {
        let number = (self.h * self.layers).div_ceil(self.s);
        let mut sys = Vec::new();
        let mut next = 1;
        for stretch in 0..self.sys_stretches {
            let extra = usize::from(stretch < number % self.sys_stretches);
            let after = next + number / self.sys_stretches + extra;
            sys.extend(next..after);
            next = after + 1;
        }
        sys
    }
}

/// The free slices in stretches of the given length in random order; as they are for 0.
fn in_stretches(random: &mut Random, free: Vec<usize>, length: usize) -> Vec<usize> {
    if length == 0 {
        return free;
    }
    let mut parts: Vec<&[usize]> = free.chunks(length).collect();
    for last in (1..parts.len()).rev() {
        parts.swap(last, random.below(last + 1));
    }
    parts.concat()
}

/// Adds a file that has these slices, with a name that is not entered and whose key has room: in
/// capitals, so that a library of before R-8 can be measured with the unit.
fn add_some_file(random: &mut Random, builder: &mut Builder, slices: &[usize]) {
    loop {
        let name = name_in_capitals(random);
        if builder.file_of(random, name, 1, slices) {
            break;
        }
    }
    builder.take(slices);
}

/// Adds a file with these free slices to a sound unit, in the first unused place of its key;
/// its blocks keep the words that stand there.
pub fn add_file(unit: &mut Unit, name: Name, attributes: u16, length: u16, slices: &[usize]) {
    let survey = survey(&unit.image, &unit.state).expect("a sound unit");
    let (image, kit) = (&mut unit.image, &survey.kit);
    let mut entry = [0; ENTRY];
    entry[..3].copy_from_slice(&name);
    entry[6] = attributes;
    book(&mut entry, kit, length, slices);
    if let Some(&first) = slices.first() {
        write_index(image, kit, kit.first_sector(first), slices);
    }
    for &slice in slices {
        mark(image, slice, false);
    }
    enter(image, kit, &survey.sys, survey.layers, &entry);
    count_free(image, kit);
}
