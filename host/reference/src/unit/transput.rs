//! Transput: input and output of one sector.

use super::areas::{another_is, move_to};
use super::image::count_free;
use super::question::Refusal;
use super::slices::{free_slices, resize, take_file};
use super::{Outcome, Question};
use crate::layout::*;
use crate::sound::{Entry, Survey};
use crate::types::{Answer, Area, Role};

/// A transput's operation number, byte count and block.
#[derive(Clone, Copy)]
pub(super) struct Transput {
    pub(super) operation: u16,
    pub(super) bytes: u16,
    pub(super) block: u16,
}

impl Transput {
    fn is_output(self) -> bool {
        matches!(self.operation, 3 | 7 | 19)
    }

    /// Whether Position comes first.
    fn positions(self) -> bool {
        matches!(self.operation, 5 | 7)
    }
}

/// Input or output by a user; refused or not, the answer has the block.
pub(super) fn transput(
    image: &mut [u16],
    survey: &Survey,
    area: &mut Area,
    own: usize,
    asked: Transput,
    lent: &mut [u16],
) -> Outcome {
    match transfer(image, survey, area, own, asked, lent) {
        Ok(block) => Ok(Answer {
            bytes: 512,
            block,
            ..Answer::default()
        }),
        Err(question) => Err(Refusal {
            question,
            block: area.users[own].position,
        }),
    }
}

/// The questions and the step; the block that was read or written.
fn transfer(
    image: &mut [u16],
    survey: &Survey,
    area: &mut Area,
    own: usize,
    asked: Transput,
    lent: &mut [u16],
) -> Result<u16, Question> {
    let kit = &survey.kit;
    let entry = survey.find(area.name).expect("an open file is entered");
    if asked.bytes != 512 || lent.len() < SECTOR {
        return Err(Question::TransputRoom);
    }
    if asked.is_output() {
        may_write(area, own, entry)?;
    }
    if asked.positions() {
        move_to(area, own, asked.block)?;
    }
    let position = area.users[own].position;
    if asked.is_output() {
        output(image, kit, entry, area, position, lent)?;
    } else {
        input(image, kit, entry, area, position, lent)?;
    }
    area.users[own].position = position + 1;
    Ok(position)
}

/// Output: no other exclusive writer? not write protected?
fn may_write(area: &Area, own: usize, entry: &Entry) -> Result<(), Question> {
    if another_is(area, area.users[own].id, Role::ExclusiveWriter) {
        return Err(Question::OutputAllowed);
    }
    if entry.words[6] & PROTECTED != 0 {
        return Err(Question::NotProtected);
    }
    Ok(())
}

/// Input: below the length?
fn input(
    image: &[u16],
    kit: &Kit,
    entry: &Entry,
    area: &Area,
    position: u16,
    lent: &mut [u16],
) -> Result<(), Question> {
    if position >= area.length {
        return Err(end_of(entry));
    }
    let sector = kit.file_sector(&entry.slices, position as usize);
    lent[..SECTOR].copy_from_slice(&image[sector * SECTOR..(sector + 1) * SECTOR]);
    Ok(())
}

/// The question that is answered no for an input at a file's length: a fixed file's end has a word
/// of its own.
fn end_of(entry: &Entry) -> Question {
    if entry.words[6] & EXTENDABLE == 0 {
        Question::InputBelowFixedEnd
    } else {
        Question::InputBelowExtendableEnd
    }
}

/// Output replaces a sector or, at the live length, appends one.
fn output(
    image: &mut [u16],
    kit: &Kit,
    entry: &Entry,
    area: &mut Area,
    position: u16,
    lent: &[u16],
) -> Result<(), Question> {
    let mut slices = entry.slices.clone();
    if position == area.length {
        append(image, kit, entry, area, &mut slices)?;
    }
    let sector = kit.file_sector(&slices, position as usize);
    image[sector * SECTOR..(sector + 1) * SECTOR].copy_from_slice(&lent[..SECTOR]);
    Ok(())
}

/// Appending: extendable? where a slice is needed: one free? at most 127 stretches with it?
fn append(
    image: &mut [u16],
    kit: &Kit,
    entry: &Entry,
    area: &mut Area,
    slices: &mut Vec<usize>,
) -> Result<(), Question> {
    if entry.words[6] & EXTENDABLE == 0 {
        return Err(Question::Extendable);
    }
    let wanted = kit.need(area.length as usize + 1);
    if wanted > slices.len() {
        let mut free = free_slices(image, kit);
        if !free.contains(&true) {
            return Err(Question::SliceFree);
        }
        take_file(&mut free, slices, wanted);
        if stretches(slices).len() > STRETCHES {
            return Err(Question::AppendStretches);
        }
        resize(image, kit, &entry.slices, slices, 0, 0);
        count_free(image, kit);
        area.index = kit.first_sector(slices[0]) as u16;
    }
    area.length += 1;
    Ok(())
}
