//! Slices: which are free, which are taken next, how many a file needs.

use std::collections::BTreeSet;
use std::ops::Range;

use super::{ask, Plain, Refused};

/// How many longest stretches of neighbours a list has.
pub(super) fn runs(list: &[usize]) -> usize {
    let breaks = list.windows(2).filter(|pair| pair[1] != pair[0] + 1);
    breaks.count() + usize::from(!list.is_empty())
}

/// The lowest so many neighbours of a set, if it has them: the set in order, a stretch begun anew at
/// each number that is no neighbour of the one before it.
fn lowest_stretch(free: &BTreeSet<usize>, number: usize) -> Option<Range<usize>> {
    let mut stretch = 0..0;
    for &slice in free {
        if slice != stretch.end {
            stretch.start = slice;
        }
        stretch.end = slice + 1;
        if stretch.len() == number {
            return Some(stretch);
        }
    }
    None
}

impl Plain {
    /// M.
    pub fn total(&self) -> usize {
        (self.n - self.f) / self.s
    }

    /// The slices in no list.
    pub fn free(&self) -> BTreeSet<usize> {
        let mut free: BTreeSet<usize> = (1..=self.total()).collect();
        for slice in self.sys.iter() {
            free.remove(slice);
        }
        for file in self.files.values() {
            for slice in file.slices.iter() {
                free.remove(slice);
            }
        }
        free
    }

    /// need(n) for this unit's s.
    pub(super) fn slices_for(&self, sectors: usize) -> usize {
        match sectors {
            0 => 0,
            n => n / self.s + 1,
        }
    }

    /// The first sector of a file's first slice.
    pub(super) fn index_sector(&self, slices: &[usize]) -> usize {
        match slices.first() {
            None => 0,
            Some(first) => self.f + (first - 1) * self.s,
        }
    }

    /// The choice of one slice, out of a set that is not empty.
    fn choose(free: &mut BTreeSet<usize>, list: &mut Vec<usize>) {
        let wish = list.last().map(|last| last + 1);
        let chosen = match wish {
            Some(next) if free.contains(&next) => next,
            _ => *free.iter().next().expect("a slice is free"),
        };
        free.remove(&chosen);
        list.push(chosen);
    }

    /// Takes slices one by one until a list has as many as wanted; so many are free.
    fn fill(free: &mut BTreeSet<usize>, list: &mut Vec<usize>, wanted: usize) {
        while list.len() < wanted {
            Plain::choose(free, list);
        }
    }

    /// The same for a file: an empty list takes the lowest stretch of as many as wanted, if there
    /// is one (02, R-6).
    pub(super) fn fill_file(free: &mut BTreeSet<usize>, list: &mut Vec<usize>, wanted: usize) {
        if list.is_empty() {
            let stretch = lowest_stretch(free, wanted).unwrap_or_default();
            free.retain(|slice| !stretch.contains(slice));
            list.extend(stretch);
        }
        Plain::fill(free, list, wanted);
    }

    /// Questions 7 and 8 for SYS and a file; what both have afterwards. SYS takes first.
    pub(super) fn lists_after(
        &self,
        grows: bool,
        held: &[usize],
        wanted: usize,
    ) -> Result<(Vec<usize>, Vec<usize>), Refused> {
        let sectors = self.h * (self.layers + usize::from(grows));
        let sys_wanted = sectors.div_ceil(self.s);
        let sys_takes = sys_wanted.saturating_sub(self.sys.len());
        let takes = wanted.saturating_sub(held.len());
        let mut free = self.free();
        ask(sys_takes + takes <= free.len(), 0x1100)?;
        let mut sys = self.sys.clone();
        Plain::fill(&mut free, &mut sys, sys_wanted);
        let mut list = held.to_vec();
        Plain::fill_file(&mut free, &mut list, wanted);
        list.truncate(wanted);
        ask(runs(&sys) <= 127 && runs(&list) <= 127, 0x1008)?;
        Ok((sys, list))
    }
}
