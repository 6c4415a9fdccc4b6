//! What no entry or no kit tells any more: index blocks of lost files, and numbers that fit.

use std::cmp::Reverse;

use super::catalog::Place;
use super::claims::followed;
use super::file::{is_legal, File};
use super::index::Pair;
use super::numbers::{KitRead, Layout, Numbers, H_LIMITS, S_LIMITS};
use super::Rescue;
use crate::layout::{key, ENTRY};

/// So many files at most are looked at to find numbers that fit.
const MOST_FILES: usize = 2_048;
/// With more entries than so many, numbers that fit are not looked for: each try reads them all.
const MOST_ENTRIES: usize = 4_096;
/// So many s at most are tried.
const MOST_TRIED: usize = 8;

impl Rescue<'_> {
    /// The sectors with index blocks of lost files: legal ones in slices that are marked used and
    /// that nobody claims.
    pub fn lost(&self) -> &[usize] {
        &self.lost
    }

    /// Looks for the index blocks of lost files.
    pub(super) fn look_for_lost(&self) -> Vec<usize> {
        let slices = 1..=self.layout.slices().unwrap_or(0);
        let unclaimed = slices.filter(|&slice| self.is_unclaimed(slice));
        let first = unclaimed.filter_map(|slice| self.layout.first_sector(slice));
        first.filter(|&sector| self.is_lost_index(sector)).collect()
    }

    fn is_lost_index(&self, sector: usize) -> bool {
        let index = followed(self.image, &self.layout, sector);
        let mut sectors = index.pairs.iter().flat_map(Pair::sectors);
        index.faults.is_empty() && sectors.all(|sector| self.claims.cell(sector).number == 0)
    }

    /// The sectors of a lost file's stretches.
    pub(super) fn lost_total(&self, sector: usize) -> usize {
        followed(self.image, &self.layout, sector).total()
    }

    /// The file of an index block, without an entry: as long as its stretches allow. None where no
    /// pair can be followed.
    pub fn of_index(&self, sector: usize) -> Option<File> {
        let total = self.lost_total(sector);
        let length = total.checked_sub(1)?;
        let mut words = [0; ENTRY];
        words[7..10].copy_from_slice(&[length, sector, total].map(|number| number as u16));
        let place = Place {
            sector: 0,
            place: 0,
            block: None,
            words,
        };
        let (mut file, faults) = self.read_file(&place);
        file.doubts = vec!["it is read without an entry, as long as its slices are".to_string()];
        let more = self.file_doubts(&file, &faults, None);
        file.doubts.extend(more);
        Some(file)
    }

    /// Numbers that fit SYS's index, the names in SYS and the pairs of the files best, where the
    /// kit's are not within limits or make more doubtful than these; none where SYS's index is not
    /// legal. Of several the greatest H, and the s with which the least is doubtful: those s are
    /// tried that the pairs of the files fit best.
    pub fn fitting(&self) -> Option<Numbers> {
        let Layout { h, s, f, there, .. } = self.layout;
        let known = h.and(s).and(f).is_some();
        if known && self.doubts.is_empty() || self.entries() > MOST_ENTRIES {
            return None;
        }
        let blank = Rescue::by(self.image, KitRead::blank(there));
        let f = blank.catalog.index.pairs.first()?.start;
        let h = blank.fitting_h()?;
        let fitting = blank.likely_s(f).into_iter().map(|s| Numbers {
            h: Some(h),
            s: Some(s),
            f: Some(f),
        });
        let counted = fitting.map(|numbers| (doubts(&Rescue::read(self.image, &numbers)), numbers));
        let (fewest, found) = counted.min_by_key(|(doubts, _)| *doubts)?;
        (!known || fewest < doubts(self)).then_some(found)
    }

    /// The greatest H with which every legal name stands in a sector of its key.
    fn fitting_h(&self) -> Option<usize> {
        let sectors = self.catalog.sectors.len();
        let keyed = |place: &&Place, h| {
            let own = |block| block % h == key(place.name(), h);
            place.block.is_some_and(own)
        };
        let places = self.catalog.places.iter();
        let places = places.filter(|place| is_legal(place.name()));
        let mut possible = H_LIMITS.rev().filter(|&h| sectors.is_multiple_of(h));
        possible.find(|&h| places.clone().all(|place| keyed(&place, h)))
    }

    /// Of the s with which SYS's pairs are whole slices those with which the most pairs of files
    /// are, of equal ones the greatest; in order.
    fn likely_s(&self, f: usize) -> Vec<usize> {
        let numbers =
            (0..self.entries().min(MOST_FILES)).filter_map(|number| self.unjudged(number));
        let pairs: Vec<Pair> = numbers.flat_map(|file| file.pairs).collect();
        let wrong = |s: usize| {
            let whole = |pair: &Pair| {
                pair.start.abs_diff(f).is_multiple_of(s) && pair.length.is_multiple_of(s)
            };
            pairs.iter().filter(|pair| !whole(pair)).count()
        };
        let mut likely = self.fitting_s(f);
        likely.sort_by_cached_key(|&s| (wrong(s), Reverse(s)));
        likely.truncate(MOST_TRIED);
        likely.sort_unstable();
        likely
    }

    /// Each s with which SYS's pairs are whole slices.
    fn fitting_s(&self, f: usize) -> Vec<usize> {
        let pairs = &self.catalog.index.pairs;
        let whole = |pair: &Pair, s| {
            pair.start >= f && (pair.start - f).is_multiple_of(s) && pair.length.is_multiple_of(s)
        };
        let all = S_LIMITS.filter(|&s| pairs.iter().all(|pair| whole(pair, s)));
        all.collect()
    }
}

/// How much is doubtful about the unit and its files, or the first of them.
fn doubts(rescue: &Rescue) -> usize {
    let files = rescue.files().take(MOST_FILES);
    let files: usize = files.map(|file| file.doubts.len()).sum();
    rescue.doubts().len() + files
}
