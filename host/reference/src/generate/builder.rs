//! Units written straight from the layout, file by file.

use std::collections::BTreeSet;

use super::names::{name, names};
use super::records::initialize;
use super::words::write_pairs;
use super::Unit;
use crate::layout::*;
use crate::random::Random;
use crate::sound::survey;
use crate::types::{Name, State};
use crate::unit::mark;

/// How a file's slices lie on the disc.
#[derive(Clone, Copy)]
pub(super) enum Spread {
    /// Each in the first free slice from the next one on.
    Together,
    /// With a gap of one slice at least, where there is room.
    Apart,
    /// In no order.
    Anywhere,
}

/// A unit being built.
pub(super) struct Builder {
    /// The kit, its free sectors not yet counted.
    pub kit: Kit,
    /// The layers of SYS.
    layers: usize,
    /// The disc.
    image: Vec<u16>,
    /// The slices that no file has.
    pub free: BTreeSet<usize>,
}

impl Builder {
    /// A unit without entries whose SYS shall have so many layers.
    pub fn empty(random: &mut Random, h: usize, s: usize, slices: usize, layers: usize) -> Builder {
        let f = random.between(10, 14);
        let n = f + s * slices;
        let kit = Kit {
            h,
            s,
            n,
            free: 0,
            f,
            top: n,
        };
        Builder {
            kit,
            layers,
            image: random.words(SECTOR * n),
            free: (1..=slices).collect(),
        }
    }

    /// A unit whose SYS has so many layers, with SYS and MAP entered.
    pub fn new(
        random: &mut Random,
        h: usize,
        s: usize,
        slices: usize,
        layers: usize,
        spread: Spread,
    ) -> Builder {
        let mut builder = Builder::empty(random, h, s, slices, layers);
        let mut sys = vec![1];
        builder.free.remove(&1);
        let more = (h * layers).div_ceil(s) - 1;
        builder.choose(random, &mut sys, more, spread);
        assert!(sys.len() == more + 1, "SYS found its slices");
        builder.enter_system(random, &sys);
        builder
    }

    /// A sound unit that has nothing open, to be added to.
    pub fn over(unit: Unit) -> Builder {
        let Unit { image, state } = unit;
        let survey = survey(&image, &state).expect("a sound unit");
        let free = (1..=survey.kit.slices()).filter(|&slice| marked_free(&image, slice));
        Builder {
            kit: survey.kit,
            layers: survey.layers,
            free: free.collect(),
            image,
        }
    }

    /// Writes SYS in the slices that it took, with SYS and MAP entered.
    pub fn enter_system(&mut self, random: &mut Random, sys: &[usize]) {
        let kit = self.kit;
        write_pairs(&mut self.image, &kit, SYS_INDEX, sys);
        for block in 0..kit.h * self.layers {
            let sector = kit.sys_sector(sys, block);
            self.image[sector * SECTOR..(sector + 1) * SECTOR].fill(0);
        }
        let length = (kit.h * self.layers) as u16;
        let reserved = (kit.s * sys.len()) as u16;
        let sys_entry = [CATALOG_FILE, length, SYS_INDEX as u16, reserved];
        self.enter(random, sys, SYS, sys_entry, &[0; 9]);
        let map_entry = [CATALOG_FILE, 1, MAP_INDEX as u16, 1];
        self.enter(random, sys, MAP, map_entry, &[0; 9]);
        self.image[MAP_INDEX * SECTOR..][..3].copy_from_slice(&[1, 1, MAP_SECTOR as u16]);
    }

    /// The slices of SYS.
    fn sys(&self) -> Vec<usize> {
        let index = &self.image[SYS_INDEX * SECTOR..];
        let mut sys = Vec::new();
        for pair in 0..index[0] as usize {
            let first = (index[2 + 2 * pair] as usize - self.kit.f) / self.kit.s + 1;
            sys.extend(first..first + index[1 + 2 * pair] as usize / self.kit.s);
        }
        sys
    }

    /// Takes the given slices.
    pub fn take(&mut self, slices: &[usize]) {
        for slice in slices {
            self.free.remove(slice);
        }
    }

    /// Takes up to so many free slices in at most 127 stretches.
    fn choose(
        &mut self,
        random: &mut Random,
        slices: &mut Vec<usize>,
        number: usize,
        spread: Spread,
    ) {
        for _ in 0..number {
            let last = slices.last().copied().unwrap_or(0);
            let after = match spread {
                Spread::Together => last + 1,
                Spread::Apart => last + 2,
                Spread::Anywhere => random.between(1, self.kit.slices()),
            };
            let lowest = self.free.iter().next();
            let Some(&slice) = self.free.range(after..).next().or(lowest) else {
                return;
            };
            slices.push(slice);
            if stretches(slices).len() > STRETCHES {
                slices.pop();
                return;
            }
            self.free.remove(&slice);
        }
    }

    /// Where the places of a name's key begin. No entry of that name can stand elsewhere, so that
    /// units of 100,000 entries are made in seconds.
    fn places(&self, sys: &[usize], name: Name) -> Vec<usize> {
        (0..self.layers)
            .map(|layer| key(name, self.kit.h) + layer * self.kit.h)
            .map(|block| self.kit.sys_sector(sys, block))
            .flat_map(|sector| (0..PLACES).map(move |p| sector * SECTOR + p * ENTRY))
            .collect()
    }

    /// Enters a new name in some unused place of its key, if there is one.
    fn enter(
        &mut self,
        random: &mut Random,
        sys: &[usize],
        name: Name,
        middle: [u16; 4],
        rest: &[u16; 9],
    ) -> bool {
        let mut places = self.places(sys, name);
        let image = &self.image;
        if places.iter().any(|&from| image[from..from + 3] == name) {
            return false;
        }
        places.retain(|&from| image[from..from + ENTRY].iter().all(|&w| w == 0));
        if places.is_empty() {
            return false;
        }
        let from = if random.chance(60) {
            places[0]
        } else {
            random.pick(&places)
        };
        let entry = &mut self.image[from..from + ENTRY];
        entry[..3].copy_from_slice(&name);
        entry[3..6].copy_from_slice(&rest[..3]);
        entry[6..10].copy_from_slice(&middle);
        entry[10..].copy_from_slice(&rest[3..]);
        true
    }

    /// Adds a file of up to so many slices and gives its last one.
    pub fn file(
        &mut self,
        random: &mut Random,
        name: Name,
        attributes: u16,
        number: usize,
        spread: Spread,
    ) -> Option<usize> {
        let mut slices = Vec::new();
        self.choose(random, &mut slices, number, spread);
        if self.file_of(random, name, attributes, &slices) {
            slices.last().copied()
        } else {
            self.free.extend(slices);
            None
        }
    }

    /// Adds a file that has these slices, as long as they allow or shorter.
    pub fn file_of(
        &mut self,
        random: &mut Random,
        name: Name,
        attributes: u16,
        slices: &[usize],
    ) -> bool {
        let most = (slices.len() * self.kit.s).saturating_sub(1);
        let length = match random.below(4) {
            _ if slices.len() > 60 => most - random.pick(&[0, 0, 0, 1]),
            0 if random.chance(60) => 0,
            0 => random.between(0, most),
            1 => most.saturating_sub(random.below(self.kit.s)),
            _ => most,
        };
        let mut rest = [0; 9];
        if random.chance(50) {
            random.fill(&mut rest);
        }
        let index = slices.first().map_or(0, |&k| self.kit.first_sector(k));
        let reserved = slices.len() * self.kit.s;
        let middle = [attributes, length as u16, index as u16, reserved as u16];
        let sys = self.sys();
        let entered = self.enter(random, &sys, name, middle, &rest);
        if entered && index != 0 {
            write_pairs(&mut self.image, &self.kit, index, slices);
        }
        entered
    }

    /// Adds a file of no slices, often an entry only.
    pub fn file_of_none(&mut self, random: &mut Random, name: Name) -> bool {
        let attributes = if random.chance(40) {
            entry_only(random)
        } else {
            attributes(random)
        };
        self.file_of(random, name, attributes, &[])
    }

    /// Adds entry-only files, up to so many.
    pub fn entries_only(&mut self, random: &mut Random, most: usize) {
        let number = random.between(0, most);
        for name in names(random, self.kit.h, number) {
            let attributes = entry_only(random);
            self.file_of(random, name, attributes, &[]);
        }
    }

    /// Fills one key, or all but a place or two of it, with files of no slices.
    pub fn fill_key(&mut self, random: &mut Random) {
        let h = self.kit.h;
        let full = random.below(h);
        let taken = [SYS, MAP].iter().filter(|n| key(**n, h) == full).count();
        let missing = random.pick(&[0, 0, 0, 0, 1, 2]);
        let mut seen = BTreeSet::from([SYS, MAP]);
        while seen.len() < 16 * self.layers - taken - missing + 2 {
            let name = name(random);
            if key(name, h) == full && seen.insert(name) {
                self.file_of_none(random, name);
            }
        }
    }

    /// Writes map and kit and initializes the unit.
    pub fn finish(mut self, unit: u16) -> Unit {
        self.image[MAP_SECTOR * SECTOR..(MAP_SECTOR + 1) * SECTOR].fill(0);
        for &slice in &self.free {
            mark(&mut self.image, slice, true);
        }
        let free = self.free.len() * self.kit.s;
        let kit = [
            self.kit.h, self.kit.s, self.kit.n, free, self.kit.f, self.kit.n,
        ];
        let kit = kit.map(|value| value as u16);
        self.image[KIT * SECTOR..][..6].copy_from_slice(&kit);
        let mut unit = Unit {
            image: self.image,
            state: State::new(unit),
        };
        initialize(&mut unit);
        unit
    }
}

/// Attributes of an entry-only file: bit 13 alone, or with bits 1, 11 and 12.
pub(super) fn entry_only(random: &mut Random) -> u16 {
    let seldom = [0x4004, 0x0014, 0x000C, 0x401C];
    if random.chance(70) {
        ENTRY_ONLY
    } else {
        random.pick(&seldom)
    }
}

/// Attributes that a caller may give, mostly without permanent and write protected.
pub(super) fn attributes(random: &mut Random) -> u16 {
    let often = [0, 1, 1, 1, 1, 0x4001, 0x4000];
    let seldom = [0x0010, 0x0011, 0x0008, 0x0009, 0x0018, 0x4019];
    if random.chance(92) {
        random.pick(&often)
    } else {
        random.pick(&seldom)
    }
}
