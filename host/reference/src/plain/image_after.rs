//! Every word of the image after a call.

use super::disc::{map_of, name_in, Disc};
use super::{Block, File, Plain};

/// The image that must stand after a call, from the image before it and the plain unit
/// before and after it.
pub fn image_after(image: &[u16], before: &Plain, after: &Plain) -> Vec<u16> {
    let step = Step {
        disc: Disc::new(image),
        before,
        after,
    };
    let mut next = image.to_vec();
    step.put_map(&mut next);
    step.put_sys(&mut next);
    step.put_entries(&mut next);
    step.put_files(&mut next);
    next
}

/// The image before a call, and the plain unit before and after it.
struct Step<'a> {
    disc: Disc<'a>,
    before: &'a Plain,
    after: &'a Plain,
}

/// The names of one unit that another has not.
fn names_only_in<'a>(one: &'a Plain, other: &'a Plain) -> impl Iterator<Item = &'a String> {
    let names = one.files.keys();
    names.filter(|name| !other.files.contains_key(*name))
}

impl<'a> Step<'a> {
    /// The map and the free sectors.
    fn put_map(&self, next: &mut [u16]) {
        let free = self.after.free();
        next[2304..2560].copy_from_slice(&map_of(&free));
        next[2048 + 3] = (self.after.s * free.len()) as u16;
    }

    /// The index of SYS, and zeros in the sectors by which SYS grows.
    fn put_sys(&self, next: &mut [u16]) {
        let (before, after) = (self.before, self.after);
        if after.sys != before.sys {
            put_index(next, after, 6, &after.sys);
        }
        for block in before.h * before.layers..after.h * after.layers {
            put_sector(next, self.disc.joined(&after.sys, block), &[0; 256]);
        }
    }

    /// The entries: those that go leave zeros, those that stay are as booked, the one that
    /// comes takes the first unused place of its key.
    fn put_entries(&self, next: &mut [u16]) {
        let (before, after) = (self.before, self.after);
        for (sector, place, entry) in self.disc.entries(&before.sys, before.h * before.layers) {
            let name = name_in(&entry).expect("sound");
            let words = if after.stands(&name) {
                after.booked(&name)
            } else {
                [0; 16]
            };
            next[256 * sector + 16 * place..][..16].copy_from_slice(&words);
        }
        for name in names_only_in(after, before) {
            let unused = self.unused_place(next, name);
            next[unused..unused + 16].copy_from_slice(&after.booked(name));
        }
    }

    /// The first word of the first unused place for a name.
    fn unused_place(&self, next: &[u16], name: &str) -> usize {
        let after = self.after;
        (0..after.layers)
            .map(|layer| after.key_of(name) + layer * after.h)
            .map(|block| self.disc.joined(&after.sys, block))
            .flat_map(|sector| (0..16).map(move |place| 256 * sector + 16 * place))
            .find(|&from| next[from..from + 16].iter().all(|&word| word == 0))
            .expect("a place is unused")
    }

    /// The index blocks and the blocks that differ from those before.
    fn put_files(&self, next: &mut [u16]) {
        for (name, file) in &self.after.files {
            let (slices, sectors) = self.lists_before(name);
            if file.slices != slices && !file.slices.is_empty() {
                let index = self.after.index_sector(&file.slices);
                put_index(next, self.after, index, &file.slices);
            }
            for (block, words) in file.sectors.iter().enumerate() {
                if sectors.get(block) != Some(words) {
                    put_sector(next, self.disc.joined(&file.slices, block + 1), words);
                }
            }
        }
    }

    /// The slice list and the list of sectors that a file had. The one that comes when another
    /// goes is that other one, renamed.
    fn lists_before(&self, name: &str) -> (&'a [usize], &'a [Block]) {
        let files = &self.before.files;
        let renamed = || names_only_in(self.before, self.after).next();
        let old: Option<&File> = files.get(name).or_else(|| renamed().map(|old| &files[old]));
        old.map_or((&[], &[]), |old| (&old.slices, &old.sectors))
    }
}

fn put_sector(image: &mut [u16], sector: usize, words: &Block) {
    image[256 * sector..256 * (sector + 1)].copy_from_slice(words);
}

/// Writes an index block whole.
fn put_index(image: &mut [u16], plain: &Plain, sector: usize, slices: &[usize]) {
    let mut block = vec![0u16];
    for (number, &slice) in slices.iter().enumerate() {
        if number == 0 || slices[number - 1] + 1 != slice {
            block[0] += 1;
            block.push(0);
            block.push((plain.f + (slice - 1) * plain.s) as u16);
        }
        let length = block.len() - 2;
        block[length] += plain.s as u16;
    }
    block.resize(256, 0);
    image[256 * sector..256 * (sector + 1)].copy_from_slice(&block);
}
