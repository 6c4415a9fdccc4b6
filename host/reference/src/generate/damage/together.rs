//! Changes of several words that keep some rules and break others.

use crate::generate::names::{illegal, other_case};
use crate::generate::words::{first_word, write_pairs};
use crate::layout::*;
use crate::random::Random;
use crate::sound::{Entry, Survey};
use crate::unit::mark;

/// A change of an image whose survey was made before, often of an entry; gives what it did.
type Change = fn(&mut Random, &mut [u16], &Survey, &Entry) -> String;

/// The changes.
const CHANGES: [Change; 13] = [
    turn_slice,
    move_entry,
    split_or_exchange_pairs,
    change_layers,
    share_index,
    drop_slice,
    change_booking,
    change_attributes,
    stretch_pair,
    move_sys_to_slack,
    copy_to_slack,
    change_character,
    change_case,
];

/// Makes a change that keeps some rules of a sound image and breaks others.
pub(super) fn damage_together(random: &mut Random, image: &mut [u16], survey: &Survey) -> String {
    let entry = &survey.entries[random.below(survey.entries.len())];
    random.pick(&CHANGES)(random, image, survey, entry)
}

/// A slice becomes free or used in the map and the free sectors; at times one past the last.
fn turn_slice(random: &mut Random, image: &mut [u16], survey: &Survey, _: &Entry) -> String {
    let kit = survey.kit;
    let past = random.pick(&[0, 0, 1, 2]);
    let last = (kit.slices() + past).min(16 * SECTOR);
    let mut slice = random.between(1, last);
    if past > 0 && random.chance(50) {
        slice = last;
    }
    let was_free = marked_free(image, slice);
    mark(image, slice, !was_free);
    let free = if was_free {
        kit.free - kit.s
    } else {
        kit.free + kit.s
    };
    image[KIT * SECTOR + 3] = free as u16;
    format!("slice {slice} becomes free or used")
}

/// An entry is moved or copied.
fn move_entry(random: &mut Random, image: &mut [u16], survey: &Survey, entry: &Entry) -> String {
    let from = first_word(entry);
    let block = random.below(survey.kit.h * survey.layers);
    let sector = survey.kit.sys_sector(&survey.sys, block);
    let to = sector * SECTOR + random.below(PLACES) * ENTRY;
    image[to..to + ENTRY].copy_from_slice(&entry.words);
    if random.chance(50) && to != from {
        image[from..from + ENTRY].fill(0);
    }
    "an entry is moved or copied".into()
}

/// A pair is split in two, or two are exchanged.
fn split_or_exchange_pairs(
    random: &mut Random,
    image: &mut [u16],
    survey: &Survey,
    entry: &Entry,
) -> String {
    let kit = survey.kit;
    let sector = own_index(&kit, entry).unwrap_or(SYS_INDEX);
    let block = &mut image[sector * SECTOR..(sector + 1) * SECTOR];
    let count = block[0] as usize;
    let pair = random.below(count);
    let (length, first) = (block[1 + 2 * pair], block[2 + 2 * pair]);
    if length as usize > kit.s && count < STRETCHES && random.chance(60) {
        block.copy_within(1 + 2 * pair..1 + 2 * count, 3 + 2 * pair);
        block[0] += 1;
        block[1 + 2 * pair] = kit.s as u16;
        block[3 + 2 * pair] = length - kit.s as u16;
        block[4 + 2 * pair] = first + kit.s as u16;
        format!("pair {pair} of the index in sector {sector} is split")
    } else {
        let other = random.below(count);
        block.swap(1 + 2 * pair, 1 + 2 * other);
        block.swap(2 + 2 * pair, 2 + 2 * other);
        format!("pairs {pair} and {other} in sector {sector} are exchanged")
    }
}

/// A layer of SYS comes or goes in the length only.
fn change_layers(random: &mut Random, image: &mut [u16], survey: &Survey, _: &Entry) -> String {
    let sys = survey.find(SYS).expect("SYS is entered");
    let h = survey.kit.h as u16;
    let more = random.chance(50);
    image[first_word(sys) + 7] = if more {
        sys.words[7].wrapping_add(h)
    } else {
        sys.words[7] - h
    };
    format!("SYS has a layer more ({more}) or less")
}

/// Two entries share an index.
fn share_index(random: &mut Random, image: &mut [u16], survey: &Survey, entry: &Entry) -> String {
    let from = first_word(entry);
    let other = &survey.entries[random.below(survey.entries.len())];
    image[from + 7..from + 10].copy_from_slice(&other.words[7..10]);
    "two entries share an index".into()
}

/// A file's last slice is dropped from index and entry; at times the map keeps it used.
fn drop_slice(random: &mut Random, image: &mut [u16], survey: &Survey, entry: &Entry) -> String {
    let s = survey.kit.s as u16;
    if entry.slices.len() > 1 && entry.name() != SYS {
        let mut slices = entry.slices.clone();
        let last = slices.pop().expect("more than one");
        let sector = survey.kit.first_sector(slices[0]);
        write_pairs(image, &survey.kit, sector, &slices);
        let reserved = &mut image[first_word(entry) + 9];
        *reserved = reserved.saturating_sub(s);
        if random.chance(50) {
            mark(image, last, true);
            image[KIT * SECTOR + 3] += s;
        }
    }
    "a slice is dropped from a file".into()
}

/// The booked words of a file change together.
fn change_booking(
    random: &mut Random,
    image: &mut [u16],
    survey: &Survey,
    entry: &Entry,
) -> String {
    let from = first_word(entry);
    let slices = random.below(entry.slices.len() + 2);
    let sectors = slices * survey.kit.s;
    image[from + 9] = sectors as u16;
    if slices == 0 && random.chance(50) {
        image[from + 8] = 0;
    }
    image[from + 7] = random.below(sectors + 1) as u16;
    "booked words changed".into()
}

/// The attributes of a file change.
fn change_attributes(random: &mut Random, image: &mut [u16], _: &Survey, entry: &Entry) -> String {
    let values = [0x0004, 0x0005, 0x8010, 0x0002, 0x0000, 0x401D];
    image[first_word(entry) + 6] = random.pick(&values);
    "attributes changed".into()
}

/// A pair becomes a slice longer or shorter, or begins a slice later or earlier; at times one
/// that ends where the disc ends.
fn stretch_pair(random: &mut Random, image: &mut [u16], survey: &Survey, entry: &Entry) -> String {
    let kit = survey.kit;
    let last = |slices: &[usize]| slices.contains(&kit.slices());
    let entry = match survey.entries.iter().find(|e| last(&e.slices)) {
        Some(end) if random.chance(50) => end,
        _ => entry,
    };
    let own = own_index(&kit, entry);
    let sector = own.unwrap_or(SYS_INDEX);
    let block = &mut image[sector * SECTOR..(sector + 1) * SECTOR];
    let pair = pair_at_end_or_any(random, block, kit.n);
    let word = &mut block[1 + 2 * pair + random.pick(&[0, 0, 1])];
    *word = if random.chance(60) {
        word.wrapping_add(kit.s as u16)
    } else {
        word.wrapping_sub(kit.s as u16)
    };
    let lengths = (0..block[0] as usize).map(|pair| block[1 + 2 * pair] as usize);
    let total: usize = lengths.sum();
    if own.is_some() && random.chance(70) {
        image[first_word(entry) + 9] = total as u16;
    }
    format!("pair {pair} in sector {sector} is moved or stretched by a slice")
}

/// A pair of an index, often the one that ends where the disc of `n` sectors ends.
fn pair_at_end_or_any(random: &mut Random, block: &[u16], n: usize) -> usize {
    let pairs = 0..block[0] as usize;
    let reaches = |pair: &usize| block[1 + 2 * pair] as usize + block[2 + 2 * pair] as usize == n;
    match pairs.clone().find(reaches) {
        Some(pair) if random.chance(70) => pair,
        _ => random.below(pairs.end),
    }
}

/// SYS's entry is moved to where a further layer would have it.
fn move_sys_to_slack(_: &mut Random, image: &mut [u16], survey: &Survey, _: &Entry) -> String {
    let kit = survey.kit;
    if kit.h * (survey.layers + 1) > kit.s * survey.sys.len() {
        return "nothing".into();
    }
    let sys = survey.find(SYS).expect("SYS is entered");
    image[first_word(sys)..][..ENTRY].fill(0);
    let block = key(SYS, kit.h) + kit.h * survey.layers;
    let slack = kit.sys_sector(&survey.sys, block);
    image[slack * SECTOR..][..ENTRY].copy_from_slice(&sys.words);
    "SYS is entered in the slack".into()
}

/// An entry is copied to the last sector of SYS's slack, which holds no entries.
fn copy_to_slack(_: &mut Random, image: &mut [u16], survey: &Survey, entry: &Entry) -> String {
    let kit = survey.kit;
    let blocks = survey.sys.len() * kit.s;
    if blocks <= kit.h * survey.layers {
        return "nothing".into();
    }
    let sector = kit.sys_sector(&survey.sys, blocks - 1);
    image[sector * SECTOR..][..ENTRY].copy_from_slice(&entry.words);
    "an entry in the slack".into()
}

/// A character of a name becomes one that no name has.
fn change_character(random: &mut Random, image: &mut [u16], _: &Survey, entry: &Entry) -> String {
    let place = random.below(5);
    let word = &mut image[first_word(entry) + place / 2];
    let mut characters = word.to_be_bytes();
    characters[place % 2] = illegal(random);
    *word = u16::from_be_bytes(characters);
    format!("character {place} of a name becomes an illegal one")
}

/// Letters of a name become small where they were capitals, or the reverse; at times the entry moves
/// to the first place of its new key. The unit stays sound where it stands in its key's sector, is
/// alone of its name and was not SYS or MAP.
fn change_case(random: &mut Random, image: &mut [u16], survey: &Survey, entry: &Entry) -> String {
    let new = other_case(random, entry.name());
    let from = first_word(entry);
    image[from..from + 3].copy_from_slice(&new);
    let sector = survey.kit.sys_sector(&survey.sys, key(new, survey.kit.h));
    let to = sector * SECTOR;
    if random.chance(50) && image[to..to + ENTRY] == [0; ENTRY] {
        image.copy_within(from..from + ENTRY, to);
        image[from..from + ENTRY].fill(0);
    }
    "a name changes in case only".into()
}

/// The sector of a file's own index, if it has slices.
fn own_index(kit: &Kit, entry: &Entry) -> Option<usize> {
    entry.slices.first().map(|&k| kit.first_sector(k))
}
