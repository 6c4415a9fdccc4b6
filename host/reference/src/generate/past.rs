//! Units with a past.

use super::builder::{attributes, Builder, Spread};
use super::names::{name, names};
use super::records::slice_size;
use super::Unit;
use crate::random::Random;
use crate::types::Name;

/// The ways in which slices may lie.
const SPREADS: [Spread; 3] = [Spread::Together, Spread::Apart, Spread::Anywhere];

/// A small unit with a past: nothing open, initialized.
pub fn aged(random: &mut Random) -> Unit {
    let h = random.between(1, 8);
    let s = slice_size(random);
    let most = random.pick(&[30, 30, 40, 40, 40, 60, 60, 100, 100, 200]);
    let slices = random.between(h.div_ceil(s) + 4, most);
    let wished = random.pick(&[1, 1, 1, 2, 2, 3, 5]);
    let fits = |layers: &usize| (h * layers).div_ceil(s) <= slices / 2;
    let layers = (1..=wished).rev().find(fits).unwrap_or(1);
    let spread = random.pick(&SPREADS);
    let mut builder = Builder::new(random, h, s, slices, layers, spread);
    if layers <= 3 && random.chance(65) {
        builder.fill_key(random);
    }
    // Slices that lie together leave the free ones in few stretches.
    let spreads = random.pick(&[&SPREADS[..1], &SPREADS]);
    let number = random.between(0, 20 * layers);
    for name in names(random, h, number) {
        add_small_file(random, &mut builder, name, spreads);
    }
    let number = random.below(4) as u16;
    builder.finish(number)
}

/// Adds a file of at most six slices, if there is room: now and then one of none.
fn add_small_file(random: &mut Random, builder: &mut Builder, name: Name, spreads: &[Spread]) {
    let spread = random.pick(spreads);
    if random.chance(33) {
        builder.file_of_none(random, name);
        return;
    }
    let attributes = attributes(random);
    let number = random.between(1, 6);
    builder.file(random, name, attributes, number, spread);
}

/// A unit whose files, or whose SYS, lie in close to 127 stretches, and whose free slices
/// lie alone, or all but the last ones: nothing open, initialized.
pub fn crowded(random: &mut Random) -> Unit {
    let s = random.pick(&[2, 2, 3]);
    let builder = match random.below(20) {
        0..=4 => crowded_sys(random, s),
        5..=12 => crowded_files(random, s),
        _ => striped(random, s),
    };
    let number = random.below(4) as u16;
    builder.finish(number)
}

/// One whose files have about 127 slices, most of them in as many stretches.
fn crowded_files(random: &mut Random, s: usize) -> Builder {
    let (h, layers) = (random.between(1, 4), random.between(1, 2));
    let slices = random.between(290, 420);
    let mut builder = Builder::new(random, h, s, slices, layers, Spread::Apart);
    fill_crowded(random, &mut builder);
    builder
}

/// Adds files of about 127 slices while there is room, and parts what is free then.
fn fill_crowded(random: &mut Random, builder: &mut Builder) {
    for name in names(random, builder.kit.h, 8) {
        if builder.free.len() < 310 && random.chance(80) {
            break;
        }
        add_crowded_file(random, builder, name);
    }
    builder.entries_only(random, 2);
    let free = builder.free.iter().copied().collect();
    part_free_slices(random, builder, free);
}

/// One whose free slices lie alone, about 127 of them, but for the last ones: these lie in one stretch
/// of about as many.
fn striped(random: &mut Random, s: usize) -> Builder {
    let (h, layers) = (random.between(1, 4), 1);
    let (alone, together) = (random.between(127, 136), random.between(126, 136));
    let slices = 2 * alone + together;
    let mut builder = Builder::new(random, h, s, slices, layers, Spread::Together);
    for name in names(random, h, 6) {
        builder.file_of_none(random, name);
    }
    let free = builder.free.iter().copied();
    let low = free.filter(|&slice| slice <= 2 * alone).collect();
    part_free_slices(random, &mut builder, low);
    builder
}

/// One whose SYS has about 127 slices after one layer more, with a full key, and such files.
fn crowded_sys(random: &mut Random, s: usize) -> Builder {
    let both = (20..=64).flat_map(|h| (1..=8).map(move |layers| (h, layers)));
    let after = |h: usize, layers: usize| (h * (layers + 1)).div_ceil(s);
    let choices: Vec<(usize, usize)> = both
        .filter(|&(h, layers)| (125..=131).contains(&after(h, layers)))
        .collect();
    let (h, layers) = random.pick(&choices);
    let slices = random.between(400, 460);
    let mut builder = Builder::new(random, h, s, slices, layers, Spread::Apart);
    builder.fill_key(random);
    fill_crowded(random, &mut builder);
    builder
}

/// Adds a file of about 127 slices, most of the time in as many stretches.
fn add_crowded_file(random: &mut Random, builder: &mut Builder, name: Name) {
    let number = random.between(120, 135);
    let spread = random.pick(&[Spread::Apart, Spread::Apart, Spread::Anywhere]);
    let attributes = random.pick(&[1, 1, 1, 1, 1, 1, 0, 0x0009]);
    let Some(last) = builder.file(random, name, attributes, number, spread) else {
        return;
    };
    // What comes next is taken, so that the file cannot grow where it ends.
    if random.chance(60) && builder.free.remove(&(last + 1)) {
        let name = self::name(random);
        if !builder.file_of(random, name, 1, &[last + 1]) {
            builder.free.insert(last + 1);
        }
    }
}

/// Gives neighbours among these free slices to other files, so that most of them lie alone; now and
/// then gives them all.
fn part_free_slices(random: &mut Random, builder: &mut Builder, free: Vec<usize>) {
    let neighbours: Vec<usize> = if random.chance(15) {
        free
    } else {
        let pairs = free.windows(2);
        let alike = pairs.filter(|pair| pair[0] + 1 == pair[1] && pair[1] % 2 == 0);
        alike.map(|pair| pair[1]).collect()
    };
    for part in neighbours.chunks(100) {
        let name = name(random);
        if builder.file_of(random, name, 1, part) {
            builder.take(part);
        }
    }
}
