//! Rules 1 to 11: the image's length, the kit, and the map by itself.

use super::{sector, Found, Rule};
use crate::layout::*;
use crate::text::count;

/// The kit of an image in which slices can be found.
pub(super) struct Usable {
    /// Its words; slice size, first sector and sectors are within limits.
    pub kit: Kit,
    /// H, if it is within its limits.
    pub keys: Option<usize>,
}

/// Checks length, kit and map; the kit, if the rest can be read by it.
pub(super) fn check(image: &[u16], found: &mut Found) -> Option<Usable> {
    let Some(words) = sector(image, KIT) else {
        let (needed, bytes) = (2 * SECTOR * (MAP_SECTOR + 1), 2 * image.len());
        found.add(Rule::Length, |finding| {
            let text =
                format!("the image has {bytes} bytes: it is too short to have sectors 6 to 9");
            finding.says(text).numbers(needed, bytes)
        });
        return None;
    };
    let kit = Kit::from_words(words);
    check_length(image, &kit, found);
    let usable = check_limits(&kit, found);
    check_top(&kit, found);
    let (usable, map) = (usable?, sector(image, MAP_SECTOR)?);
    check_past(map, &kit, found);
    check_free(map, &kit, found);
    Some(usable)
}

fn check_length(image: &[u16], kit: &Kit, found: &mut Found) {
    let (words, wanted) = (image.len(), SECTOR * kit.n);
    if words == wanted && words >= SECTOR * (MAP_SECTOR + 1) {
        return;
    }
    let sectors = match words % SECTOR {
        0 => count(words / SECTOR, "sector"),
        rest => {
            let whole = count(words / SECTOR, "sector");
            format!("{whole} and {}", count(rest, "word"))
        }
    };
    found.add(Rule::Length, |finding| {
        let text = format!(
            "the image has {sectors} ({} bytes), the kit says {} ({} bytes)",
            2 * words,
            count(kit.n, "sector"),
            2 * wanted
        );
        let finding = finding.says(text).numbers(2 * wanted, 2 * words);
        finding.at(KIT, 2)
    });
}

/// The limits that can be judged, each once.
fn check_limits(kit: &Kit, found: &mut Found) -> Option<Usable> {
    let keys = limit(found, Rule::Keys, 0, ("H", kit.h), (1, 64));
    let slice = limit(found, Rule::SliceSize, 1, ("s", kit.s), (2, 64));
    let first = limit(found, Rule::FirstSector, 4, ("F", kit.f), (10, usize::MAX));
    let above = check_above(kit, found);
    let sectors = above && limit(found, Rule::Sectors, 2, ("N", kit.n), (0, 32_767));
    if !(slice && first && sectors) {
        return None;
    }
    let data = kit.n - kit.f;
    if !data.is_multiple_of(kit.s) {
        found.add(Rule::WholeSlices, |finding| {
            let (n, f, s, rest) = (kit.n, kit.f, kit.s, data % kit.s);
            let text = format!("N - F is {n} - {f} = {data}: divided by s = {s} it leaves {rest}");
            finding.says(text).numbers(0, rest).at(KIT, 1)
        });
        return None;
    }
    let slices = kit.slices();
    if slices > 4_096 {
        found.add(Rule::MostSlices, |finding| {
            let text = format!("{slices} slices, and the map has 4096 bits");
            finding.says(text).numbers(4_096, slices).at(KIT, 1)
        });
        return None;
    }
    let needed = kit.h.div_ceil(kit.s);
    if keys && slices < needed {
        found.add(Rule::LeastSlices, |finding| {
            let (has, h) = (count(slices, "slice"), kit.h);
            let text = format!("{has}, and H = {h} needs {needed}");
            finding.says(text).numbers(needed, slices).at(KIT, 0)
        });
    }
    let keys = (keys && slices >= needed).then_some(kit.h);
    Some(Usable { kit: *kit, keys })
}

/// Whether N is above F; either may be the wrong one.
fn check_above(kit: &Kit, found: &mut Found) -> bool {
    let (n, f) = (kit.n, kit.f);
    if n <= f {
        found.add(Rule::Sectors, |finding| {
            let text = format!("N is {n} and has to be above F, {f}");
            finding.says(text).numbers(f + 1, n).at(KIT, 2)
        });
    }
    n > f
}

/// Whether a number of the kit is within its limits.
fn limit(
    found: &mut Found,
    rule: Rule,
    word: usize,
    (letter, number): (&str, usize),
    (low, high): (usize, usize),
) -> bool {
    let (broken, text) = if number < low {
        (
            low,
            format!("{letter} is {number}, and at least {low} is legal"),
        )
    } else if number > high {
        (
            high,
            format!("{letter} is {number}, and at most {high} is legal"),
        )
    } else {
        return true;
    };
    found.add(rule, |finding| {
        finding.says(text).numbers(broken, number).at(KIT, word)
    });
    false
}

fn check_top(kit: &Kit, found: &mut Found) {
    let (top, n) = (kit.top, kit.n);
    if top != n {
        found.add(Rule::Top, |finding| {
            let text = format!("the top is {top}, and N is {n}");
            finding.says(text).numbers(n, top).at(KIT, 5)
        });
    }
}

/// Bits past the last slice, neighbours in one finding.
fn check_past(map: &[u16], kit: &Kit, found: &mut Found) {
    let last = kit.slices();
    let is_one = |slice: &usize| map[(slice - 1) / 16] & bit_word((slice - 1) % 16) != 0;
    let ones: Vec<usize> = (last + 1..=16 * SECTOR).filter(is_one).collect();
    for (first, number) in stretches(&ones) {
        found.add(Rule::MapPast, |finding| {
            let highest = first + number - 1;
            let text = match number {
                1 => format!("the bit of slice {first} is 1, and the last slice is {last}"),
                _ => format!(
                    "the bits of slices {first} to {highest} are 1, and the last slice is {last}"
                ),
            };
            let finding = finding.says(text).numbers(last, highest);
            finding.at(MAP_SECTOR, (first - 1) / 16)
        });
    }
}

fn check_free(map: &[u16], kit: &Kit, found: &mut Found) {
    let ones: usize = map.iter().map(|word| word.count_ones() as usize).sum();
    let free = kit.s * ones;
    if kit.free != free {
        found.add(Rule::Free, |finding| {
            let text = format!(
                "the kit says {}, the map has {} of {} sectors: {free}",
                count(kit.free, "free sector"),
                count(ones, "free slice"),
                kit.s
            );
            finding.says(text).numbers(free, kit.free).at(KIT, 3)
        });
    }
}
