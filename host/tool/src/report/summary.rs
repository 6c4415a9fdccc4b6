//! The top of the page: whether the image is sound, the unit's numbers, its space and how much
//! the files are broken up.

use ruzkemp::Name;

use crate::host::SECTOR_BYTES;
use crate::values::count;
use crate::view::{Holder, Stretch, View};

use super::subject::Content;

/// What the page is, above the heading.
pub fn kind(content: &Content) -> String {
    match content {
        Content::Sound(view) => format!("Disc report &middot; unit {}", view.unit),
        Content::Unsound(_) => "Disc report".into(),
    }
}

/// Which implementation read what, below the page.
pub fn source(content: &Content) -> &'static str {
    match content {
        Content::Sound(_) => {
            " The entries are as the proved library lists them, the slices as the second \
             implementation reads them."
        }
        Content::Unsound(_) => "",
    }
}

/// The verdict of both implementations, beside the heading.
pub fn verdict(content: &Content) -> String {
    let (class, sign, word) = match content {
        Content::Sound(_) => ("good", "M4 10.5l4 4 8-9", "sound"),
        Content::Unsound(_) => ("bad", "M5 5l10 10M15 5L5 15", "not sound"),
    };
    let title = match content {
        Content::Sound(_) => "Sound",
        Content::Unsound(_) => "Not sound",
    };
    format!(
        "<div class=\"verdict {class}\">\n\
         <svg viewBox=\"0 0 20 20\" aria-hidden=\"true\"><path d=\"{sign}\"/></svg>\n\
         <div><strong>{title}</strong>\n\
         <ul><li>second implementation: {word}</li><li>proved library: {word}</li></ul></div>\n\
         </div>\n"
    )
}

/// The cards of a sound unit.
pub fn of_unit(view: &View) -> String {
    let sys = view.files.iter().find(|file| file.name == Name::SYS);
    let layers = sys.map_or(0, |sys| sys.entry.length() as usize / view.kit.h);
    let tiles = [
        tile("Sectors", "N", view.kit.n),
        tile("First data sector", "F", view.kit.f),
        tile("Sectors in a slice", "s", view.kit.s),
        tile("Keys", "H", view.kit.h),
        tile("Layers", "L", layers),
        tile("Slices", "", view.slices()),
    ];
    format!(
        "<dl class=\"tiles\">\n{}</dl>\n<div class=\"pair\">\n{}{}</div>\n",
        tiles.concat(),
        space(view),
        fragmentation(view)
    )
}

/// A number of the unit, with its letter.
pub fn tile(label: &str, letter: &str, value: usize) -> String {
    let letter = match letter {
        "" => String::new(),
        _ => format!(" <i>{letter}</i>"),
    };
    format!("<div><dt>{label}{letter}</dt><dd>{value}</dd></div>\n")
}

/// How much is free, with a bar.
fn space(view: &View) -> String {
    let sys = view.files.iter().find(|file| file.name == Name::SYS);
    let (all, free) = (view.slices(), view.free_slices());
    let catalog = sys.map_or(0, Holder::slices);
    let files = all - free - catalog;
    let (sectors, percent) = (free * view.kit.s, percent(free, all));
    let bytes = sectors * SECTOR_BYTES;
    let slices = |number: usize| count(number as u64, "slice");
    format!(
        "<section class=\"card space\" aria-labelledby=\"space-title\">\n\
         <h2 id=\"space-title\">Free space</h2>\n\
         <p class=\"figure\"><b>{percent}&#8202;%</b> {free} of {} free</p>\n\
         <p class=\"muted\">{} &middot; {bytes} bytes</p>\n\
         <svg class=\"bar\" viewBox=\"0 0 {all} 10\" preserveAspectRatio=\"none\" role=\"img\" \
         aria-label=\"{free} of {all} slices are free\">\
         <rect class=\"free\" width=\"{all}\" height=\"10\"/>\
         <rect class=\"files\" width=\"{}\" height=\"10\"/>\
         <rect class=\"catalog\" width=\"{catalog}\" height=\"10\"/></svg>\n\
         <ul class=\"key\"><li class=\"catalog\">catalog {}</li>\
         <li class=\"files\">files {}</li><li class=\"free\">free {}</li></ul>\n</section>\n",
        slices(all),
        count(sectors as u64, "sector"),
        catalog + files,
        slices(catalog),
        slices(files),
        slices(free)
    )
}

/// How much of all there is, in per cent: 0 and 100 are said only of nothing and of all.
fn percent(some: usize, all: usize) -> String {
    match (200 * some + all) / (2 * all) {
        0 if some > 0 => "under 1".into(),
        100 if some < all => "over 99".into(),
        rounded => rounded.to_string(),
    }
}

/// How much the files and the free slices are broken up.
fn fragmentation(view: &View) -> String {
    let holders = view.holders();
    let whole = holders.iter().filter(|file| file.stretches.len() == 1);
    let stretches: usize = holders.iter().map(|file| file.stretches.len()).sum();
    // Of several the first by name, which is the last that max_by_key would give.
    let broken = holders.iter().rev().max_by_key(|file| file.stretches.len());
    let most = broken.map_or(String::new(), |file| {
        format!("{} ({})", file.stretches.len(), file.name)
    });
    let longest = holders
        .iter()
        .rev()
        .max_by_key(|file| longest(&file.stretches));
    let longest_file = longest.map_or(String::new(), |file| {
        let slices = count(self::longest(&file.stretches) as u64, "slice");
        format!("{slices} ({})", file.name)
    });
    let facts = [
        fact(
            "Files with slices in one stretch",
            &format!("{} of {}", whole.count(), holders.len()),
        ),
        fact("Stretches of all files", &stretches.to_string()),
        fact("Most stretches of a file", &most),
        fact("Longest stretch of a file", &longest_file),
        fact("Free stretches", &view.free.len().to_string()),
        fact(
            "Longest free stretch",
            &count(self::longest(&view.free) as u64, "slice"),
        ),
    ];
    format!(
        "<section class=\"card\" aria-labelledby=\"broken-title\">\n\
         <h2 id=\"broken-title\">Fragmentation</h2>\n<dl class=\"facts\">\n{}</dl>\n</section>\n",
        facts.concat()
    )
}

/// The slices of the longest of some stretches.
pub fn longest(stretches: &[Stretch]) -> usize {
    let lengths = stretches.iter().map(|stretch| stretch.slices);
    lengths.max().unwrap_or(0)
}

fn fact(label: &str, value: &str) -> String {
    format!("<div><dt>{label}</dt><dd>{value}</dd></div>\n")
}

#[cfg(test)]
mod tests {
    use super::*;

    #[test]
    fn only_nothing_is_0_per_cent_and_only_all_100() {
        for (some, all, told) in [
            (0, 4, "0"),
            (1, 4_094, "under 1"),
            (20, 4_096, "under 1"),
            (21, 4_096, "1"),
            (1, 3, "33"),
            (1, 8, "13"),
            (995, 1_000, "over 99"),
            (994, 1_000, "99"),
            (4_096, 4_096, "100"),
        ] {
            assert_eq!(percent(some, all), told, "{some} of {all}");
        }
    }
}
