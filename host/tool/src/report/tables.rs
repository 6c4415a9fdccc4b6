//! The tables: files and free stretches.

use ruzkemp::Name;

use crate::host::SECTOR_BYTES;
use crate::palette::{code, Colour};
use crate::view::{joined, Holder, Stretch, View};

use super::map::colours;
use super::summary::longest;
use super::text::escaped;

/// A column: its heading and how it is sorted (`order` is the listing's own).
type Column = (&'static str, &'static str);

/// A table of so many rows is a long one: only its rows in sight are laid out.
const LONG: usize = 200;

const FILES: [Column; 9] = [
    ("Name", "order"),
    ("Length", "number"),
    ("Reserved", "number"),
    ("Bytes", "number"),
    ("Index", "number"),
    ("Slices", "number"),
    ("Stretches", "number"),
    ("Longest", "number"),
    ("Attributes", "text"),
];

const FREE: [Column; 6] = [
    ("Stretch", "order"),
    ("First slice", "number"),
    ("Last slice", "number"),
    ("Slices", "number"),
    ("First sector", "number"),
    ("Bytes", "number"),
];

/// The section with the files.
pub fn files(view: &View) -> String {
    // Never one: SYS and MAP are entered on every sound unit.
    let number = view.files.len();
    format!(
        "<section class=\"card\" aria-labelledby=\"files-title\">\n\
         <div class=\"headline\"><h2 id=\"files-title\">Files</h2>\n\
         <p class=\"muted\" id=\"count\" role=\"status\">{number} entries</p>\n\
         <label class=\"live\">Filter <input id=\"filter\" type=\"search\" \
         placeholder=\"name or attribute\" autocomplete=\"off\" spellcheck=\"false\"></label></div>\n\
         <p class=\"muted\">Lengths and reserved lengths are in sectors, the longest stretch in \
         slices; the index is the sector of the index block.</p>\n\
         {}</section>\n",
        table("files", "Files", &FILES, &file_rows(view))
    )
}

fn file_rows(view: &View) -> Vec<String> {
    let mut rows = Vec::new();
    for ((number, file), colour) in view.files.iter().enumerate().zip(colours(view)) {
        let entry = &file.entry;
        let swatch = swatch(file, colour);
        let length = entry.length() as usize;
        let places = listed(&file.stretches);
        rows.push(format!(
            "<tr data-of=\"f{number}\" data-length=\"{length}\"><th scope=\"row\">\
             {swatch}{}</th>\
             <td>{length}</td><td>{}</td><td>{}</td><td>{}</td><td>{}</td>\
             <td title=\"{places}\">{}</td><td>{}</td><td>{}</td></tr>\n",
            escaped(&file.name.to_string()),
            entry.reserved(),
            length * SECTOR_BYTES,
            entry.index(),
            file.slices(),
            file.stretches.len(),
            longest(&file.stretches),
            escaped(&entry.attributes().to_string()),
        ));
    }
    rows
}

/// A file's colour before its name; a file without slices has none.
fn swatch(file: &Holder, colour: Option<Colour>) -> String {
    let paint = match (colour, file.name) {
        (None, _) => "class=\"none\"".into(),
        (_, Name::SYS) => "class=\"sys\"".into(),
        (Some(colour), _) => format!("fill=\"{}\"", code(colour)),
    };
    format!(
        "<svg class=\"swatch\" viewBox=\"0 0 12 12\" aria-hidden=\"true\">\
         <rect x=\".5\" y=\".5\" width=\"11\" height=\"11\" rx=\"3\" {paint}/></svg>"
    )
}

/// The slices of stretches, all of them.
fn listed(stretches: &[Stretch]) -> String {
    match stretches.is_empty() {
        true => "no slices".into(),
        false => format!("slices {}", joined(stretches, ", ")),
    }
}

/// The section with the free stretches.
pub fn free(view: &View) -> String {
    let number = match view.free.len() {
        1 => "1 stretch".into(),
        many => format!("{many} stretches"),
    };
    let body = match view.free.is_empty() {
        true => "<p class=\"muted\">No slice is free.</p>\n".into(),
        false => table("free", "Free stretches", &FREE, &free_rows(view)),
    };
    format!(
        "<section class=\"card\" aria-labelledby=\"free-title\">\n\
         <div class=\"headline\"><h2 id=\"free-title\">Free stretches</h2>\n\
         <p class=\"muted\">{number}</p></div>\n{body}</section>\n"
    )
}

fn free_rows(view: &View) -> Vec<String> {
    let mut rows = Vec::new();
    for (number, stretch) in view.free.iter().enumerate() {
        let (first, last) = view.sectors(stretch);
        rows.push(format!(
            "<tr data-of=\"e{number}\"><th scope=\"row\">{}</th><td>{}</td><td>{}</td><td>{}</td>\
             <td>{first}</td><td>{}</td></tr>\n",
            number + 1,
            stretch.first,
            stretch.last(),
            stretch.slices,
            (last + 1 - first) * SECTOR_BYTES,
        ));
    }
    rows
}

/// A table that the script sorts; it comes sorted by its first column.
fn table(id: &str, label: &str, columns: &[Column], rows: &[String]) -> String {
    let heads = columns.iter().enumerate().map(|(place, (heading, sort))| {
        let sorted = if place == 0 {
            " aria-sort=\"ascending\""
        } else {
            ""
        };
        format!(
            "<th scope=\"col\" data-sort=\"{sort}\"{sorted}><button type=\"button\">{heading}\
             </button></th>"
        )
    });
    let heads: String = heads.collect();
    let class = match rows.len() >= LONG {
        true => " class=\"long\"",
        false => "",
    };
    format!(
        "<div class=\"scroll\" role=\"region\" aria-label=\"{label}\" tabindex=\"0\">\
         <table id=\"{id}\"{class}>\n<thead><tr>{heads}</tr></thead>\n<tbody>\n{}</tbody></table></div>\n",
        rows.concat()
    )
}
