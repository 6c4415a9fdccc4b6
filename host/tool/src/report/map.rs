//! The map as a picture in the page: a cell for each slice, a bar for each stretch.
//!
//! It is drawn for a wide page and gets narrower with it. The script draws it again for the width
//! that there is: what it needs stands in the `data` attributes.

use ruzkemp::Name;

use crate::palette::{code, Colour};
use crate::picture::tint;
use crate::view::{Holder, Stretch, View};

use super::text::escaped;

const WIDTH: f64 = 1080.0;
/// Room for the number of a row's first slice.
const LEFT: f64 = 44.0;
/// Half of what is left between two bars.
const EDGE: f64 = 0.75;

/// Where slices lie in the picture.
struct Grid {
    columns: usize,
    rows: usize,
    cell: f64,
    height: f64,
    gap: f64,
}

impl Grid {
    fn new(slices: usize) -> Grid {
        let (columns, height, gap) = match slices {
            0..=96 => (16, 36.0, 8.0),
            97..=320 => (32, 26.0, 7.0),
            321..=1_280 => (64, 20.0, 6.0),
            _ => (128, 13.0, 4.0),
        };
        Grid {
            columns,
            rows: slices.div_ceil(columns),
            cell: (WIDTH - LEFT) / columns as f64,
            height,
            gap,
        }
    }

    /// The top of a row.
    fn y(&self, row: usize) -> f64 {
        row as f64 * (self.height + self.gap)
    }

    fn bottom(&self) -> f64 {
        self.y(self.rows) - self.gap
    }

    /// A stretch cut at the ends of rows.
    fn pieces(&self, stretch: &Stretch) -> Vec<Piece> {
        let (from, to) = (stretch.first - 1, stretch.last());
        let rows = from / self.columns..=(to - 1) / self.columns;
        rows.map(|row| {
            let (begin, end) = (row * self.columns, (row + 1) * self.columns);
            let x = |place: usize| LEFT + (place - begin) as f64 * self.cell;
            let (begins, ends) = (from >= begin, to <= end);
            Piece {
                y: self.y(row),
                from: x(from.max(begin)) + if begins { EDGE } else { 0.0 },
                to: x(to.min(end)) - if ends { EDGE } else { 0.0 },
                begins,
                ends,
            }
        })
        .collect()
    }
}

/// The part of a stretch in one row.
struct Piece {
    y: f64,
    from: f64,
    to: f64,
    begins: bool,
    ends: bool,
}

impl Piece {
    /// The outline: round where the stretch begins or ends, straight where it goes on.
    fn outline(&self, height: f64) -> String {
        let most = (height / 4.0).min((self.to - self.from) / 2.0);
        let l = if self.begins { most } else { 0.0 };
        let r = if self.ends { most } else { 0.0 };
        format!(
            "M{:.1} {:.1}H{:.1}q{r:.1} 0 {r:.1} {r:.1}v{:.1}q0 {r:.1} -{r:.1} {r:.1}\
             H{:.1}q-{l:.1} 0 -{l:.1} -{l:.1}v-{:.1}q0 -{l:.1} {l:.1} -{l:.1}z",
            self.from + l,
            self.y,
            self.to - r,
            height - 2.0 * r,
            self.from + l,
            height - 2.0 * l,
        )
    }
}

/// The colours of the files, those of the picture that `map` makes; none for a file without slices.
pub fn colours(view: &View) -> Vec<Option<Colour>> {
    let mut number = 0;
    let colour = |file: &Holder| match (file.name, file.stretches.is_empty()) {
        (_, true) => None,
        (Name::SYS, _) => Some(tint(0)),
        _ => {
            number += 1;
            Some(tint(number))
        }
    };
    view.files.iter().map(colour).collect()
}

/// The section with the map.
pub fn section(view: &View) -> String {
    let grid = Grid::new(view.slices());
    let (bars, names) = drawn(view, &grid);
    format!(
        "<section class=\"card\" aria-labelledby=\"map-title\">\n\
         <h2 id=\"map-title\">Map</h2>\n\
         <p class=\"muted\">Each cell is a slice of {s} sectors, each bar a stretch. \
         <span class=\"live\">Point at a slice, or move with the arrow keys. A click or Enter keeps \
         the choice, Escape drops it.</span></p>\n\
         <div class=\"map\"><svg id=\"map\" viewBox=\"0 0 {WIDTH} {bottom}\" role=\"group\" \
         aria-label=\"{label}\" data-first=\"{f}\" data-size=\"{s}\" data-slices=\"{slices}\" \
         data-columns=\"{columns}\" data-height=\"{height}\" data-gap=\"{gap}\" \
         data-left=\"{LEFT}\" data-edge=\"{EDGE}\">\n\
         <g class=\"numbers\">{numbers}</g>\n<g class=\"bars\">\n{bars}</g>\n\
         <path class=\"lines\" d=\"{lines}\"/>\n<g class=\"names\">\n{names}</g>\n\
         </svg></div>\n\
         <p id=\"choice\" class=\"live\" role=\"status\"></p>\n</section>\n",
        s = view.kit.s,
        f = view.kit.f,
        slices = view.slices(),
        bottom = grid.bottom(),
        label = escaped(&view.headline()),
        columns = grid.columns,
        height = grid.height,
        gap = grid.gap,
        numbers = numbers(&grid),
        lines = lines(&grid),
    )
}

/// The number of the first slice of each row.
fn numbers(grid: &Grid) -> String {
    let number = |row: usize| {
        let (x, y) = (LEFT - 10.0, grid.y(row) + grid.height / 2.0);
        let first = row * grid.columns + 1;
        format!("<text x=\"{x:.1}\" y=\"{y:.1}\">{first}</text>")
    };
    (0..grid.rows).map(number).collect()
}

/// The lines between cells.
fn lines(grid: &Grid) -> String {
    let line = |column: usize| {
        let x = LEFT + column as f64 * grid.cell;
        format!("M{x:.1} 0V{:.1}", grid.bottom())
    };
    (1..grid.columns).map(line).collect()
}

/// A file's colours, as attributes of its bars and of the names in them. Those of SYS are the
/// style's, which has others for a dark page.
struct Paint {
    bar: String,
    name: String,
}

impl Paint {
    fn of(file: &Holder, colour: Colour) -> Paint {
        if file.name == Name::SYS {
            let class = "class=\"sys\"".to_string();
            return Paint {
                bar: class.clone(),
                name: class,
            };
        }
        let (fill, ink) = (code(colour), ink(colour));
        Paint {
            bar: format!("fill=\"{fill}\" data-ink=\"{ink}\""),
            name: format!("fill=\"{ink}\" stroke=\"{fill}\""),
        }
    }
}

/// The bars of all stretches, and the names for which there is room.
fn drawn(view: &View, grid: &Grid) -> (String, String) {
    let (mut bars, mut names) = (free_bars(view, grid), String::new());
    for ((number, file), colour) in view.files.iter().enumerate().zip(colours(view)) {
        if let Some(colour) = colour {
            let paint = Paint::of(file, colour);
            bars += &bars_of(view, grid, file, &format!("f{number}"), &paint.bar);
            names += &names_of(grid, file, &paint.name);
        }
    }
    (bars, names)
}

/// The bars of the free stretches.
fn free_bars(view: &View, grid: &Grid) -> String {
    let bars = view.free.iter().enumerate().map(|(number, stretch)| {
        let title = format!("free: {}", place(view, stretch));
        let of = format!("e{number}");
        bar(grid, &of, "class=\"free\"", stretch, &title)
    });
    bars.collect()
}

/// The bars of a file's stretches.
fn bars_of(view: &View, grid: &Grid, file: &Holder, of: &str, fill: &str) -> String {
    let mut before = 0;
    let bars = file.stretches.iter().enumerate().map(|(place, stretch)| {
        let title = title(view, file, place, before);
        before += stretch.slices;
        bar(grid, of, fill, stretch, &title)
    });
    bars.collect()
}

/// The names in a file's bars.
fn names_of(grid: &Grid, file: &Holder, paint: &str) -> String {
    let places = 0..file.stretches.len();
    places.map(|place| name(grid, file, place, paint)).collect()
}

fn bar(grid: &Grid, of: &str, fill: &str, stretch: &Stretch, title: &str) -> String {
    let pieces = grid.pieces(stretch).into_iter();
    let path: String = pieces.map(|piece| piece.outline(grid.height)).collect();
    let (at, slices, title) = (stretch.first, stretch.slices, escaped(title));
    format!(
        "<path data-of=\"{of}\" data-at=\"{at}\" data-slices=\"{slices}\" {fill} d=\"{path}\">\
         <title>{title}</title></path>\n"
    )
}

/// A stretch's name in its widest bar, with its number if there is room.
fn name(grid: &Grid, file: &Holder, place: usize, paint: &str) -> String {
    let pieces = grid.pieces(&file.stretches[place]).into_iter();
    let widest =
        pieces.max_by(|one, other| (one.to - one.from).total_cmp(&(other.to - other.from)));
    let Some(piece) = widest else {
        return String::new();
    };
    let (name, count) = (file.name.to_string(), file.stretches.len());
    let full = match count {
        1 => name.clone(),
        _ => format!("{name} {}/{count}", place + 1),
    };
    let size = (grid.height * 0.5).min(13.0);
    let fits = |text: &&String| {
        size >= 9.0 && text.len() as f64 * size * 0.7 + 8.0 < piece.to - piece.from
    };
    let Some(text) = [&full, &name].into_iter().find(fits) else {
        return String::new();
    };
    let (x, y) = ((piece.from + piece.to) / 2.0, piece.y + grid.height / 2.0);
    format!(
        "<text x=\"{x:.1}\" y=\"{y:.1}\" font-size=\"{size:.1}\" {paint}>{}</text>\n",
        escaped(text)
    )
}

/// The ink that is read better on a colour: with one of the two the contrast is above 4.5.
fn ink((red, green, blue): Colour) -> &'static str {
    let light = |part: u8| {
        let part = f64::from(part) / 255.0;
        match part <= 0.04045 {
            true => part / 12.92,
            false => ((part + 0.055) / 1.055).powf(2.4),
        }
    };
    let luminance = 0.2126 * light(red) + 0.7152 * light(green) + 0.0722 * light(blue);
    match luminance > 0.179 {
        true => "#000",
        false => "#FFF",
    }
}

/// What a stretch of a file is, for readers without the script.
fn title(view: &View, file: &Holder, place: usize, before: usize) -> String {
    let stretch = &file.stretches[place];
    let (number, count) = (place + 1, file.stretches.len());
    let place = self::place(view, stretch);
    let blocks = blocks(view, file, before, stretch.slices);
    format!(
        "{}, stretch {number} of {count}: {place}, {blocks}",
        file.name
    )
}

fn place(view: &View, stretch: &Stretch) -> String {
    let (first, last) = view.sectors(stretch);
    let (from, to) = (stretch.first, stretch.last());
    format!("slices {from} to {to}, sectors {first} to {last}")
}

/// Which of a file's blocks lie in some of its slices, `before` slices from its beginning. The first
/// sector of a file is its index block; that of SYS lies elsewhere.
fn blocks(view: &View, file: &Holder, before: usize, slices: usize) -> String {
    let lead = usize::from(file.name != Name::SYS);
    let (from, to) = (before * view.kit.s, (before + slices) * view.kit.s);
    let first = from.saturating_sub(lead);
    let end = (to - lead).min(file.entry.length() as usize);
    let blocks = match end.checked_sub(first) {
        None | Some(0) => "no block in use".into(),
        Some(1) => format!("block {first}"),
        Some(_) => format!("blocks {first} to {}", end - 1),
    };
    match lead > from {
        true => format!("index block and {blocks}"),
        false => blocks,
    }
}

#[cfg(test)]
mod tests {
    use super::*;
    use crate::palette::colour;

    /// The contrast of two luminances, as the guidelines for web pages have it.
    fn contrast(one: f64, other: f64) -> f64 {
        (one.max(other) + 0.05) / (one.min(other) + 0.05)
    }

    #[test]
    fn names_are_read_on_every_colour() {
        for colour in (0..1_000).map(colour).chain([tint(0)]) {
            let (red, green, blue) = colour;
            let part = |part: u8| (f64::from(part) / 255.0).powf(2.2);
            let luminance = 0.2126 * part(red) + 0.7152 * part(green) + 0.0722 * part(blue);
            let ink = if ink(colour) == "#000" { 0.0 } else { 1.0 };
            assert!(contrast(luminance, ink) > 4.5, "{colour:?}");
        }
    }

    #[test]
    fn a_stretch_is_cut_at_the_ends_of_rows() {
        let grid = Grid::new(60);
        let stretch = Stretch {
            first: 15,
            slices: 20,
        };
        let pieces = grid.pieces(&stretch);
        let ends: Vec<(bool, bool)> = pieces.iter().map(|p| (p.begins, p.ends)).collect();
        assert_eq!(ends, [(true, false), (false, false), (false, true)]);
        let rows: Vec<f64> = pieces.iter().map(|piece| piece.y).collect();
        assert_eq!(rows, [0.0, 44.0, 88.0]);
        let width: f64 = pieces.iter().map(|piece| piece.to - piece.from).sum();
        assert!((width - (20.0 * grid.cell - 2.0 * EDGE)).abs() < 0.001);
    }
}
