//! The map of a unit's slices as an SVG picture.

use crate::palette::{code, colour, is_light, Colour, SYS};
use crate::values::range;
use crate::view::{Holder, Stretch, View};

const WIDTH: f64 = 1080.0;
const LEFT: f64 = 72.0;
const RIGHT: f64 = 28.0;
const TOP: f64 = 118.0;
/// The files that the legend has room for.
const LEGEND_FILES: usize = 120;
const LEGEND_COLUMNS: usize = 4;
const LEGEND_LINE: f64 = 24.0;

/// Where slices lie in the picture.
struct Grid {
    columns: usize,
    rows: usize,
    width: f64,
    height: f64,
    gap: f64,
}

impl Grid {
    fn new(slices: usize) -> Grid {
        let (columns, height, gap) = match slices {
            0..=96 => (16, 34.0, 12.0),
            97..=320 => (32, 26.0, 10.0),
            321..=1_280 => (64, 18.0, 7.0),
            _ => (128, 11.0, 5.0),
        };
        Grid {
            columns,
            rows: slices.div_ceil(columns),
            width: (WIDTH - LEFT - RIGHT) / columns as f64,
            height,
            gap,
        }
    }

    /// The top of a row.
    fn y(&self, row: usize) -> f64 {
        TOP + row as f64 * (self.height + self.gap)
    }

    /// The left edge of a column.
    fn x(&self, column: usize) -> f64 {
        LEFT + column as f64 * self.width
    }

    fn bottom(&self) -> f64 {
        self.y(self.rows)
    }

    /// A stretch cut at the ends of rows.
    fn pieces(&self, stretch: &Stretch) -> Vec<Piece> {
        let (from, to) = (stretch.first - 1, stretch.last());
        let rows = from / self.columns..=(to - 1) / self.columns;
        rows.map(|row| {
            let (begin, end) = (row * self.columns, (row + 1) * self.columns);
            Piece {
                row,
                from: from.max(begin) - begin,
                to: to.min(end) - begin,
                begins: from >= begin,
                ends: to <= end,
            }
        })
        .collect()
    }
}

/// The part of a stretch in one row: columns `from` to `to`, the last not counted.
struct Piece {
    row: usize,
    from: usize,
    to: usize,
    begins: bool,
    ends: bool,
}

/// The picture, with the image's file name as its heading.
pub fn svg(view: &View, heading: &str) -> String {
    let grid = Grid::new(view.slices());
    let holders = view.holders();
    let shown = holders.len().min(LEGEND_FILES);
    let lines = (shown + 1).div_ceil(LEGEND_COLUMNS);
    let more = f64::from(u8::from(shown < holders.len()));
    let height = grid.bottom() + 56.0 + (lines as f64 + more) * LEGEND_LINE;
    let mut text = head(view, heading, &grid, height);
    text += &tracks(view, &grid);
    for stretch in &view.free {
        text += &free(view, &grid, stretch);
    }
    for (number, holder) in holders.iter().enumerate() {
        text += &file(view, &grid, holder, tint(number));
    }
    text += &legend(view, &holders[..shown], holders.len(), grid.bottom() + 34.0);
    text + "</svg>\n"
}

/// The colour of a holder by its number; SYS is the first.
pub fn tint(number: usize) -> Colour {
    match number {
        0 => SYS,
        _ => colour(number - 1),
    }
}

fn head(view: &View, heading: &str, grid: &Grid, height: f64) -> String {
    let heading = escaped(heading);
    let (headline, fragmentation) = (view.headline(), view.fragmentation());
    let (cell, line) = (grid.width, grid.height);
    let mut text = format!(
        r##"<svg xmlns="http://www.w3.org/2000/svg" width="{WIDTH}" height="{height}" viewBox="0 0 {WIDTH} {height}" font-family="Helvetica, Arial, 'DejaVu Sans', sans-serif">
<title>{heading}: {headline}</title>
<defs>
<pattern id="cells" x="{LEFT}" width="{cell}" height="{line}" patternUnits="userSpaceOnUse"><path d="M{cell} 0V{line}" stroke="#FFFFFF" stroke-opacity="0.45" stroke-width="1"/></pattern>
</defs>
<rect width="{WIDTH}" height="{height}" fill="#FFFFFF"/>
<text x="28" y="42" font-size="24" font-weight="bold" fill="#1F2933">{heading}</text>
<text x="28" y="66" font-size="14" fill="#52606D">{headline}</text>
<text x="28" y="86" font-size="14" fill="#52606D">{fragmentation}</text>
"##
    );
    text += &used_bar(view);
    text
}

/// A small bar at the top right: how much of the unit is used.
fn used_bar(view: &View) -> String {
    let (x, width) = (WIDTH - RIGHT - 240.0, 240.0);
    let used = view.slices() - view.free_slices();
    let part = width * used as f64 / view.slices() as f64;
    let percent = 100 * used / view.slices();
    format!(
        r##"<g><title>{used} of {} slices are used</title>
<rect x="{x}" y="30" width="{width}" height="12" rx="6" fill="#E4E7EB"/>
<rect x="{x}" y="30" width="{part:.1}" height="12" rx="6" fill="#829AB1"/>
<text x="{}" y="62" font-size="13" fill="#52606D" text-anchor="end">{percent} % used</text></g>
"##,
        view.slices(),
        WIDTH - RIGHT
    )
}

/// The rows on which slices lie, with the number of the first slice in each.
fn tracks(view: &View, grid: &Grid) -> String {
    let mut text = String::new();
    for row in 0..grid.rows {
        let first = row * grid.columns + 1;
        let slices = grid.columns.min(view.slices() + 1 - first);
        let (y, width) = (grid.y(row), slices as f64 * grid.width);
        text += &format!(
            r##"<rect x="{LEFT}" y="{y}" width="{width:.2}" height="{}" rx="4" fill="#F0F2F5"/><text x="{}" y="{:.1}" font-size="11" fill="#7B8794" text-anchor="end">{first}</text>
"##,
            grid.height,
            LEFT - 10.0,
            y + grid.height / 2.0 + 4.0
        );
    }
    text
}

/// A free stretch is the bare row, with dots and a title.
fn free(view: &View, grid: &Grid, stretch: &Stretch) -> String {
    let mut text = format!(
        "<g><title>{}</title>\n",
        escaped(&title("free", view, stretch))
    );
    for piece in grid.pieces(stretch) {
        let (x, y) = (grid.x(piece.from), grid.y(piece.row));
        let width = (piece.to - piece.from) as f64 * grid.width;
        let middle = y + grid.height / 2.0;
        text += &format!(
            r##"<rect x="{x:.2}" y="{y}" width="{width:.2}" height="{}" fill="#000000" fill-opacity="0"/><path d="M{:.2} {middle}H{:.2}" stroke="#C5CDD5" stroke-width="2" stroke-linecap="round" stroke-dasharray="0 {:.3}"/>
"##,
            grid.height,
            x + grid.width / 2.0,
            x + width - grid.width / 2.0 + 0.1,
            grid.width
        );
    }
    text + "</g>\n"
}

fn title(what: &str, view: &View, stretch: &Stretch) -> String {
    let (first, last) = view.sectors(stretch);
    let slices = range("slice", stretch.first, stretch.last());
    format!("{what}: {slices}, sectors {first} to {last}")
}

/// A file's stretches, each one joined bar.
fn file(view: &View, grid: &Grid, holder: &Holder, colour: Colour) -> String {
    let (name, count) = (holder.name.to_string(), holder.stretches.len());
    let mut text = String::new();
    for (number, stretch) in (1..).zip(&holder.stretches) {
        let (what, label) = match count {
            1 => (name.clone(), name.clone()),
            _ => (
                format!("{name}, stretch {number} of {count}"),
                format!("{name} {number}/{count}"),
            ),
        };
        text += &format!("<g><title>{}</title>\n", title(&what, view, stretch));
        for piece in grid.pieces(stretch) {
            text += &bar(grid, &piece, colour, &[&label, &name]);
        }
        text += "</g>\n";
    }
    text
}

/// One bar, with the first label for which there is room; an end that goes on in another row
/// is open.
fn bar(grid: &Grid, piece: &Piece, colour: Colour, labels: &[&str]) -> String {
    let edge = 1.0;
    let (x, y, h) = (grid.x(piece.from) + edge, grid.y(piece.row), grid.height);
    let width = (piece.to - piece.from) as f64 * grid.width - 2.0 * edge;
    let path = outline(x, y, width, h, piece.begins, piece.ends);
    let fill = code(colour);
    let mut text = format!(r##"<path d="{path}" fill="{fill}"/>"##);
    if piece.to - piece.from > 1 {
        text += &format!(r##"<path d="{path}" fill="url(#cells)"/>"##);
    }
    let size = (h * 0.5).min(13.0);
    let fits = |label: &&&str| size >= 8.0 && label.len() as f64 * size * 0.62 + 6.0 < width;
    if let Some(label) = labels.iter().find(fits) {
        let ink = if is_light(colour) {
            "#1F2933"
        } else {
            "#FFFFFF"
        };
        text += &format!(
            r##"<text x="{:.2}" y="{:.2}" font-size="{size:.1}" fill="{ink}" text-anchor="middle">{label}</text>"##,
            x + width / 2.0,
            y + h / 2.0 + size * 0.36
        );
    }
    text + "\n"
}

/// A bar's outline: round where the stretch begins or ends, straight where it goes on.
fn outline(x: f64, y: f64, width: f64, height: f64, begins: bool, ends: bool) -> String {
    let round = |is: bool| {
        if is {
            (height / 4.0).min(width / 2.0)
        } else {
            0.0
        }
    };
    let (left, right) = (round(begins), round(ends));
    let across = width - left - right;
    let down = |radius: f64| height - 2.0 * radius;
    format!(
        "M{:.2} {y:.2}h{across:.2}a{right:.2} {right:.2} 0 0 1 {right:.2} {right:.2}v{:.2}\
         a{right:.2} {right:.2} 0 0 1 -{right:.2} {right:.2}h-{across:.2}\
         a{left:.2} {left:.2} 0 0 1 -{left:.2} -{left:.2}v-{:.2}\
         a{left:.2} {left:.2} 0 0 1 {left:.2} -{left:.2}z",
        x + left,
        down(right),
        down(left)
    )
}

/// The files by name, SYS first and the free slices last; the rest of many is counted.
fn legend(view: &View, holders: &[&Holder], all: usize, top: f64) -> String {
    let mut text = String::new();
    for (number, holder) in holders.iter().enumerate() {
        let name = holder.name.to_string();
        let (slices, stretches) = (holder.slices(), holder.stretches.len());
        text += &item(number, top, &code(tint(number)), &name, slices, stretches);
    }
    let (slices, stretches) = (view.free_slices(), view.free.len());
    text += &item(holders.len(), top, "#E4E7EB", "free", slices, stretches);
    if holders.len() < all {
        let line = (holders.len() + 1).div_ceil(LEGEND_COLUMNS);
        text += &format!(
            "<text x=\"28\" y=\"{}\" font-size=\"13\" fill=\"#52606D\">and {} files more</text>\n",
            top + line as f64 * LEGEND_LINE + 12.0,
            all - holders.len()
        );
    }
    text
}

fn item(
    number: usize,
    top: f64,
    fill: &str,
    name: &str,
    slices: usize,
    stretches: usize,
) -> String {
    let column = (WIDTH - 28.0 - RIGHT) / LEGEND_COLUMNS as f64;
    let x = 28.0 + (number % LEGEND_COLUMNS) as f64 * column;
    let y = top + (number / LEGEND_COLUMNS) as f64 * LEGEND_LINE;
    let broken = match stretches {
        0 | 1 => String::new(),
        many => format!(" in {many} stretches"),
    };
    let unit = if slices == 1 { "slice" } else { "slices" };
    format!(
        r##"<rect x="{x}" y="{y}" width="15" height="15" rx="4" fill="{fill}"/><text x="{}" y="{}" font-size="13" fill="#1F2933"><tspan font-weight="bold">{name}</tspan> <tspan fill="#52606D">{slices} {unit}{broken}</tspan></text>
"##,
        x + 23.0,
        y + 12.0
    )
}

/// A text as the picture may hold it; what XML does not allow is a replacement character.
fn escaped(text: &str) -> String {
    let allowed = |character: char| match character {
        '\t' | '\n' | '\r' => character,
        '\0'..='\x1F' | '\u{FFFE}' | '\u{FFFF}' => char::REPLACEMENT_CHARACTER,
        _ => character,
    };
    let text: String = text.chars().map(allowed).collect();
    text.replace('&', "&amp;")
        .replace('<', "&lt;")
        .replace('>', "&gt;")
}
