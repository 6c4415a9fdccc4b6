//! The map of a unit's slices, drawn in text.

use std::fmt::Display;

use ruzkemp::Name;

use crate::palette;
use crate::view::{Holder, View};

/// Slices in a row.
pub const ROW: usize = 64;

/// A file as it is drawn.
struct Mark {
    symbol: char,
    colour: palette::Colour,
}

/// The marks of the files that have slices: SYS is `#`, the others have letters in the order
/// of their names.
fn marks(holders: &[&Holder]) -> Vec<Mark> {
    let mut number = 0;
    let mark = |holder: &&Holder| match holder.name {
        Name::SYS => Mark {
            symbol: '#',
            colour: palette::SYS,
        },
        _ => {
            number += 1;
            Mark {
                symbol: palette::symbol(number - 1),
                colour: palette::colour(number - 1),
            }
        }
    };
    holders.iter().map(mark).collect()
}

/// A slice: whose it is, and whether a stretch begins with it.
#[derive(Clone, Copy, Default)]
struct Cell {
    owner: Option<usize>,
    begins: bool,
}

/// The map with its legend.
pub fn map(view: &View, colours: bool) -> String {
    let holders = view.holders();
    let marks = marks(&holders);
    let mut text = view.headline();
    text += "\n\n";
    for (row, cells) in cells(view, &holders).chunks(ROW).enumerate() {
        let cells = cells.iter().enumerate();
        let symbols = cells.map(|(place, cell)| drawn(*cell, place == 0, &marks, colours));
        let symbols: String = symbols.collect();
        text += &format!("{:>5} {symbols}\n", row * ROW + 1);
    }
    text + &legend(view, &holders, &marks, colours)
}

/// All slices.
fn cells(view: &View, holders: &[&Holder]) -> Vec<Cell> {
    let stretches = holders.iter().enumerate().flat_map(|(owner, holder)| {
        let stretches = holder.stretches.iter();
        stretches.map(move |stretch| (Some(owner), stretch))
    });
    let mut cells = vec![Cell::default(); view.slices()];
    for (owner, stretch) in stretches {
        let begins = false;
        cells[stretch.first - 1..stretch.last()].fill(Cell { owner, begins });
        cells[stretch.first - 1].begins = true;
    }
    cells
}

/// A slice in one character: its file's symbol where a stretch or a row begins, `-` where a
/// stretch goes on, `.` if it is free.
fn drawn(cell: Cell, row_begins: bool, marks: &[Mark], colours: bool) -> String {
    let Some(owner) = cell.owner else {
        return ".".into();
    };
    let mark = &marks[owner];
    let symbol = match cell.begins || row_begins {
        true => mark.symbol,
        false => '-',
    };
    painted(symbol, mark, colours)
}

fn painted(symbol: char, mark: &Mark, colours: bool) -> String {
    if !colours {
        return symbol.into();
    }
    let text = if palette::is_light(mark.colour) {
        30
    } else {
        97
    };
    let ground = palette::terminal(mark.colour);
    format!("\x1b[{text};48;5;{ground}m{symbol}\x1b[0m")
}

fn legend(view: &View, holders: &[&Holder], marks: &[Mark], colours: bool) -> String {
    let mut text = String::from("\n");
    for (holder, mark) in holders.iter().zip(marks) {
        let symbol = painted(mark.symbol, mark, colours);
        let listed = some(&holder.stretches);
        text += &format!(
            "{symbol} {:<5} {:>5} in {:>3}: {listed}\n",
            holder.name,
            holder.slices(),
            holder.stretches.len()
        );
    }
    text += &format!(
        ". free  {:>5} in {:>3}: {}\n",
        view.free_slices(),
        view.free.len(),
        some(&view.free)
    );
    text + &format!("\n{}\n", view.fragmentation())
}

/// Things one behind the other; of many only the first eight.
pub fn some(all: &[impl Display]) -> String {
    const MOST: usize = 8;
    let mut parts: Vec<String> = all.iter().take(MOST).map(ToString::to_string).collect();
    if all.len() > MOST {
        parts.push("..".into());
    }
    parts.join(" ")
}
