//! `map`: the slices drawn, in the terminal or as a picture.

use std::path::Path;

use super::output::output;
use super::rescue::{self, FIRST, KEYS, SLICE, UNSOUND};
use crate::arguments::{flag, valued, Command, Given, LOW, OFFSET, UNIT};
use crate::console::{colours, print};
use crate::failure::Outcome;
use crate::host::title;
use crate::session::Session;
use crate::view::View;
use crate::{json, picture, terminal};

/// `map`.
pub const MAP: Command = Command {
    name: "map",
    operands: &["IMAGE"],
    choices: &[
        valued(
            "--svg",
            "FILE",
            "draw a picture into FILE (- is standard output)",
        ),
        flag("--force", "replace FILE if it exists"),
        flag(
            "--json",
            "print JSON: all stretches, in the order of the slices",
        ),
        UNSOUND,
        KEYS,
        SLICE,
        FIRST,
        UNIT,
        LOW,
        OFFSET,
    ],
    summary: "Draw which slices are free, SYS's and each file's",
    about:
        "In the terminal each slice is one character: a file's letter where a stretch or a row\n\
            begins, - where the stretch goes on, . if it is free. Colours are used on a terminal\n\
            unless NO_COLOR is set.",
    run: map,
};

fn map(given: &Given) -> Outcome {
    if rescue::asked(given)? {
        return rescue::map(given);
    }
    let view = View::of(&mut Session::to_read(given)?)?;
    if given.flag("--json") {
        return in_json(given, &view);
    }
    let Some(path) = given.raw("--svg").map(Path::new) else {
        return print(&terminal::map(&view, colours()));
    };
    let drawn = picture::svg(&view, &title(given.path(0)).to_string_lossy());
    output(given, path, &drawn, "picture")
}

fn in_json(given: &Given, view: &View) -> Outcome {
    match given.flag("--svg") {
        true => Err(given.misused("--json and --svg exclude each other".into())),
        false => print(&json::map(view)),
    }
}
