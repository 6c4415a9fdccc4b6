//! `ls` and `show`: the files of a unit, and one of them.

use ruzkemp::{Call, Entry};

use super::rescue::{self, FIRST, KEYS, SLICE, UNSOUND};
use crate::arguments::{flag, Choice, Command, Given, LOW, OFFSET, UNIT};
use crate::console::print;
use crate::failure::{Failure, Outcome};
use crate::host::SECTOR_BYTES;
use crate::json;
use crate::session::Session;
use crate::values::{count, hex, range};
use crate::view::{Holder, View};

/// The option for programs that read what is printed.
const JSON: Choice = flag("--json", "print JSON");

/// `ls`.
pub const LS: Command = Command {
    name: "ls",
    operands: &["IMAGE"],
    choices: &[
        flag("--json", "print JSON in place of a table"),
        UNSOUND,
        KEYS,
        SLICE,
        FIRST,
        UNIT,
        LOW,
        OFFSET,
    ],
    summary: "List the files",
    about:
        "Lengths and reserved lengths are in sectors. The order is the listing's: by name, digits\n\
            before letters, capitals before small letters, SYS and MAP in their places.",
    run: ls,
};

/// `show`.
pub const SHOW: Command = Command {
    name: "show",
    operands: &["IMAGE", "NAME"],
    choices: &[JSON, UNSOUND, KEYS, SLICE, FIRST, UNIT, LOW, OFFSET],
    summary: "Show a file's entry and where its slices lie",
    about: "Sends Look-up Entry. With --unsound NAME may be SECTOR:PLACE.",
    run: show,
};

fn ls(given: &Given) -> Outcome {
    if rescue::asked(given)? {
        return rescue::ls(given);
    }
    let view = View::of(&mut Session::to_read(given)?)?;
    match given.flag("--json") {
        true => print(&json::listing(&view)),
        false => print(&table(&view)),
    }
}

fn table(view: &View) -> String {
    let mut text = String::from("NAME   LENGTH RESERVED  INDEX STRETCHES ATTRIBUTES\n");
    for file in &view.files {
        let entry = &file.entry;
        text += &format!(
            "{:<6} {:>6} {:>8} {:>6} {:>9} {}\n",
            file.name,
            entry.length(),
            entry.reserved(),
            entry.index(),
            file.stretches.len(),
            entry.attributes()
        );
    }
    text + &format!(
        "{} entries; {} of {} slices free ({} sectors)\n",
        view.files.len(),
        view.free_slices(),
        view.slices(),
        view.kit.free
    )
}

fn show(given: &Given) -> Outcome {
    if rescue::asked(given)? {
        return rescue::show(given);
    }
    let name = given.name(1)?;
    let mut session = Session::to_read(given)?;
    let entry = session.call(Call::LookUp, name, |unit| unit.look_up(name))?;
    let view = View::of(&mut session)?;
    let holder = view.files.iter().find(|file| file.name == name);
    let holder = holder.ok_or_else(|| {
        Failure::Disagreement(format!("Look-up finds {name}, and the listing does not"))
    })?;
    match given.flag(JSON.name) {
        true => print(&json::file(&view, holder)),
        false => print(&shown(&view, &entry, holder)),
    }
}

fn shown(view: &View, entry: &Entry, holder: &Holder) -> String {
    let name = entry.name();
    let (length, attributes) = (entry.length(), entry.attributes());
    let bytes = u64::from(length) * SECTOR_BYTES as u64;
    let mut text = format!("name        {name}\n");
    text += &format!("attributes  {:04X}h: {attributes}\n", attributes.bits());
    text += &format!("length      {} ({bytes} bytes)\n", count(length, "sector"));
    let reserved = count(entry.reserved(), "sector");
    text += &format!("reserved    {reserved}\n");
    text += &format!("index       sector {}\n", entry.index());
    text += &format!(
        "key         {}\n",
        reference::layout::key(name.words(), view.kit.h)
    );
    text += &format!("optional    {}\n", hex(&entry.optional()));
    text += &format!("tail        {}\n", hex(&entry.tail()));
    for (number, stretch) in (1..).zip(&holder.stretches) {
        let (first, last) = view.sectors(stretch);
        let slices = range("slice", stretch.first, stretch.last());
        text += &format!("stretch {number:<3} {slices}, sectors {first} to {last}\n");
    }
    text
}
