//! `ls` and `show` with `--unsound`.

use reference::layout::key;
use reference::rescue::{File, Kind, Layout, Pair, Rescue};
use ruzkemp::Entry;

use super::{heading, named, not_with, numbers, MOST_DOUBTS};
use crate::arguments::Given;
use crate::console::print;
use crate::failure::Outcome;
use crate::host::{ImageFile, SECTOR_BYTES};
use crate::values::{count, hex, range};

/// So many doubts about a file are listed at most; `show` says all.
const MOST_LISTED: usize = 8;
/// So many bytes at least are printed at once.
const PART: usize = 1 << 20;

/// `ls --unsound`.
pub fn ls(given: &Given) -> Outcome {
    not_with(given, &["--json"])?;
    let image = ImageFile::read_to_rescue(given.path(0), given.form()?)?;
    let rescue = Rescue::read(&image, &numbers(given)?);
    table(&rescue, heading(given, &rescue, usize::MAX))
}

/// Prints the heading and the files by name, each with its doubts below it. It is printed part by
/// part, since a damaged disc can have very many entries.
fn table(rescue: &Rescue, heading: String) -> Outcome {
    let mut text = heading + "NAME   LENGTH RESERVED  INDEX STRETCHES    ENTRY ATTRIBUTES\n";
    let mut doubtful = 0;
    let numbers = rescue.sorted().into_iter();
    for file in numbers.filter_map(|number| rescue.file(number)) {
        text += &line(&file);
        text += &some_doubts(&file);
        doubtful += usize::from(!file.doubts.is_empty());
        if text.len() >= PART {
            print(&std::mem::take(&mut text))?;
        }
    }
    text += &format!("{} entries, {doubtful} doubtful", rescue.entries());
    print(&(text + &free(rescue) + "\n"))
}

/// What is doubtful about a file, below its line.
fn some_doubts(file: &File) -> String {
    let listed = file.doubts.iter().take(MOST_LISTED);
    let listed = listed.map(|doubt| format!("  doubtful: {doubt}\n"));
    let more = file.doubts.len().saturating_sub(MOST_LISTED);
    let more = (more > 0).then(|| format!("  and {more} more (show --unsound says them)\n"));
    listed.chain(more).collect()
}

fn line(file: &File) -> String {
    let entry = Entry::from_words(file.words);
    let stretches = match file.kind {
        Kind::Map => 0,
        _ => file.pairs.len(),
    };
    format!(
        "{:<6} {:>6} {:>8} {:>6} {stretches:>9} {:>8} {}\n",
        file.shown(),
        entry.length(),
        entry.reserved(),
        entry.index(),
        place(file),
        entry.attributes()
    )
}

/// Where an entry stands, as an operand says it.
fn place(file: &File) -> String {
    format!("{}:{}", file.sector, file.place)
}

/// How many slices the map marks free, if they are known.
fn free(rescue: &Rescue) -> String {
    let Some(slices) = rescue.layout().slices() else {
        return String::new();
    };
    let marked = (1..=slices).filter_map(|slice| rescue.slice(slice));
    let free = marked.filter(|slice| slice.marked_free == Some(true));
    format!("; {} of {slices} slices marked free", free.count())
}

/// `show --unsound`.
pub fn show(given: &Given) -> Outcome {
    not_with(given, &["--json"])?;
    let image = ImageFile::read_to_rescue(given.path(0), given.form()?)?;
    let rescue = Rescue::read(&image, &numbers(given)?);
    let files = named(given, &rescue, &given.text(1))?;
    let layout = rescue.layout();
    let offset = given.form()?.offset.unwrap_or(0);
    let shown = files.iter().map(|file| shown(file, &layout, offset));
    let shown: Vec<String> = shown.collect();
    let heading = heading(given, &rescue, MOST_DOUBTS);
    print(&format!("{heading}{}", shown.join("\n")))
}

/// An entry; its bytes are counted from the beginning of the file.
fn shown(file: &File, layout: &Layout, offset: u64) -> String {
    let entry = Entry::from_words(file.words);
    let bytes = 2 * file.words.len() as u64;
    let from = (offset + file.sector as u64) * SECTOR_BYTES as u64 + bytes * file.place as u64;
    let to = from + bytes - 1;
    let mut text = format!("name        {}\n", file.shown());
    text += &format!(
        "entry       sector {}, place {}, bytes {from} to {to}\n",
        file.sector, file.place
    );
    text += &format!("words       {}\n", hex(&file.words[..8]));
    text += &format!("            {}\n", hex(&file.words[8..]));
    let attributes = entry.attributes();
    text += &format!("attributes  {:04X}h: {attributes}\n", attributes.bits());
    let bytes = file.length() * SECTOR_BYTES;
    let length = count(entry.length(), "sector");
    text += &format!("length      {length} ({bytes} bytes)\n");
    text += &format!("reserved    {}\n", count(entry.reserved(), "sector"));
    text += &format!("index       sector {}\n", entry.index());
    if let Some(h) = layout.h {
        text += &format!("key         {}\n", key(file.name(), h));
    }
    text += &format!("optional    {}\n", hex(&entry.optional()));
    text += &format!("tail        {}\n", hex(&entry.tail()));
    text + &pairs(file, layout) + &doubts(file)
}

/// The pairs that are followed, and the blocks in them.
fn pairs(file: &File, layout: &Layout) -> String {
    let mut text = String::new();
    for (number, (position, pair)) in file.placed().enumerate() {
        let what = match pair.length {
            0 => format!("length 0 at sector {}", pair.start),
            _ => {
                let blocks = blocks(file, position, &pair);
                format!("{}, {blocks}", sectors(&pair, layout))
            }
        };
        text += &format!("pair {:<6} {what}\n", number + 1);
    }
    text
}

/// The slices of a pair, if they are known, and its sectors.
fn sectors(pair: &Pair, layout: &Layout) -> String {
    let (first, last) = (pair.start, pair.sectors().end - 1);
    let sectors = range("sector", first, last);
    match (layout.slice_of(first), layout.slice_of(last)) {
        (Some(first), Some(last)) => format!("{}, {sectors}", range("slice", first, last)),
        _ => sectors,
    }
}

/// The blocks in a pair that begins at a place in the joined stretches.
fn blocks(file: &File, position: usize, pair: &Pair) -> String {
    let first = file.block_at(position).unwrap_or(0);
    let end = file.block_at(position + pair.length).unwrap_or(0);
    let end = end.min(file.length());
    match first < end {
        true => range("block", first, end - 1),
        false => "no block".into(),
    }
}

fn doubts(file: &File) -> String {
    if file.doubts.is_empty() {
        return "doubtful    nothing\n".into();
    }
    let lines = file.doubts.iter();
    lines
        .map(|doubt| format!("doubtful    {doubt}\n"))
        .collect()
}
