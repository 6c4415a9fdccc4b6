//! `dump`: sectors word by word, with what they are.

use std::ops::RangeInclusive;

use reference::layout::{marked_free, Kit, ENTRY, SECTOR, STRETCHES};
use reference::rescue::{Data, Held, Rescue, Use};
use reference::text::name_text;

use super::rescue::{numbers, FIRST, KEYS, SLICE};
use crate::arguments::{Command, Given, LOW, OFFSET, UNIT};
use crate::console::print;
use crate::failure::Outcome;
use crate::host::{ImageFile, SECTOR_BYTES};
use crate::values::{self, count};

/// Words in a line.
const LINE: usize = 8;

/// `dump`.
pub const DUMP: Command = Command {
    name: "dump",
    operands: &["IMAGE", "SECTOR[-SECTOR]"],
    choices: &[KEYS, SLICE, FIRST, UNIT, LOW, OFFSET],
    summary: "Print sectors in base 16 and in characters, and what they are",
    about:
        "Works on the whole sectors of any file, sound or not. A line has the number of its first\n\
            word, the offset of its first byte, 8 words and their characters; * stands for lines\n\
            like the one before. --keys, --slice and --first serve where the kit is damaged.",
    run: dump,
};

fn dump(given: &Given) -> Outcome {
    let range = range(&given.text(1)).map_err(|wrong| given.misused(wrong))?;
    let form = given.form()?;
    let image = ImageFile::read_to_rescue(given.path(0), form)?;
    let rescue = Rescue::read(&image, &numbers(given)?);
    if *range.end() >= rescue.sectors() {
        let outside = outside(*range.end(), rescue.sectors());
        return Err(given.misused(outside));
    }
    let offset = form.offset.unwrap_or(0);
    let dumped: Vec<String> = range
        .map(|sector| dumped(&rescue, sector, offset))
        .collect();
    print(&dumped.join("\n"))
}

/// That a sector is not among the whole sectors of an image.
fn outside(sector: usize, sectors: usize) -> String {
    let there = match sectors {
        0 => "no whole sector".to_string(),
        1 => "the sector 0 only".to_string(),
        _ => format!("the sectors 0 to {}", sectors - 1),
    };
    format!("sector {sector} is outside: the image has {there}")
}

/// A sector, or the first and the last of a stretch.
fn range(text: &str) -> Result<RangeInclusive<usize>, String> {
    let (first, last) = text.split_once('-').unwrap_or((text, text));
    let (first, last) = (values::number(first)?, values::number(last)?);
    match first <= last {
        true => Ok(first.into()..=last.into()),
        false => Err(format!("{text}: the last sector is before the first")),
    }
}

/// A sector of the unit; its bytes are counted from the beginning of the file.
fn dumped(rescue: &Rescue, sector: usize, offset: u64) -> String {
    let words = &rescue.image()[sector * SECTOR..(sector + 1) * SECTOR];
    let from = (offset + sector as u64) * SECTOR_BYTES as u64;
    let last = from + SECTOR_BYTES as u64 - 1;
    let mut text = format!("sector {sector}, bytes {from} to {last}: ");
    match rescue.use_of(sector) {
        Use::Outside => text += "outside the image\n",
        Use::System => text += "not used by the catalog\n",
        Use::SysIndex => text += &format!("index block of SYS\n{}", pairs(words)),
        Use::MapIndex => text += &format!("index block of MAP\n{}", pairs(words)),
        Use::Kit => text += &kit(rescue.kit()),
        Use::Map => text += &map(rescue),
        Use::BeforeSlices => text += "before the first slice, not used by the catalog\n",
        Use::PastSlices => text += "past the last slice, not used by the catalog\n",
        Use::Data(data) => text += &described(rescue, &data, words),
    }
    text + &lines(words, from)
}

fn kit(kit: Option<Kit>) -> String {
    let said = kit.map(|kit| {
        let Kit { h, s, n, .. } = kit;
        let Kit { free, f, top, .. } = kit;
        format!("the kit: H {h}, s {s}, N {n}, free {free}, F {f}, top {top}\n")
    });
    said.unwrap_or("the kit\n".into())
}

fn map(rescue: &Rescue) -> String {
    match rescue.layout().slices() {
        Some(slices) => {
            let free = (1..=slices).filter(|&slice| marked_free(rescue.image(), slice));
            let free = free.count();
            format!("the map: {free} of {slices} slices marked free\n")
        }
        None => "the map\n".into(),
    }
}

/// The pairs of an index block.
fn pairs(words: &[u16]) -> String {
    let number = usize::from(words[0]);
    if !(1..=STRETCHES).contains(&number) {
        return format!("  count {number}, not 1 to 127\n");
    }
    let mut text = format!("  count {number}\n");
    for (place, pair) in words[1..1 + 2 * number].chunks_exact(2).enumerate() {
        let sectors = count(pair[0], "sector");
        text += &format!("  pair {}: {sectors} from {} on\n", place + 1, pair[1]);
    }
    text
}

/// What a sector of slices is, with the pairs or the entries in it.
fn described(rescue: &Rescue, data: &Data, words: &[u16]) -> String {
    let mut parts: Vec<String> = Vec::new();
    parts.extend(data.slice.map(|slice| format!("slice {slice}")));
    let held: Vec<String> = data.held.iter().map(|held| what(rescue, held)).collect();
    if !held.is_empty() {
        parts.push(held.join(" and "));
    }
    if data.more > 0 {
        parts.push(format!("claimed by {} more", data.more));
    }
    match (data.held.is_empty(), data.marked_free) {
        (true, Some(true)) => parts.push("free".into()),
        (true, Some(false)) => parts.push("marked used, claimed by no file".into()),
        (true, None) => parts.push("claimed by no file".into()),
        (false, Some(true)) => parts.push("marked free".into()),
        (false, _) => {}
    }
    let mut text = parts.join(", ") + "\n";
    for held in &data.held {
        match held {
            Held::Sys(_) => text += &entries(words),
            Held::Index(_) => text += &pairs(words),
            _ => {}
        }
    }
    text
}

/// What a sector is to one that claims it.
fn what(rescue: &Rescue, held: &Held) -> String {
    match (held, rescue.layout().h) {
        (Held::Sys(Some(block)), Some(h)) => {
            let (key, layer) = (block % h, block / h);
            format!("block {block} of SYS: key {key}, layer {layer}")
        }
        (Held::Sys(Some(block)), None) => format!("block {block} of SYS"),
        (Held::Sys(None), _) => "of SYS by its looks".into(),
        (Held::SysSlack, _) => "slack of SYS".into(),
        (Held::Index(name), _) => format!("index block of {name}"),
        (Held::Block(name, block), _) => format!("block {block} of {name}"),
        (Held::Slack(name), _) => format!("slack of {name}"),
    }
}

/// The entries of a sector of SYS.
fn entries(words: &[u16]) -> String {
    let mut text = String::new();
    for (place, entry) in words.chunks_exact(ENTRY).enumerate() {
        if entry.iter().all(|&word| word == 0) {
            continue;
        }
        let name = name_text([entry[0], entry[1], entry[2]]);
        let [attributes, length, index, reserved] = [entry[6], entry[7], entry[8], entry[9]];
        text += &format!(
            "  place {place}: {name}, attributes {attributes:04X}h, length {length}, \
             index {index}, reserved {reserved}\n"
        );
    }
    text
}

/// The words, line by line; a line like the one before is `*`, once.
fn lines(words: &[u16], from: u64) -> String {
    let mut text = String::new();
    let mut before: Option<&[u16]> = None;
    let mut folded = false;
    for (number, line) in words.chunks(LINE).enumerate() {
        if before == Some(line) {
            text += if folded { "" } else { "*\n" };
            folded = true;
            continue;
        }
        let word = number * LINE;
        let hex: Vec<String> = line.iter().map(|word| format!("{word:04X}")).collect();
        let characters: String = line.iter().flat_map(|word| visible(*word)).collect();
        let byte = from + 2 * word as u64;
        text += &format!("{word:>5} {byte:>8}  {}  {characters}\n", hex.join(" "));
        before = Some(line);
        folded = false;
    }
    text
}

/// A word's two characters; what is not visible ASCII is a dot.
fn visible(word: u16) -> [char; 2] {
    word.to_be_bytes().map(|byte| match byte {
        b' '..=b'~' => byte as char,
        _ => '.',
    })
}
