//! Images that stand in files, each with the plain unit that it was read as.
//!
//! The discs were made, and their units read, by the library and the second implementation as they
//! were before request R-8; today's are to accept and read them as the same. `lists/images` has two
//! files for each disc.
//!
//! `NAME.image` has the number of words in its first line, `words NUMBER`, and then the words:
//! `SECTOR.WORD: WORDS`, those from this word of this sector on. All others are 0. Words are written
//! as in [`crate::stored`]; lines that begin with `#` say nothing.
//!
//! `NAME.unit` has the unit's numbers in its first line, and then each entry, by name: its sixteen
//! words, its slices (but for SYS, which has them in the first line, and MAP, which has none), the
//! number of its blocks and a digest of their words.

use std::{fs, io};

use reference::layout::{stretches, SECTOR};
use reference::plain::Plain;

use crate::stored::files_in;
use crate::text::{digest_text, number, parse_words, words_text};

/// The words of an entry, which a line of an image has where a sector takes too many parts.
const LINE: usize = 16;

/// An image that was kept.
pub struct Kept {
    /// What it is called.
    pub name: String,
    /// The image as text.
    pub image: String,
    /// The plain unit as text.
    pub unit: String,
}

/// All images that were kept, by name.
pub fn all() -> io::Result<Vec<Kept>> {
    let mut kept = Vec::new();
    for path in files_in("images", "image")? {
        let name = path.file_stem().unwrap_or_default();
        kept.push(Kept {
            name: name.to_string_lossy().into(),
            image: fs::read_to_string(&path)?,
            unit: fs::read_to_string(path.with_extension("unit"))?,
        });
    }
    Ok(kept)
}

/// The image of a text.
pub fn parse(text: &str) -> Result<Vec<u16>, String> {
    let mut lines = text.lines().filter(|line| !line.starts_with('#'));
    let words = lines.next().and_then(|line| line.strip_prefix("words "));
    let words: usize = words
        .and_then(|words| words.parse().ok())
        .ok_or("the first line has no number of words")?;
    let mut image = vec![0; words];
    for line in lines {
        put_line(line, &mut image).map_err(|why| format!("{line}: {why}"))?;
    }
    Ok(image)
}

fn put_line(line: &str, image: &mut [u16]) -> Result<(), String> {
    let (at, words) = line.split_once(": ").ok_or("no words")?;
    let (sector, word) = at.split_once('.').ok_or("no sector and word")?;
    let from = SECTOR * usize::from(number(sector)?) + usize::from(number(word)?);
    let words = parse_words(&words.split(' ').collect::<Vec<&str>>())?;
    let place = image.get_mut(from..from + words.len());
    place.ok_or("past the image")?.copy_from_slice(&words);
    Ok(())
}

/// The text of an image.
pub fn image_text(image: &[u16]) -> String {
    let mut text = format!("words {}\n", image.len());
    for (number, sector) in image.chunks(SECTOR).enumerate() {
        let used = used(sector);
        if used.is_empty() {
            continue;
        }
        if let Some(words) = words_text(used) {
            text += &format!("{number}.0: {words}\n");
            continue;
        }
        for (line, words) in sector.chunks(LINE).enumerate() {
            if let Some(words) = words_text(self::used(words)).filter(|words| !words.is_empty()) {
                text += &format!("{number}.{}: {words}\n", LINE * line);
            }
        }
    }
    text
}

/// The words up to the last that is not 0.
fn used(words: &[u16]) -> &[u16] {
    let last = words.iter().rposition(|&word| word != 0);
    &words[..last.map_or(0, |last| last + 1)]
}

/// The text of a plain unit that has nothing open.
pub fn unit_text(plain: &Plain) -> String {
    let Plain {
        unit, h, s, n, f, ..
    } = plain;
    let (layers, free) = (plain.layers, s * plain.free().len());
    let sys = slices_text(&plain.sys);
    let mut text = format!(
        "unit {unit}: H {h}, s {s}, N {n}, F {f}, L {layers}, {free} sectors free, SYS in slices {sys}\n"
    );
    for name in plain.names() {
        let (slices, blocks) = match plain.files.get(&name) {
            Some(file) => (slices_text(&file.slices), file.sectors.as_slice()),
            None => ("-".into(), &[][..]),
        };
        let (entry, blocks) = (plain.booked(&name), blocks_text(blocks));
        text += &entry_line(&name, &entry, &slices, &blocks);
    }
    text
}

/// The line of an entry: name, words, slices, and blocks as [`blocks_text`] has them.
pub fn entry_line(name: &str, entry: &[u16], slices: &str, blocks: &str) -> String {
    let words = words_text(entry).expect("sixteen words take few parts");
    format!("{name}: {words}; slices {slices}; {blocks}\n")
}

/// A file's blocks: their number, and a digest of their words.
pub fn blocks_text(blocks: &[[u16; SECTOR]]) -> String {
    let words = blocks.concat();
    format!("{} blocks {}", blocks.len(), digest_text(&words))
}

/// Slices such as `2,5-7`, or `-` for none.
fn slices_text(slices: &[usize]) -> String {
    let parts = stretches(slices).into_iter().map(|(first, number)| {
        let last = first + number - 1;
        if number == 1 {
            format!("{first}")
        } else {
            format!("{first}-{last}")
        }
    });
    let parts: Vec<String> = parts.collect();
    if parts.is_empty() {
        "-".into()
    } else {
        parts.join(",")
    }
}

#[cfg(test)]
mod tests {
    use super::*;

    #[test]
    fn an_image_reads_back_from_its_text() {
        let mut image: Vec<u16> = vec![0; 4 * SECTOR];
        image[3] = 0x1234;
        image[SECTOR..2 * SECTOR].fill(7);
        for word in 0..40 {
            image[2 * SECTOR + 20 + word] = 0x100 + word as u16;
        }
        let text = image_text(&image);
        let lines: Vec<&str> = text.lines().take(4).collect();
        let first = ["words 1024", "0.0: 3*0 1234h", "1.0: 256*7"];
        assert_eq!(lines[..3], first);
        assert!(lines[3].starts_with("2.16: 4*0 256 257 "), "{text}");
        assert_eq!(parse(&text), Ok(image));
    }

    #[test]
    fn a_text_that_is_no_image_is_refused() {
        for wrong in [
            "",
            "words x\n",
            "words 256\n0.0 1\n",
            "words 256\n0: 1\n",
            "words 256\n0.255: 2*1\n",
            "words 256\n0.0: x\n",
        ] {
            assert!(parse(wrong).is_err(), "{wrong:?}");
        }
        assert_eq!(parse("# So it is.\nwords 2\n0.1: 9\n"), Ok(vec![0, 9]));
    }
}
