//! The listing, a file and the map as JSON, and strings in it.

use ruzkemp::Attributes;

use crate::view::{Holder, Stretch, View};

/// A text as a JSON string, with its quotation marks. Bytes of a path that are no text have to be
/// replaced before (`to_string_lossy`).
pub fn string(text: &str) -> String {
    let mut quoted = String::from("\"");
    for character in text.chars() {
        match character {
            '"' => quoted.push_str("\\\""),
            '\\' => quoted.push_str("\\\\"),
            '\n' => quoted.push_str("\\n"),
            '\r' => quoted.push_str("\\r"),
            '\t' => quoted.push_str("\\t"),
            control if control.is_control() => {
                quoted.push_str(&format!("\\u{:04x}", u32::from(control)));
            }
            other => quoted.push(other),
        }
    }
    quoted + "\""
}

/// The unit and its files, one file to a line.
pub fn listing(view: &View) -> String {
    let files: Vec<String> = view.files.iter().map(|file| holder(view, file)).collect();
    format!(
        "{{\n  {},\n  \"files\": [\n    {}\n  ]\n}}\n",
        unit(view),
        files.join(",\n    ")
    )
}

/// A file with its key.
pub fn file(view: &View, file: &Holder) -> String {
    let key = reference::layout::key(file.name.words(), view.kit.h);
    format!(
        "{{\n  {},\n  \"key\": {key},\n  \"file\": {}\n}}\n",
        unit(view),
        holder(view, file)
    )
}

/// The unit and all its stretches in the order of the slices, one to a line; name and number of a
/// free one are null.
pub fn map(view: &View) -> String {
    let mut stretches: Vec<(&Stretch, String)> = Vec::new();
    for file in &view.files {
        let numbered = file.stretches.iter().zip(1..);
        stretches.extend(numbered.map(|(stretch, number)| {
            let holder = format!("\"name\": \"{}\", \"stretch\": {number}", file.name);
            (stretch, holder)
        }));
    }
    let free = view.free.iter();
    let nobody = "\"name\": null, \"stretch\": null";
    stretches.extend(free.map(|stretch| (stretch, nobody.into())));
    stretches.sort_by_key(|(stretch, _)| stretch.first);
    let lines = stretches.iter();
    let lines: Vec<String> = lines
        .map(|(stretch, holder)| format!("{{{holder}, {}}}", place(view, stretch)))
        .collect();
    format!(
        "{{\n  {},\n  \"map\": [\n    {}\n  ]\n}}\n",
        unit(view),
        lines.join(",\n    ")
    )
}

/// The unit's numbers, as members of an object.
fn unit(view: &View) -> String {
    let kit = &view.kit;
    format!(
        "\"unit\": {}, \"sectors\": {}, \"first\": {}, \"slice\": {}, \"keys\": {}, \
         \"slices\": {}, \"free_sectors\": {}",
        view.unit,
        kit.n,
        kit.f,
        kit.s,
        kit.h,
        view.slices(),
        kit.free
    )
}

/// Where a stretch lies, as members of an object.
fn place(view: &View, stretch: &Stretch) -> String {
    let (first, last) = view.sectors(stretch);
    let sectors = last - first + 1;
    format!(
        "\"slice\": {}, \"slices\": {}, \"sector\": {first}, \"sectors\": {sectors}",
        stretch.first, stretch.slices
    )
}

/// A name is letters and digits, so that nothing needs escaping.
fn holder(view: &View, file: &Holder) -> String {
    let entry = &file.entry;
    let stretches: Vec<String> = file
        .stretches
        .iter()
        .map(|stretch| format!("{{{}}}", place(view, stretch)))
        .collect();
    format!(
        "{{\"name\": \"{}\", \"attributes\": {}, \"attribute_names\": [{}], \"length\": {}, \
         \"index\": {}, \"reserved\": {}, \"optional\": {:?}, \"tail\": {:?}, \"stretches\": [{}]}}",
        file.name,
        entry.attributes().bits(),
        attribute_names(entry.attributes()),
        entry.length(),
        entry.index(),
        entry.reserved(),
        entry.optional(),
        entry.tail(),
        stretches.join(", ")
    )
}

fn attribute_names(attributes: Attributes) -> String {
    if attributes == Attributes::NONE {
        return String::new();
    }
    let text = attributes.to_string();
    let quoted: Vec<String> = text.split(", ").map(|name| format!("\"{name}\"")).collect();
    quoted.join(", ")
}

#[cfg(test)]
mod tests {
    use super::string;

    #[test]
    fn a_string_is_escaped() {
        for (text, wanted) in [
            ("", r#""""#),
            ("disc.img", r#""disc.img""#),
            (r#"a"b\c"#, r#""a\"b\\c""#),
            ("a\nb\rc\td", r#""a\nb\rc\td""#),
            ("\0\u{1b}\u{7f}\u{9f}", r#""\u0000\u001b\u007f\u009f""#),
            ("h\u{e6}\u{1f3bf}/\u{fffd}", "\"h\u{e6}\u{1f3bf}/\u{fffd}\""),
        ] {
            assert_eq!(string(text), wanted, "{text:?}");
        }
    }
}
