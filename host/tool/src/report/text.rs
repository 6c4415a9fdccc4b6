//! Texts as they stand in the page.

use std::ffi::OsStr;

/// A text in HTML, in an element or in a quoted attribute.
pub fn escaped(text: &str) -> String {
    let mut safe = String::with_capacity(text.len());
    for character in text.chars() {
        match character {
            '&' => safe.push_str("&amp;"),
            '<' => safe.push_str("&lt;"),
            '>' => safe.push_str("&gt;"),
            '"' => safe.push_str("&quot;"),
            '\'' => safe.push_str("&#39;"),
            _ => safe.push(character),
        }
    }
    safe
}

/// A host file's name to be read by people: what is no text is replaced, and characters that
/// cannot be seen or turn the line around stand as `\n` or `\u{1b}`.
pub fn visible(name: &OsStr) -> String {
    let mut text = String::new();
    for character in name.to_string_lossy().chars() {
        match is_unseen(character) {
            true => text.extend(character.escape_default()),
            false => text.push(character),
        }
    }
    text
}

/// Control characters, line ends and the marks that change the direction of writing.
fn is_unseen(character: char) -> bool {
    character.is_control()
        || matches!(character, '\u{61C}' | '\u{200B}'..='\u{200F}' | '\u{2028}'..='\u{202E}')
        || matches!(character, '\u{2060}'..='\u{206F}' | '\u{FEFF}')
}

/// A template with each `{{name}}` replaced by its value. A value is not looked through again, so
/// that no text from outside can stand for another.
pub fn filled(template: &str, values: &[(&str, String)]) -> String {
    let mut parts = template.split("{{");
    let mut page = parts.next().unwrap_or_default().to_string();
    for part in parts {
        let (name, rest) = part.split_once("}}").unwrap_or((part, ""));
        let value = values.iter().find(|(given, _)| *given == name);
        page.push_str(value.map_or("", |(_, value)| value));
        page.push_str(rest);
    }
    page
}

#[cfg(test)]
mod tests {
    use super::*;
    use std::os::unix::ffi::OsStrExt;

    #[test]
    fn nothing_of_a_text_is_markup() {
        let text = "</script><a href=\"x\" b='y'>&amp;";
        let safe = "&lt;/script&gt;&lt;a href=&quot;x&quot; b=&#39;y&#39;&gt;&amp;amp;";
        assert_eq!(escaped(text), safe);
    }

    #[test]
    fn what_cannot_be_seen_is_written_out() {
        let shown = |bytes: &[u8]| visible(OsStr::from_bytes(bytes));
        assert_eq!(shown(b"a\nb\x1b[1m"), "a\\nb\\u{1b}[1m");
        assert_eq!(shown("\u{202E}gmi.a".as_bytes()), "\\u{202e}gmi.a");
        assert_eq!(shown(b"\xFF.img"), "\u{FFFD}.img");
        assert_eq!(shown("små æøå.img".as_bytes()), "små æøå.img");
    }

    #[test]
    fn a_value_is_not_filled_in_again() {
        let values = [("a", "{{b}}".to_string()), ("b", "x".to_string())];
        assert_eq!(filled("<{{a}}|{{b}}|{{c}}>", &values), "<{{b}}|x|>");
    }
}
