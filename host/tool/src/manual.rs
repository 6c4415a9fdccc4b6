//! The manual page, in roff, made from the table of commands.

use crate::arguments::{Choice, Command};
use crate::commands::COMMANDS;
use crate::version::VERSION;

/// What stands before the commands.
const HEAD: &str = include_str!("manual/head.roff");
/// What stands after them.
const TAIL: &str = include_str!("manual/tail.roff");

/// The page.
pub fn page() -> String {
    let commands: String = COMMANDS.iter().map(|command| section(command)).collect();
    format!(
        ".TH RUZKEMP 1 \"\" \"ruzkemp {}\" \"User Commands\"\n{HEAD}{commands}{TAIL}",
        escaped(VERSION)
    )
}

/// A command with its options.
fn section(command: &Command) -> String {
    let mut text = format!(".SS {}\n{}", heading(command), lines(command.summary));
    // The summary has no stop at its end.
    text.insert(text.len() - 1, '.');
    if !command.about.is_empty() {
        text += &format!(".PP\n{}", lines(command.about));
    }
    text + &command.choices.iter().map(option).collect::<String>()
}

/// The command line in short: the command in bold, operands in italics.
fn heading(command: &Command) -> String {
    let mut text = format!("\"\\fB{}\\fR", escaped(command.name));
    for operand in command.operands {
        text += &format!(" \\fI{}\\fR", escaped(operand));
    }
    for (name, value) in command.needed() {
        text += &format!(" \\fB{}\\fR \\fI{}\\fR", escaped(name), escaped(value));
    }
    text + if command.choices.is_empty() {
        "\""
    } else {
        " [\\fIOPTIONS\\fR]\""
    }
}

/// An option with what it does.
fn option(choice: &Choice) -> String {
    let value = choice.value.map_or(String::new(), |value| {
        format!(" \\fI{}\\fR", escaped(value))
    });
    let names = choice
        .names()
        .map(|name| format!("\\fB{}\\fR", escaped(name)));
    let names: Vec<String> = names.collect();
    format!(".TP\n{}{value}\n{}", names.join(", "), lines(choice.help))
}

/// Text as input lines of roff: none begins as a request does.
fn lines(text: &str) -> String {
    let guarded = |line: &str| match line.starts_with(['.', '\'']) {
        true => format!("\\&{}\n", escaped(line)),
        false => format!("{}\n", escaped(line)),
    };
    text.lines().map(guarded).collect()
}

/// Text whose characters stand for themselves: a hyphen can be copied as one, and a quotation
/// mark ends no argument.
fn escaped(text: &str) -> String {
    let mut out = String::with_capacity(text.len());
    for character in text.chars() {
        match character {
            '\\' => out.push_str("\\e"),
            '-' => out.push_str("\\-"),
            '\'' => out.push_str("\\(aq"),
            '`' => out.push_str("\\(ga"),
            '^' => out.push_str("\\(ha"),
            '~' => out.push_str("\\(ti"),
            '"' => out.push_str("\\(dq"),
            // So that the page does not depend on an encoding.
            other if !other.is_ascii() => out.push_str(&format!("\\[u{:04X}]", u32::from(other))),
            other => out.push(other),
        }
    }
    out
}

#[cfg(test)]
mod tests {
    use super::*;

    #[test]
    fn characters_that_roff_would_read_stand_for_themselves() {
        assert_eq!(
            escaped(r#"a\n --x 'y' "z" `~^"#),
            r"a\en \-\-x \(aqy\(aq \(dqz\(dq \(ga\(ti\(ha"
        );
        assert_eq!(escaped("Ø å"), r"\[u00D8] \[u00E5]");
    }

    #[test]
    fn no_line_of_text_begins_a_request() {
        assert_eq!(
            lines(".TH is text\n'so too\n- . '"),
            "\\&.TH is text\n\\&\\(aqso too\n\\- . \\(aq\n"
        );
    }

    #[test]
    fn an_option_has_its_value_in_italics() {
        let choice = crate::arguments::valued("--svg", "FILE", ".svg is drawn");
        let roff = ".TP\n\\fB\\-\\-svg\\fR \\fIFILE\\fR\n\\&.svg is drawn\n";
        assert_eq!(option(&choice), roff);
        let roff = ".TP\n\\fB\\-s\\fR, \\fB\\-\\-svg\\fR \\fIFILE\\fR\n\\&.svg is drawn\n";
        assert_eq!(option(&choice.or("-s")), roff);
    }
}
