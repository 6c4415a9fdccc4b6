//! Completions for zsh.

use super::{operands, value, Kind, Operand, SHELLS};
use crate::arguments::{Choice, Command};
use crate::commands::COMMANDS;

const SCRIPT: &str = include_str!("ruzkemp.zsh");

/// The script, with each command's summary and its arguments.
pub fn script() -> String {
    let summary = |command: &&Command| {
        let line = format!("{}:{}", command.name, plain(command.summary));
        format!("        {}\n", quoted(&line))
    };
    let summaries: String = COMMANDS.iter().map(summary).collect();
    let arguments: String = COMMANDS.iter().map(|command| arguments(command)).collect();
    SCRIPT
        .replace("@SUMMARIES@\n", &summaries)
        .replace("@SHELLS@", &SHELLS.join(" "))
        .replace("@ARGUMENTS@\n", &arguments)
}

/// A branch of the script: the arguments of one command.
fn arguments(command: &Command) -> String {
    let mut words = vec![quoted("(- *)--help[print this command's page]")];
    words.extend(command.choices.iter().flat_map(options));
    let operands = operands(command);
    let places = operands.iter().enumerate();
    words.extend(places.map(|(place, operand)| {
        let before = operands[..place].iter().find(|before| before.many);
        argument(place + 1, operand, before)
    }));
    format!(
        "    {})\n        _arguments {}\n        ;;\n",
        command.name,
        words.join(" \\\n            ")
    )
}

/// An option, under each of its names; of two only one can be given.
fn options(choice: &Choice) -> Vec<String> {
    let both: Vec<&str> = choice.names().collect();
    let alone = match choice.short {
        Some(_) => format!("({})", both.join(" ")),
        None => String::new(),
    };
    let option = |name: &&str| quoted(&format!("{alone}{}", option(choice, name)));
    both.iter().map(option).collect()
}

fn option(choice: &Choice, name: &str) -> String {
    let help = bracketed(choice.help);
    match (value(choice), choice.value) {
        (Some(kind), Some(called)) => {
            // A long name's value may follow it in the same word.
            let sign = if name == choice.name { "=" } else { "" };
            let (called, action) = (plain(called), action(kind));
            format!("{name}{sign}[{help}]:{called}:{action}")
        }
        _ => format!("{name}[{help}]"),
    }
}

/// An operand; behind one of which there may be more, its place may be that of one more.
fn argument(place: usize, operand: &Operand, before: Option<&Operand>) -> String {
    let place = match operand.many {
        true => "*".into(),
        false => place.to_string(),
    };
    let (called, action) = (plain(operand.called), action(operand.kind));
    quoted(&match before {
        None => format!("{place}:{called}:{action}"),
        Some(before) => {
            let (other, first) = (plain(before.called), self::action(before.kind));
            format!("{place}:{other} or {called}:{{{first}; {action}}}")
        }
    })
}

fn action(kind: Kind) -> &'static str {
    match kind {
        Kind::File => "_files",
        Kind::Folder => "_files -/",
        Kind::Name => "_ruzkemp_names",
        Kind::Other => " ",
    }
}

/// A word in single quotes.
fn quoted(text: &str) -> String {
    format!("'{}'", text.replace('\'', "'\\''"))
}

/// A text in which a colon ends nothing.
fn plain(text: &str) -> String {
    text.replace('\\', "\\\\").replace(':', "\\:")
}

/// A text that stands in brackets.
fn bracketed(text: &str) -> String {
    plain(text).replace('[', "\\[").replace(']', "\\]")
}

#[cfg(test)]
mod tests {
    use super::*;
    use crate::arguments::{flag, valued};

    #[test]
    fn signs_of_zsh_in_a_text_stand_for_themselves() {
        let choice = flag("--odd", "it's [so]: odd");
        assert_eq!(options(&choice), [r"'--odd[it'\''s \[so\]\: odd]'"]);
        let choice = valued("--svg", "FILE", "draw");
        assert_eq!(options(&choice), ["'--svg=[draw]:FILE:_files'"]);
        let both = [
            "'(-s --svg)-s[draw]:FILE:_files'",
            "'(-s --svg)--svg=[draw]:FILE:_files'",
        ];
        assert_eq!(options(&choice.or("-s")), both);
    }
}
