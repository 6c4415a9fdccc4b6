//! Completions for fish.

use super::{operands, value, Kind, SHELLS};
use crate::arguments::{Choice, Command};
use crate::commands::COMMANDS;

const SCRIPT: &str = include_str!("ruzkemp.fish");

/// The script, with the lines of each command.
pub fn script() -> String {
    let names: Vec<&str> = COMMANDS.iter().map(|command| command.name).collect();
    let commands: String = COMMANDS.iter().map(|command| lines(command)).collect();
    SCRIPT
        .replace("@NAMES@", &names.join(" "))
        .replace("@SHELLS@", &SHELLS.join(" "))
        .replace("@COMMANDS@\n", &commands)
}

/// A command: itself, its options and its operands.
fn lines(command: &Command) -> String {
    let Command { name, summary, .. } = command;
    let mut text = format!(
        "\ncomplete -c ruzkemp -n __ruzkemp_first -a {name} -d {}\n",
        quoted(summary)
    );
    // To find the operands among the words, the script has to know which options have a value.
    let has_value = |choice: &&Choice| choice.value.is_some();
    let valued = command.choices.iter().filter(has_value);
    let valued = valued.flat_map(Choice::names);
    let valued: String = valued.map(|name| format!(" {name}")).collect();
    for choice in command.choices {
        text += &option(name, choice, &valued);
    }
    for (place, operand) in operands(command).iter().enumerate() {
        let place = format!("{place}{}", if operand.many { "+" } else { "" });
        let condition = quoted(&format!("__ruzkemp_at {name} {place}{valued}"));
        let completed = completed(operand.kind, &valued);
        text += &format!("complete -c ruzkemp -n {condition} {completed}\n");
    }
    text
}

fn option(command: &str, choice: &Choice, valued: &str) -> String {
    let takes = match value(choice) {
        None => String::new(),
        Some(kind) => format!(" -r {}", completed(kind, valued)),
    };
    let short = choice.short.map_or(String::new(), |short| {
        format!("-s {} ", short.trim_start_matches('-'))
    });
    format!(
        "complete -c ruzkemp -n '__ruzkemp_of {command}' {short}-l {}{takes} -d {}\n",
        choice.name.trim_start_matches('-'),
        quoted(choice.help)
    )
}

fn completed(kind: Kind, valued: &str) -> String {
    match kind {
        Kind::File => "-F".into(),
        Kind::Folder => "-f -a '(__fish_complete_directories)'".into(),
        Kind::Name => format!("-f -a '(__ruzkemp_names{valued})'"),
        Kind::Other => "-f".into(),
    }
}

/// A word in single quotes.
fn quoted(text: &str) -> String {
    format!("'{}'", text.replace('\\', "\\\\").replace('\'', "\\'"))
}

#[cfg(test)]
mod tests {
    use super::*;

    #[test]
    fn signs_of_fish_in_a_text_stand_for_themselves() {
        assert_eq!(quoted(r"it's \n"), r"'it\'s \\n'");
    }
}
