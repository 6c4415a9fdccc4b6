//! Completions for bash.

use super::{operands, value, Kind, SHELLS};
use crate::arguments::Command;
use crate::commands::COMMANDS;

const SCRIPT: &str = include_str!("ruzkemp.bash");

/// The script, with a line for each command.
pub fn script() -> String {
    let names: Vec<&str> = COMMANDS.iter().map(|command| command.name).collect();
    let lines: String = COMMANDS.iter().map(|command| line(command)).collect();
    SCRIPT
        .replace("@NAMES@", &names.join(" "))
        .replace("@SHELLS@", &SHELLS.join(" "))
        .replace("@COMMANDS@\n", &lines)
}

/// A command: its options without and with a value, and the kinds of values and operands; `+`
/// says that more of the kind may follow.
fn line(command: &Command) -> String {
    let mut flags = vec!["--help".to_string()];
    let mut valued = Vec::new();
    for choice in command.choices {
        for name in choice.names() {
            match value(choice) {
                None => flags.push(name.into()),
                Some(kind) => valued.push(format!("{name}:{}", word(kind))),
            }
        }
    }
    let operands: Vec<String> = operands(command)
        .iter()
        .map(|operand| {
            format!(
                "{}{}",
                word(operand.kind),
                if operand.many { "+" } else { "" }
            )
        })
        .collect();
    format!(
        "    {}) flags='{}' valued='{}' operands='{}' ;;\n",
        command.name,
        flags.join(" "),
        valued.join(" "),
        operands.join(" ")
    )
}

fn word(kind: Kind) -> &'static str {
    match kind {
        Kind::File => "file",
        Kind::Folder => "folder",
        Kind::Name => "name",
        Kind::Other => "other",
    }
}

#[cfg(test)]
mod tests {
    use super::*;
    use crate::arguments::{flag, valued, Choice};

    const CHOICES: &[Choice] = &[
        flag("--force", ""),
        valued("--all", "DIR", ""),
        valued("--output", "FILE", "").or("-o"),
    ];

    #[test]
    fn a_line_has_the_kinds_of_values_and_operands() {
        let command = Command {
            name: "copy",
            operands: &["IMAGE", "[NAME...]", "[HOSTFILE]"],
            choices: CHOICES,
            summary: "",
            about: "",
            run: |_| Ok(()),
        };
        assert_eq!(
            line(&command),
            "    copy) flags='--help --force' valued='--all:folder -o:file --output:file' \
             operands='file name+ file' ;;\n"
        );
    }
}
