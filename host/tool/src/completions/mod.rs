//! Completions of the command line, for bash, zsh and fish, made from the table of commands.
//!
//! Each shell has a script beside this file, into which the commands are put as it wants them.

mod bash;
mod fish;
mod zsh;

use crate::arguments::{Choice, Command};

/// The shells that there are completions for.
const SHELLS: [&str; 3] = ["bash", "zsh", "fish"];

/// The script for a shell, if there is one.
pub fn script(shell: &str) -> Option<String> {
    match shell {
        "bash" => Some(bash::script()),
        "zsh" => Some(zsh::script()),
        "fish" => Some(fish::script()),
        _ => None,
    }
}

/// What a word of the command line can be completed to.
#[derive(Clone, Copy, Debug, PartialEq)]
enum Kind {
    /// A file of the host.
    File,
    /// A folder of the host.
    Folder,
    /// A file of the unit.
    Name,
    /// Nothing that could be known.
    Other,
}

/// An operand as it is completed.
struct Operand {
    /// What it is called, without brackets and dots.
    called: &'static str,
    kind: Kind,
    /// Whether more of the kind may follow.
    many: bool,
}

/// A command's operands. Most are files of the host, whatever they are called.
fn operands(command: &Command) -> Vec<Operand> {
    let operand = |word: &&'static str| {
        let called = bare(word);
        Operand {
            called,
            kind: kind(called).unwrap_or(Kind::File),
            many: word.contains("..."),
        }
    };
    command.operands.iter().map(operand).collect()
}

/// What an option's value can be completed to; none if it takes none. Most are numbers.
fn value(choice: &Choice) -> Option<Kind> {
    let value = choice.value?;
    Some(kind(bare(value)).unwrap_or(Kind::Other))
}

/// A word of a usage without the brackets and dots around it.
fn bare(word: &str) -> &str {
    word.trim_matches(['[', ']', '.'])
}

/// What a word of that name stands for, if the name tells.
fn kind(called: &str) -> Option<Kind> {
    match called {
        "NAME" | "OLD" => Some(Kind::Name),
        "IMAGE" | "HOSTFILE" | "FILE" | "SCRIPT" => Some(Kind::File),
        "DIR" | "FOLDER" => Some(Kind::Folder),
        "NEW" | "N" => Some(Kind::Other),
        number if number.starts_with("SECTOR") => Some(Kind::Other),
        _ => None,
    }
}

#[cfg(test)]
mod tests {
    use super::*;

    #[test]
    fn a_word_of_a_usage_tells_its_kind() {
        assert_eq!(kind(bare("NAME...")), Some(Kind::Name));
        assert_eq!(kind(bare("[HOSTFILE]")), Some(Kind::File));
        assert_eq!(kind(bare("[NAME...]")), Some(Kind::Name));
        assert_eq!(kind("NEW"), Some(Kind::Other));
        assert_eq!(kind(bare("SECTOR[-SECTOR]")), Some(Kind::Other));
        assert_eq!(kind("W,W"), None);
    }

    #[test]
    fn only_shells_that_are_known_have_a_script() {
        for shell in SHELLS {
            let script = script(shell).expect("a script");
            let place =
                |part: &str| !part.is_empty() && part.chars().all(|c| c.is_ascii_uppercase());
            assert!(
                !script.split('@').any(place),
                "{shell}: a place was not filled"
            );
        }
        assert!(script("sh").is_none());
    }
}
