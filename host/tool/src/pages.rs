//! `help --man` and `help --completions SHELL`: what a package installs beside the tool, made
//! from its own table of commands.

use std::ffi::OsString;

use crate::failure::{Failure, Outcome};
use crate::{completions, console, manual};

/// Whether one of the pages is asked for, and not the help on a command.
pub fn is_asked(arguments: &[OsString]) -> bool {
    let first = arguments.first().and_then(|first| first.to_str());
    matches!(first, Some("--man" | "--completions"))
}

/// Prints the page that is asked for.
pub fn print(arguments: &[OsString]) -> Outcome {
    let words: Vec<&str> = arguments
        .iter()
        .map(|argument| argument.to_str().unwrap_or_default())
        .collect();
    let page = match words[..] {
        ["--man"] => Some(manual::page()),
        ["--completions", shell] => completions::script(shell),
        _ => None,
    };
    let misused = || {
        Failure::Usage(
            "help: --man stands alone, and --completions with one of bash, zsh and fish".into(),
        )
    };
    console::print(&page.ok_or_else(misused)?)
}
