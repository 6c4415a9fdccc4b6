//! Standard output.

use std::io::{self, IsTerminal, Write};
use std::sync::atomic::{AtomicBool, Ordering};

use crate::failure::{Failure, Outcome};
use crate::host::streams;

/// Prints to standard output, at once. This is for what is printed before anything is committed:
/// if it cannot be printed, the command fails and nothing is changed.
pub fn print(text: &str) -> Outcome {
    print_bytes(text.as_bytes())
}

/// Whether what is reported was done but for the commit.
static DRY_RUN: AtomicBool = AtomicBool::new(false);

/// From now on each line reported says that nothing is written.
pub fn in_dry_run() {
    DRY_RUN.store(true, Ordering::Relaxed);
}

/// Whether a warning has told that reports cannot be printed.
static NOT_REPORTED: AtomicBool = AtomicBool::new(false);

/// Prints what has been done, after it was committed. That it cannot be printed is no failure
/// any more: a warning tells it, once.
pub fn report(text: &str) {
    let mut text = visible(text);
    let mut done = "it is done";
    if DRY_RUN.load(Ordering::Relaxed) {
        done = "nothing is written";
        let lines = text.lines();
        text = lines
            .map(|line| format!("{line} (dry run: {done})\n"))
            .collect();
    }
    if let Err(failure) = print(&text) {
        if !NOT_REPORTED.swap(true, Ordering::Relaxed) {
            warn(&format!("{done}, and not reported: {failure}"));
        }
    }
}

/// Prints a warning to standard error; one that cannot be printed is lost.
pub fn warn(text: &str) {
    let _ = writeln!(io::stderr(), "ruzkemp: warning: {}", visible(text));
}

/// A text of lines with no character that a terminal would obey.
pub fn visible(text: &str) -> String {
    let mut shown = String::with_capacity(text.len());
    for character in text.chars() {
        match character.is_control() && character != '\n' {
            true => shown.extend(character.escape_default()),
            false => shown.push(character),
        }
    }
    shown
}

/// The same for a text that a user gave, in one line.
pub fn visible_line(text: &str) -> String {
    visible(text).replace('\n', "\\n")
}

/// Writes bytes to standard output, at once.
pub fn print_bytes(bytes: &[u8]) -> Outcome {
    if streams::is_output_closed() {
        let what = "standard output: it is not open for writing";
        return Err(Failure::Host(what.into()));
    }
    let mut out = io::stdout().lock();
    let written = out.write_all(bytes).and_then(|()| out.flush());
    written.map_err(|error| Failure::Host(format!("standard output: {error}")))
}

/// Whether colours may be used: standard output is a terminal, and NO_COLOR is not set.
pub fn colours() -> bool {
    let unwanted = std::env::var_os("NO_COLOR").is_some_and(|value| !value.is_empty());
    io::stdout().is_terminal() && !unwanted
}
