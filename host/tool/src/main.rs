//! `ruzkemp`: image files of RC3600 catalog units on the command line.
//!
//! Every change of an image is a call of the proved library (crate `ruzkemp`); the second
//! implementation (crate `reference`) only reads. An image file is replaced in one step after
//! all calls of a command have succeeded, so that an exit status other than 0 means that it is
//! as it was.

mod arguments;
mod commands;
mod completions;
mod console;
mod explained;
mod failure;
mod hint;
mod host;
mod json;
mod letters;
mod manual;
mod meaning;
mod numbers;
mod pages;
mod palette;
mod picture;
mod progress;
mod report;
mod room;
mod script;
mod session;
mod terminal;
mod text;
mod values;
mod version;
mod view;

use std::ffi::OsString;
use std::io::Write;
use std::path::Path;
use std::process::ExitCode;

use arguments::{Command, Given};
use commands::COMMANDS;
use failure::{Failure, Outcome};

fn main() -> ExitCode {
    host::signals::prepare();
    let arguments: Vec<OsString> = std::env::args_os().skip(1).collect();
    match begin(&arguments) {
        Ok(()) => ExitCode::SUCCESS,
        Err(failure) => {
            // If this cannot be written either, the status still tells.
            let told = console::visible(&failure.to_string());
            let _ = writeln!(std::io::stderr(), "ruzkemp: {told}");
            ExitCode::from(failure.status())
        }
    }
}

fn begin(arguments: &[OsString]) -> Outcome {
    let Some((first, rest)) = arguments.split_first() else {
        return Err(Failure::Usage(
            "no command is given (see ruzkemp help)".into(),
        ));
    };
    match (first.to_str(), rest) {
        (Some("help" | "--help" | "-h"), []) => console::print(&overview()),
        (Some("help"), asked) if pages::is_asked(asked) => pages::print(asked),
        (Some("help"), [name]) => console::print(&command(name)?.page()),
        (Some("--version" | "-V"), []) => console::print(&version::lines()),
        (Some(first @ ("help" | "--help" | "-h" | "--version" | "-V")), _) => {
            Err(Failure::Usage(format!(
                "{first}: too much is given ({})",
                match first {
                    "help" => "it takes the name of one command, or none",
                    _ => "it stands alone",
                }
            )))
        }
        _ => obeyed(command(first)?, rest),
    }
}

fn obeyed(command: &'static Command, arguments: &[OsString]) -> Outcome {
    let Some(given) = Given::new(command, arguments)? else {
        return console::print(&command.page());
    };
    given.not_the_image(Path::new("-"))?;
    if given.is_dry_run() {
        console::in_dry_run();
    }
    (command.run)(&given)
}

fn command(name: &OsString) -> Outcome<&'static Command> {
    let found = COMMANDS.iter().find(|command| name == command.name);
    found.copied().ok_or_else(|| {
        let name = console::visible_line(&name.to_string_lossy());
        Failure::Usage(format!("there is no command '{name}' (see ruzkemp help)"))
    })
}

/// The page that `ruzkemp help` prints.
fn overview() -> String {
    let mut page = String::from(
        "ruzkemp: image files of RC3600 catalog units\n\n\
         Usage: ruzkemp COMMAND IMAGE [ARGUMENTS] [--unit N]\n\nCommands:\n",
    );
    for command in COMMANDS {
        page.push_str(&format!("  {:<8} {}\n", command.name, command.summary));
    }
    page.push_str(
        "  help     this page; `ruzkemp COMMAND --help` for one command\n\n\
         `ruzkemp help --man` prints the manual page, `ruzkemp help --completions SHELL` the\n\
         completions for bash, zsh or fish.\n\n\
         Numbers are decimal or base 16 (0x1F or 1Fh). An image file has 512 bytes a sector,\n\
         the high byte of a word first (--low-byte-first: the low one), and is one unit\n\
         (--offset SECTORS: it holds one). It is changed only where the exit status is 0.\n\n\
         Exit status: 0 done; 1 refused by the unit (the result word is printed), or two images\n\
         that differ; 2 wrong usage or script; 3 trouble with a host file; 4 not the image of a\n\
         sound unit; 5 the proved library and the second implementation disagree.\n",
    );
    page
}
