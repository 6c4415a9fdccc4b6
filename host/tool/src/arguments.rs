//! The command line: which commands there are, and what was given to one.

use std::borrow::Cow;
use std::ffi::{OsStr, OsString};
use std::os::unix::ffi::OsStrExt;
use std::path::Path;

use ruzkemp::{Attributes, ByteOrder, Name};

use crate::console::visible_line;
use crate::failure::{Failure, Outcome};
use crate::host::{is_image, shown, Form};
use crate::values::{self, ATTRIBUTES};

/// An option of a command.
pub struct Choice {
    /// Its name, with the two dashes.
    pub name: &'static str,
    /// Its short name, with the dash, if it has one.
    pub short: Option<&'static str>,
    /// What its value stands for, if it has one.
    pub value: Option<&'static str>,
    /// Whether it has to be given.
    pub needed: bool,
    /// What it does.
    pub help: &'static str,
}

impl Choice {
    /// The option with a short name too.
    pub const fn or(self, short: &'static str) -> Choice {
        Choice {
            short: Some(short),
            ..self
        }
    }

    /// The option as one that has to be given.
    pub const fn needed(self) -> Choice {
        Choice {
            needed: true,
            ..self
        }
    }

    /// Its names, the short one first.
    pub fn names(&self) -> impl Iterator<Item = &'static str> {
        self.short.into_iter().chain([self.name])
    }
}

/// An option with a value.
pub const fn valued(name: &'static str, value: &'static str, help: &'static str) -> Choice {
    Choice {
        name,
        short: None,
        value: Some(value),
        needed: false,
        help,
    }
}

/// An option without a value.
pub const fn flag(name: &'static str, help: &'static str) -> Choice {
    Choice {
        name,
        short: None,
        value: None,
        needed: false,
        help,
    }
}

/// The unit number, which every command on an image takes.
pub const UNIT: Choice = valued("--unit", "N", "the unit's number, 0 to 3 (0 if not given)");

/// The order of a word's bytes in the image file, which every command on an image takes.
pub const LOW: Choice = flag(
    "--low-byte-first",
    "the image file has the low byte of a word first",
);

/// Where in its file a unit begins, which every command on an image takes.
pub const OFFSET: Choice = valued(
    "--offset",
    "SECTORS",
    "the unit begins at this sector of a larger file, a pack",
);

/// Of every command that changes an image.
pub const DRY_RUN: Choice = flag("--dry-run", "do everything, but write nothing");

/// A command.
pub struct Command {
    /// Its name.
    pub name: &'static str,
    /// Its operands; one with `...` stands for one or more, and one in brackets may be missing.
    pub operands: &'static [&'static str],
    /// Its options.
    pub choices: &'static [Choice],
    /// What it does, in a line.
    pub summary: &'static str,
    /// What else is to be known.
    pub about: &'static str,
    /// Does it.
    pub run: fn(&Given) -> Outcome,
}

impl Command {
    /// The command line in short.
    pub fn usage(&self) -> String {
        let needed = self.needed().map(|(name, value)| format!("{name} {value}"));
        let mut words = vec![format!("ruzkemp {}", self.name)];
        words.extend(self.operands.iter().map(|operand| operand.to_string()));
        words.extend(needed);
        if !self.choices.is_empty() {
            words.push("[OPTIONS]".into());
        }
        words.join(" ")
    }

    /// The options that have to be given, by their shortest names, with what their values stand for.
    pub fn needed(&self) -> impl Iterator<Item = (&'static str, &'static str)> {
        let needed = self.choices.iter().filter(|choice| choice.needed);
        needed.filter_map(|choice| choice.names().next().zip(choice.value))
    }

    /// The page that `--help` prints.
    pub fn page(&self) -> String {
        let mut page = format!("Usage: {}\n\n{}.\n", self.usage(), self.summary);
        if !self.about.is_empty() {
            page.push_str(&format!("\n{}\n", self.about));
        }
        page.push_str("\nOptions:\n");
        for choice in self.choices {
            let value = choice
                .value
                .map_or(String::new(), |value| format!(" {value}"));
            let names: Vec<&str> = choice.names().collect();
            let left = format!("{}{value}", names.join(", "));
            page.push_str(&format!("  {left:<20} {}\n", choice.help));
        }
        page.push_str(&format!("  {:<20} print this page\n", "--help"));
        page
    }

    /// Whether a number of operands is right.
    fn takes(&self, given: usize) -> bool {
        let needed = self.operands.iter().filter(|name| !name.starts_with('['));
        let many = self.operands.iter().any(|name| name.contains("..."));
        given >= needed.count() && (many || given <= self.operands.len())
    }

    fn misused(&self, what: String) -> Failure {
        Failure::Usage(format!(
            "{}: {}\nUsage: {} (see ruzkemp {} --help)",
            self.name,
            visible_line(&what),
            self.usage(),
            self.name
        ))
    }
}

/// What was given to a command.
pub struct Given {
    command: &'static Command,
    operands: Vec<OsString>,
    options: Vec<(&'static str, OsString)>,
}

impl Given {
    /// Takes a command's arguments apart; none if help is asked for.
    pub fn new(command: &'static Command, arguments: &[OsString]) -> Outcome<Option<Given>> {
        let mut given = Given {
            command,
            operands: Vec::new(),
            options: Vec::new(),
        };
        let mut rest = arguments.iter();
        while let Some(argument) = rest.next() {
            match argument.as_bytes() {
                b"--help" | b"-h" => return Ok(None),
                b"--" => given.operands.extend(rest.by_ref().cloned()),
                [b'-', _, ..] => given.option(argument, &mut rest)?,
                _ => given.operands.push(argument.clone()),
            }
        }
        if !command.takes(given.operands.len()) {
            let wanted = command.operands.join(" ");
            return Err(command.misused(format!("it takes the operands {wanted}")));
        }
        Ok(Some(given))
    }

    /// Takes in an option, as `--name`, `--name value` or `--name=value`. A value may be any bytes, as
    /// paths are.
    fn option<'a>(
        &mut self,
        argument: &OsStr,
        rest: &mut impl Iterator<Item = &'a OsString>,
    ) -> Outcome {
        let misused = |what: String| self.command.misused(what);
        let (name, attached) = divided(argument);
        let choice = self
            .command
            .choices
            .iter()
            .find(|choice| choice.names().any(|known| *known == *name));
        let choice = choice.ok_or_else(|| misused(format!("there is no option {name}")))?;
        if self.flag(choice.name) {
            return Err(misused(format!("{name} is given twice")));
        }
        let value = match (choice.value, attached) {
            (None, Some(_)) => return Err(misused(format!("{name} takes no value"))),
            (None, None) => OsString::new(),
            (Some(_), Some(value)) => value,
            (Some(value), None) => {
                let next = rest.next().cloned();
                next.ok_or_else(|| misused(format!("{name} needs a value {value}")))?
            }
        };
        self.options.push((choice.name, value));
        Ok(())
    }

    /// Whether an option is given.
    pub fn flag(&self, name: &str) -> bool {
        self.options.iter().any(|(given, _)| *given == name)
    }

    /// Whether no option but this one is given, those aside that say where the image lies and
    /// whether it is written.
    pub fn only(&self, name: &str) -> bool {
        let aside = [name, LOW.name, OFFSET.name, DRY_RUN.name];
        self.options.iter().all(|(given, _)| aside.contains(given))
    }

    /// An option's value as it was given.
    pub fn raw(&self, name: &str) -> Option<&OsStr> {
        let found = self.options.iter().find(|(given, _)| *given == name);
        found.map(|(_, value)| value.as_os_str())
    }

    /// An option's value, read.
    pub fn value<T>(
        &self,
        name: &str,
        read: impl Fn(&str) -> Result<T, String>,
    ) -> Outcome<Option<T>> {
        let Some(raw) = self.raw(name) else {
            return Ok(None);
        };
        let text = raw.to_string_lossy();
        let value = read(&text).map_err(|wrong| self.misused(format!("{name}: {wrong}")))?;
        Ok(Some(value))
    }

    /// The value of an option that has to be given.
    pub fn needed<T>(&self, name: &str, read: impl Fn(&str) -> Result<T, String>) -> Outcome<T> {
        let value = self.value(name, read)?;
        value.ok_or_else(|| self.misused(format!("{name} has to be given")))
    }

    /// A failure that says how the command is used.
    pub fn misused(&self, what: String) -> Failure {
        self.command.misused(what)
    }

    /// An operand as a text.
    pub fn text(&self, place: usize) -> String {
        self.operands[place].to_string_lossy().into_owned()
    }

    /// An operand that is a path.
    pub fn path(&self, place: usize) -> &Path {
        Path::new(&self.operands[place])
    }

    /// Refuses to write over the image, which the first operand is: a file, or what standard input
    /// is read from. `-` is standard output.
    pub fn not_the_image(&self, path: &Path) -> Outcome {
        let called = match path == Path::new("-") {
            true => "standard output".into(),
            false => shown(path),
        };
        match is_image(self.path(0), path) {
            true => Err(self.misused(format!("{called} is the image itself"))),
            false => Ok(()),
        }
    }

    /// The operands from one on.
    pub fn operands_from(&self, place: usize) -> std::ops::Range<usize> {
        place..self.operands.len()
    }

    /// An operand that is a file's name.
    pub fn name(&self, place: usize) -> Outcome<Name> {
        self.read_name(&self.operands[place].to_string_lossy())
    }

    /// A file's name.
    pub fn read_name(&self, text: &str) -> Outcome<Name> {
        Name::new(text).map_err(|wrong| self.misused(format!("'{text}' is no name: {wrong}")))
    }

    /// The unit's number.
    pub fn unit(&self) -> Outcome<u16> {
        Ok(self.value("--unit", values::unit)?.unwrap_or(0))
    }

    /// How the image lies in its file.
    pub fn form(&self) -> Outcome<Form> {
        self.form_by(&LOW, &OFFSET)
    }

    /// How an image lies in its file, as two options say.
    pub fn form_by(&self, low: &Choice, offset: &Choice) -> Outcome<Form> {
        let order = match self.flag(low.name) {
            true => ByteOrder::LowFirst,
            false => ByteOrder::HighFirst,
        };
        let offset = self.value(offset.name, values::sector)?;
        Ok(Form { order, offset })
    }

    /// Whether nothing is to be written.
    pub fn is_dry_run(&self) -> bool {
        self.flag(DRY_RUN.name)
    }

    /// The attributes: a word, or one option for each; none if no option is given.
    pub fn attributes(&self) -> Outcome<Option<Attributes>> {
        let mut given = self.value("--attributes", values::attributes)?;
        for (name, bit) in ATTRIBUTES {
            if self.flag(&format!("--{name}")) {
                given = Some(given.unwrap_or_default() | bit);
            }
        }
        Ok(given)
    }
}

/// An option's name, and the value that stands behind it in the same word.
fn divided(option: &OsStr) -> (Cow<'_, str>, Option<OsString>) {
    let bytes = option.as_bytes();
    let end = bytes.iter().position(|&byte| byte == b'=');
    let value = end.map(|end| OsStr::from_bytes(&bytes[end + 1..]).to_os_string());
    let name = &bytes[..end.unwrap_or(bytes.len())];
    (String::from_utf8_lossy(name), value)
}
