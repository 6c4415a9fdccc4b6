//! Commands that change the catalog: `create`, `set`, `change`, `rename`, `rm`.

use ruzkemp::{Attributes, Call, Entry, Name};

use crate::arguments::{flag, valued, Choice, Command, Given, DRY_RUN, LOW, OFFSET, UNIT};
use crate::console::report;
use crate::failure::{Failure, Outcome};
use crate::session::Session;
use crate::values::{sectors, words};

const SIZE: Choice = valued("--size", "N", "the length in sectors (0 if not given)");
const ATTRIBUTES: Choice = valued(
    "--attributes",
    "A",
    "the attributes: a word, or names joined by +",
);
const EXTENDABLE: Choice = flag("--extendable", "attribute: output at the end appends");
const PERMANENT: Choice = flag("--permanent", "attribute: not removed, renamed or resized");
const PROTECTED: Choice = flag("--write-protected", "attribute: no output");
const OPTIONAL: Choice = valued("--optional", "W,W,W", "the three optional words");
const TAIL: Choice = valued("--tail", "W,..", "the six words of the tail");

/// `create`.
pub const CREATE: Command = Command {
    name: "create",
    operands: &["IMAGE", "NAME"],
    choices: &[
        SIZE, ATTRIBUTES, EXTENDABLE, PERMANENT, PROTECTED, UNIT, LOW, OFFSET, DRY_RUN,
    ],
    summary: "Enter a new file of zero sectors",
    about: "Sends Create Entry. Without attributes the file has a fixed length. It lies in one stretch\n\
            if as many neighbouring slices are free, the lowest that are.",
    run: create,
};

/// `set`.
pub const SET: Command = Command {
    name: "set",
    operands: &["IMAGE", "NAME"],
    choices: &[
        SIZE, ATTRIBUTES, EXTENDABLE, PERMANENT, PROTECTED, OPTIONAL, TAIL, UNIT, LOW, OFFSET,
        DRY_RUN,
    ],
    summary: "Enter a new file with its optional and tail words",
    about: "Sends Set Entry: as create, and the words that are the caller's own are given too\n\
            (zero if not given).",
    run: set,
};

/// `change`.
pub const CHANGE: Command = Command {
    name: "change",
    operands: &["IMAGE", "NAME"],
    choices: &[
        valued("--name", "NEW", "another name"),
        valued("--size", "N", "another length in sectors"),
        ATTRIBUTES,
        EXTENDABLE,
        PERMANENT,
        PROTECTED,
        OPTIONAL,
        TAIL,
        UNIT,
        LOW,
        OFFSET,
        DRY_RUN,
    ],
    summary: "Change a file's name, length, attributes or words",
    about:
        "Sends Look-up Entry and Change Entry. What is not given is kept. The attributes given\n\
            replace all others (--attributes none takes all away, and makes an entry-only file of an\n\
            old disc an ordinary one). A permanent file keeps its optional words and its tail: a\n\
            command that gives others is refused.",
    run: change,
};

/// `rename`.
pub const RENAME: Command = Command {
    name: "rename",
    operands: &["IMAGE", "OLD", "NEW"],
    choices: &[UNIT, LOW, OFFSET, DRY_RUN],
    summary: "Give a file another name",
    about: "Sends Look-up Entry and Change Entry.",
    run: rename,
};

/// `rm`.
pub const RM: Command = Command {
    name: "rm",
    operands: &["IMAGE", "NAME..."],
    choices: &[UNIT, LOW, OFFSET, DRY_RUN],
    summary: "Remove files",
    about: "Sends Remove Entry for each name. If one is refused, none is removed.",
    run: rm,
};

fn create(given: &Given) -> Outcome {
    let name = given.name(1)?;
    let size = given.value("--size", sectors)?.unwrap_or(0);
    let attributes = attributes(given)?.unwrap_or_default();
    let mut session = Session::to_change(given)?;
    session.call(Call::Create, name, |unit| {
        unit.create(name, size, attributes)
    })?;
    entered(session, name)
}

fn set(given: &Given) -> Outcome {
    let name = given.name(1)?;
    let size = given.value("--size", sectors)?.unwrap_or(0);
    let entry = Entry::for_set(size, attributes(given)?.unwrap_or_default());
    let entry = with_own_words(given, entry)?;
    let mut session = Session::to_change(given)?;
    session.call(Call::Set, name, |unit| unit.set(name, &entry))?;
    entered(session, name)
}

/// Writes back and says what is entered now.
fn entered(mut session: Session, name: Name) -> Outcome {
    let entry = session.call(Call::LookUp, name, |unit| unit.look_up(name))?;
    session.write_back()?;
    let (length, reserved) = (entry.length(), entry.reserved());
    report(&format!(
        "{name}: entered, length {length}, reserved {reserved}\n"
    ));
    Ok(())
}

fn change(given: &Given) -> Outcome {
    let name = given.name(1)?;
    let new = given
        .raw("--name")
        .map(|text| given.read_name(&text.to_string_lossy()));
    let new = new.transpose()?;
    if given.only("--unit") {
        return Err(given.misused("there is nothing to change".into()));
    }
    let size = given.value("--size", sectors)?;
    let attributes = attributes(given)?;
    let mut session = Session::to_change(given)?;
    let current = session.call(Call::LookUp, name, |unit| unit.look_up(name))?;
    let mut entry = with_own_words(given, Entry::for_change(&current))?;
    if let Some(new) = new {
        entry = entry.with_name(new);
    }
    if let Some(size) = size {
        entry = entry.with_size(size);
    }
    if let Some(attributes) = attributes {
        entry = entry.with_attributes(attributes);
    }
    takes_own_words(name, &current, &entry)?;
    session.call(Call::Change, name, |unit| unit.change(name, &entry))?;
    session.write_back()?;
    report(&format!("{}: changed\n", new.unwrap_or(name)));
    Ok(())
}

/// The attributes that are given. Bit 0 is refused here: Change would read such a word as 'keep'.
fn attributes(given: &Given) -> Outcome<Option<Attributes>> {
    let attributes = given.attributes()?;
    match attributes {
        Some(word) if word.contains(Attributes::CATALOG_FILE) => {
            let word = word.bits();
            Err(given.misused(format!(
                "--attributes: {word:04X}h has bit 0, which is only for SYS and MAP"
            )))
        }
        _ => Ok(attributes),
    }
}

/// Refuses optional words and a tail that Change would drop: a file that is permanent before it
/// keeps its own. SYS and MAP are left to the unit, which refuses any change of them.
fn takes_own_words(name: Name, current: &Entry, entry: &Entry) -> Outcome {
    let is_file = !current.attributes().contains(Attributes::CATALOG_FILE);
    let permanent = is_file && current.attributes().contains(Attributes::PERMANENT);
    let kept = (current.optional(), current.tail()) == (entry.optional(), entry.tail());
    if !permanent || kept {
        return Ok(());
    }
    let new = entry.attributes();
    let stays = [Attributes::CATALOG_FILE, Attributes::PERMANENT];
    let also = match stays.iter().any(|bit| new.contains(*bit)) {
        true => "",
        false => ", also in the command that takes permanent away; a second command can give them",
    };
    Err(Failure::Usage(format!(
        "change {name}: the file is permanent: its optional words and tail stay as they are{also}"
    )))
}

/// An entry with the optional words and the tail that are given.
fn with_own_words(given: &Given, entry: Entry) -> Outcome<Entry> {
    let optional = given.value("--optional", words::<3>)?;
    let tail = given.value("--tail", words::<6>)?;
    let entry = entry.with_optional(optional.unwrap_or(entry.optional()));
    Ok(entry.with_tail(tail.unwrap_or(entry.tail())))
}

fn rename(given: &Given) -> Outcome {
    let (old, new) = (given.name(1)?, given.name(2)?);
    let mut session = Session::to_change(given)?;
    let current = session.call(Call::LookUp, old, |unit| unit.look_up(old))?;
    let entry = Entry::for_change(&current).with_name(new);
    session.call(Call::Change, old, |unit| unit.change(old, &entry))?;
    session.write_back()?;
    report(&format!("{old}: renamed to {new}\n"));
    Ok(())
}

fn rm(given: &Given) -> Outcome {
    let places = given.operands_from(1);
    let names: Vec<Name> = places
        .map(|place| given.name(place))
        .collect::<Outcome<_>>()?;
    let mut session = Session::to_change(given)?;
    for &name in &names {
        session.call(Call::Remove, name, |unit| unit.remove(name))?;
    }
    session.write_back()?;
    let lines = names.iter().map(|name| format!("{name}: removed\n"));
    report(&lines.collect::<String>());
    Ok(())
}
