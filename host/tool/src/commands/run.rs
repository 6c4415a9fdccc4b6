//! `run`: the messages of a script, one after the other.

use std::io;
use std::iter::repeat_n;
use std::path::Path;

use ruzkemp::{Answer, Area, Entry, Error, Message, Operation, Unit, ENTRY, SECTOR};

use crate::arguments::{flag, Command, Given, DRY_RUN, LOW, OFFSET, UNIT};
use crate::console::{print, report, visible_line};
use crate::explained::Explained;
use crate::failure::{Failure, Outcome};
use crate::host::{bytes_of, called, streams};
use crate::script::{parse, Lent, Line, Show, Step};
use crate::session::Session;

/// `run`.
pub const RUN: Command = Command {
    name: "run",
    operands: &["IMAGE", "SCRIPT"],
    choices: &[
        flag(
            "--keep-going",
            "a refusal that no line expects does not end the script",
        ),
        flag(
            "--close",
            "at the end release and remove the area processes left open",
        ),
        UNIT,
        LOW,
        OFFSET,
        DRY_RUN,
    ],
    summary: "Send the messages of a script (- is standard input) and print the answers",
    about: "The image is written back at the end, if no line failed. A refusal ends the script\n\
            unless its line begins with 'expect WORD'. Area processes live as long as the script:\n\
            one that leaves some open fails, because their lengths would not be booked.\n\
            TOOL.md describes the messages and the answers.",
    run,
};

fn run(given: &Given) -> Outcome {
    let unit = given.unit()?;
    let script = given.path(1);
    let parsed = parse(&read(script)?, unit);
    let lines = parsed.map_err(|wrong| Failure::Usage(format!("{}: {wrong}", called(script))))?;
    let mut session = Session::uninitialized(given)?;
    for line in &lines {
        let obeyed = obey(&mut session.unit, line, given.flag("--keep-going"), print);
        obeyed.map_err(|failure| session.hinted(failure))?;
    }
    if given.flag("--close") {
        close_all(&mut session.unit)?;
    }
    all_closed(&session.unit)?;
    session.write_back()?;
    if given.is_dry_run() {
        report("end");
    }
    Ok(())
}

fn read(path: &Path) -> Outcome<String> {
    if path == Path::new("-") {
        let read = io::read_to_string(streams::input()?);
        return read.map_err(|error| Failure::Host(format!("standard input: {error}")));
    }
    let read = io::read_to_string(streams::open(path)?);
    read.map_err(|error| Failure::host(path, error))
}

/// Does what a line asks for and hands its answer to `tell`.
pub fn obey(
    unit: &mut Explained,
    line: &Line,
    keep_going: bool,
    tell: impl Fn(&str) -> Outcome,
) -> Outcome {
    let (answer, handed) = perform(unit, &line.step);
    let refusal = refusal(unit, &answer)?;
    let place = line.number.to_string();
    tell(&answer_line(
        &place,
        &line.title,
        &answer,
        &handed,
        &refusal,
    ))?;
    let what = format!("line {place}, {}", line.title);
    match (line.expected, refusal) {
        (Some(expected), _) if expected != answer.result => Err(Failure::Unexpected(format!(
            "{what}: answered {:04X}h, and {expected:04X}h is expected",
            answer.result
        ))),
        (None, Some((error, reason))) if !keep_going => Err(Failure::Refused(what, error, reason)),
        _ => Ok(()),
    }
}

/// The refusal that an answer is, if it is one, and its reason.
fn refusal(unit: &Explained, answer: &Answer) -> Outcome<Option<(Error, String)>> {
    let error = Error::from_word(answer.result);
    let reason = |error| Ok((error, unit.reason(error)?));
    error.map(reason).transpose()
}

/// The answer to a step, and what is printed of the words handed back.
fn perform(unit: &mut Explained, step: &Step) -> (Answer, String) {
    match step {
        Step::Format(record, bytes) => {
            let result = unit.format_words(record, *bytes);
            let answer = Answer {
                result,
                ..Answer::default()
            };
            (answer, String::new())
        }
        Step::Send(message, lent, show) => {
            let mut words = match lent {
                Lent::Words(words) => words.clone(),
                Lent::AsImage => vec![0; unit.image().len()],
            };
            let answer = unit.perform(message, &mut words);
            let filled = match (answer.result, message) {
                (0, Message::Listing { .. }) => answer.entries as usize * ENTRY,
                (0, Message::AreaMessage { .. }) => SECTOR,
                (0, _) => ENTRY,
                _ => 0,
            };
            words.truncate(filled);
            (answer, handed_back(&words, *show))
        }
    }
}

fn handed_back(words: &[u16], show: Show) -> String {
    if words.is_empty() {
        return String::new();
    }
    match show {
        Show::None => String::new(),
        Show::Words => {
            let words: Vec<String> = words.iter().map(|word| format!("{word:04X}h")).collect();
            format!(" words={}", words.join(","))
        }
        Show::Text => {
            let bytes = bytes_of(words);
            let used = bytes
                .iter()
                .rposition(|&byte| byte != 0)
                .map_or(0, |last| last + 1);
            format!(" text=\"{}\"", bytes[..used].escape_ascii())
        }
        Show::Names => {
            let entries = words.chunks_exact(ENTRY);
            let entry = |words: &[u16]| Entry::from_words(std::array::from_fn(|word| words[word]));
            let names: Vec<String> = entries
                .map(|words| entry(words).name().to_string())
                .collect();
            format!(" names={}", names.join(","))
        }
    }
}

/// An answer in the form that docs/TOOL.md describes.
fn answer_line(
    place: &str,
    title: &str,
    answer: &Answer,
    handed: &str,
    refusal: &Option<(Error, String)>,
) -> String {
    let Answer {
        result,
        bytes,
        block,
        entries,
    } = answer;
    let meaning = match refusal {
        Some((_, reason)) => format!("  # {reason}"),
        None => String::new(),
    };
    let line = format!(
        "{place} {title}: result={result:04X}h bytes={bytes} block={block} entries={entries}\
         {handed}{meaning}"
    );
    visible_line(&line) + "\n"
}

/// Releases all users and removes all area processes, which books their lengths.
fn close_all(unit: &mut Explained) -> Outcome {
    let areas: Vec<_> = unit.state().areas().collect();
    for area in areas {
        release_all(unit, &area)?;
        let name = area.name.on_unit(unit.number());
        let message = Message::RemoveArea { name };
        close(unit, &format!("remove-area {}", area.name), &message)?;
    }
    Ok(())
}

/// Releases an area process for each of its users as often as it was reserved.
fn release_all(unit: &mut Explained, area: &Area) -> Outcome {
    let name = area.name.on_unit(unit.number());
    let users = area.users.iter();
    for sender in users.flat_map(|user| repeat_n(user.id, user.opens.into())) {
        let operation = Operation::Reserve(0);
        let message = Message::AreaMessage {
            name,
            sender,
            operation,
        };
        close(unit, &format!("release {}", area.name), &message)?;
    }
    Ok(())
}

fn close(unit: &mut Explained, title: &str, message: &Message) -> Outcome {
    let answer = unit.perform(message, &mut []);
    let refusal = refusal(unit, &answer)?;
    print(&answer_line("end", title, &answer, "", &refusal))?;
    match refusal {
        Some((error, reason)) => {
            let what = format!("at the end, {title}");
            Err(Failure::Refused(what, error, reason))
        }
        None => Ok(()),
    }
}

/// Whether no area process is open: without the state, an image on which one is open need not
/// be sound.
pub fn all_closed(unit: &Unit<Vec<u16>>) -> Outcome {
    let names: Vec<String> = unit
        .state()
        .areas()
        .map(|area| area.name.to_string())
        .collect();
    match names.is_empty() {
        true => Ok(()),
        false => Err(Failure::Usage(format!(
            "the script leaves area processes open ({}), whose lengths are not booked: nothing is \
             written (remove-area books one, --close all)",
            names.join(", ")
        ))),
    }
}
