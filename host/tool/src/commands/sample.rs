//! `sample`: a sample disc, made by a script through the same calls as any other.

use crate::arguments::{flag, Command, Given, DRY_RUN, LOW, OFFSET, UNIT};
use crate::commands::run::{all_closed, obey};
use crate::console::report;
use crate::explained::Explained;
use crate::failure::{Failure, Outcome};
use crate::host::shown;
use crate::script::{parse, Line, Step};
use crate::session::make;

/// The script that makes the sample disc.
const SCRIPT: &str = include_str!("../sample.script");

/// `sample`.
pub const SAMPLE: Command = Command {
    name: "sample",
    operands: &["IMAGE"],
    choices: &[
        flag("--force", "replace a file that exists"),
        UNIT,
        LOW,
        OFFSET,
        DRY_RUN,
    ],
    summary: "Make a sample disc to try the other commands on",
    about: "The files of a small ski area, some of them in several stretches.",
    run: sample,
};

fn sample(given: &Given) -> Outcome {
    let number = given.unit()?;
    let lines = parse(SCRIPT, number).map_err(Failure::Usage)?;
    make(given, || made(&lines, number))?;
    report(&format!("{}: sample disc made\n", shown(given.path(0))));
    Ok(())
}

fn made(lines: &[Line], number: u16) -> Outcome<Explained> {
    let words = lines.iter().find_map(|line| match line.step {
        Step::Format(record, _) => Some(ruzkemp::Record::from_words(record).image_words()),
        _ => None,
    });
    let mut unit = Explained::new(vec![0; words.unwrap_or(0)], number);
    for line in lines {
        obey(&mut unit, line, false, |_| Ok(()))?;
    }
    all_closed(&unit)?;
    Ok(unit)
}
