//! The commands.

mod catalog;
mod check;
mod diff;
mod dump;
mod format;
mod listing;
mod many;
mod map;
mod output;
mod report;
mod rescue;
mod run;
mod sample;
mod transfer;

use crate::arguments::Command;

/// All commands, in the order of the help page.
pub const COMMANDS: &[&Command] = &[
    &format::FORMAT,
    &sample::SAMPLE,
    &check::CHECK,
    &diff::DIFF,
    &listing::LS,
    &listing::SHOW,
    &map::MAP,
    &dump::DUMP,
    &report::REPORT,
    &catalog::CREATE,
    &catalog::SET,
    &catalog::CHANGE,
    &catalog::RENAME,
    &catalog::RM,
    &transfer::PUT,
    &transfer::GET,
    &run::RUN,
];
