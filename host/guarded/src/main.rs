//! The proved library on images whose sectors 0 to 5 may not be touched.
//!
//! * `guarded` runs every part: the cases of `bad_input`, damaged units and random lists of calls,
//!   each compared with the second implementation.
//! * `guarded PART` runs one part, `guarded PART NUMBER` one item of it, with each call printed
//!   before it is put.
//!
//! Sectors 0 to 5 lie on a page that allows no access, so a read or write of a word there ends the
//! process by SIGSEGV. Therefore each part runs in a process of its own, and `guarded` says which
//! item ran when that ended: it is the one whose call touched the words.

#![deny(unsafe_code)]

mod cases;
mod damaged;
mod memory;
mod part;
mod process;
mod random;
mod side;

use std::process::ExitCode;

use part::{Items, Part, Run, PARTS};

fn main() -> ExitCode {
    let arguments: Vec<String> = std::env::args().skip(1).collect();
    let done = match task(&arguments) {
        Some(Task::All) => process::run_all(),
        Some(Task::One { part, only }) => one(part, only),
        None => Err("guarded | guarded PART | guarded PART NUMBER".into()),
    };
    match done {
        Ok(text) => {
            println!("{text}");
            ExitCode::SUCCESS
        }
        Err(text) => {
            eprintln!("{text}");
            ExitCode::FAILURE
        }
    }
}

enum Task {
    All,
    One {
        part: &'static Part,
        only: Option<u64>,
    },
}

fn task(arguments: &[String]) -> Option<Task> {
    let part = |name: &str| PARTS.iter().find(|part| part.name == name);
    let arguments: Vec<&str> = arguments.iter().map(String::as_str).collect();
    match arguments[..] {
        [] => Some(Task::All),
        [name] => Some(Task::One {
            part: part(name)?,
            only: None,
        }),
        [name, number] => Some(Task::One {
            part: part(name)?,
            only: Some(number.parse().ok()?),
        }),
        _ => None,
    }
}

fn one(part: &'static Part, only: Option<u64>) -> Run {
    (part.run)(&mut Items::new(part.name, only))
}
