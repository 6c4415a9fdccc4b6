//! What is run: three parts, each a row of numbered items.

use crate::{cases, damaged, random};

/// What a part has run, or what went wrong.
pub type Run = Result<String, String>;

/// A part.
pub struct Part {
    /// What it is called on the command line.
    pub name: &'static str,
    /// Runs its items.
    pub run: fn(&mut Items) -> Run,
}

/// The parts.
pub const PARTS: [Part; 3] = [
    Part {
        name: "cases",
        run: cases::run,
    },
    Part {
        name: "damaged",
        run: damaged::run,
    },
    Part {
        name: "lists",
        run: random::run,
    },
];

/// The items of a part: all of them, or one alone.
pub struct Items {
    part: &'static str,
    only: Option<u64>,
    /// The number of the last item, and how many were run.
    number: u64,
    run: u64,
}

impl Items {
    /// The items of a part, from number 1 on.
    pub fn new(part: &'static str, only: Option<u64>) -> Items {
        Items {
            part,
            only,
            number: 0,
            run: 0,
        }
    }

    /// Whether the next item is to be run. It is named first, so that the last line of the output
    /// says which one ran when the process ended.
    pub fn begin(&mut self, what: &str) -> bool {
        self.number += 1;
        let run = self.only.is_none_or(|only| only == self.number);
        if run {
            println!("{} {} ({what})", self.part, self.number);
            self.run += 1;
        }
        run
    }

    /// Whether no item is left to run.
    pub fn ended(&self) -> bool {
        self.only.is_some_and(|only| only <= self.number)
    }

    /// Whether calls are printed before they are put, as they are for an item alone.
    pub fn trace(&self) -> bool {
        self.only.is_some()
    }

    /// How many items were run.
    pub fn count(&self) -> u64 {
        self.run
    }
}
