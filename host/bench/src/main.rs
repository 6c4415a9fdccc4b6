//! The speed of the proved library: its soundness check and its calls, beside the second
//! implementation and beside reading the same words once, a Create by where its stretch of slices
//! lies, and its listing beside Rust that gathers the entries and sorts them. Prints four tables in
//! markdown.
//!
//! `bench --compare BEFORE AFTER ..` compares two libraries instead: pairs of programs `bench`,
//! each linked with one of the two. `bench --times` is what these are asked for then. The script
//! `host/bench/compare` makes the programs.

mod calls;
mod checks;
mod compare;
mod entries;
mod layouts;
mod listing;
mod pad;
mod shapes;
mod timing;

use std::process::ExitCode;
use std::{env, io};

const USAGE: &str = "usage: bench, bench --times, or bench --compare BEFORE AFTER ..";

fn main() -> ExitCode {
    let given: Vec<String> = env::args().skip(1).collect();
    let words: Vec<&str> = given.iter().map(String::as_str).collect();
    let done = match words[..] {
        [] => {
            tables();
            Ok(())
        }
        ["--times"] => compare::answer(rows(), io::stdin().lock(), io::stdout().lock()),
        ["--compare", ref programs @ ..] if programs.len() >= 2 && programs.len() % 2 == 0 => {
            compare::run(programs)
        }
        _ => Err(io::Error::other(USAGE)),
    };
    if let Err(why) = done {
        eprintln!("{why}");
        return ExitCode::from(2);
    }
    ExitCode::SUCCESS
}

fn tables() {
    checks::run();
    println!();
    calls::run();
    println!();
    calls::run_places();
    println!();
    listing::run();
}

/// The rows of the first two tables, and of the last that whose unit they do not have.
fn rows() -> Vec<Box<dyn compare::Timed>> {
    let mut rows: Vec<Box<dyn compare::Timed>> = Vec::new();
    for row in checks::rows() {
        rows.push(Box::new(row));
    }
    for row in calls::rows() {
        rows.push(Box::new(row));
    }
    rows.push(Box::new(listing::largest()));
    rows
}
