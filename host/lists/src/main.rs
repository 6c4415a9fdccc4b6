//! Random lists of calls on the proved library and the second implementation.
//!
//! * `lists --seed S --calls N` runs the lists of a seed until N calls were put and prints how
//!   often each pair of call and result word came up, by which question where several give the
//!   word, how often calls met names that differ in case only and entry-only files, and in which
//!   ways they took slices.
//! * `lists --seed S --list K` runs the seed's list K alone and prints each step.
//! * `lists --store` writes the answers of the second implementation into the stored lists.

use std::process::ExitCode;
use std::time::Instant;

use lists::random::{Failure, Lists};
use lists::{stored, Proved};

fn main() -> ExitCode {
    let arguments: Vec<String> = std::env::args().skip(1).collect();
    let done = match parse(&arguments) {
        Some(Task::Calls { seed, calls }) => run(seed, calls),
        Some(Task::List { seed, list }) => replay(seed, list),
        Some(Task::Store) => stored::store(),
        None => Err("lists --seed S --calls N | lists --seed S --list K | lists --store".into()),
    };
    match done {
        Ok(()) => ExitCode::SUCCESS,
        Err(text) => {
            eprintln!("{text}");
            ExitCode::FAILURE
        }
    }
}

enum Task {
    Calls { seed: u64, calls: u64 },
    List { seed: u64, list: u64 },
    Store,
}

fn parse(arguments: &[String]) -> Option<Task> {
    let arguments: Vec<&str> = arguments.iter().map(String::as_str).collect();
    match arguments[..] {
        ["--store"] => Some(Task::Store),
        ["--seed", seed, "--calls", calls] => Some(Task::Calls {
            seed: seed.parse().ok()?,
            calls: calls.parse().ok()?,
        }),
        ["--seed", seed, "--list", list] => Some(Task::List {
            seed: seed.parse().ok()?,
            list: list.parse().ok()?,
        }),
        _ => None,
    }
}

fn run(seed: u64, calls: u64) -> Result<(), String> {
    let begun = Instant::now();
    let mut lists = Lists::new(Proved::default(), seed);
    let number = lists.run(calls).map_err(told)?;
    let counts = lists.counts();
    print!("{counts}{}{}{}", lists.cases(), lists.uses(), lists.ways());
    let seconds = begun.elapsed().as_secs_f64();
    println!(
        "seed {seed}: {} calls in {number} lists, {seconds:.1} s; after each call both sides \
         had the same answer, lent words, image, state and soundness",
        counts.calls
    );
    let faults = [
        ("never came up", counts.missing()),
        ("never came up", lists.cases().missing()),
        ("never came up", lists.uses().missing()),
        ("never came up", lists.ways().missing()),
        ("is not allowed", counts.foreign()),
        ("is not allowed", lists.uses().foreign()),
        ("is not allowed", lists.ways().foreign()),
    ];
    let faults = faults.into_iter().flat_map(|(what, pairs)| {
        let tell = move |pair| format!("{pair} {what}");
        pairs.into_iter().map(tell)
    });
    let faults: Vec<String> = faults.collect();
    if faults.is_empty() {
        println!(
            "every pair of call and result word that is allowed came up, by each of its \
             questions, and no other; so did every case of names that differ in case only, every \
             use of entry-only files, and every way in which slices are taken"
        );
        Ok(())
    } else {
        Err(faults.join("\n"))
    }
}

fn replay(seed: u64, list: u64) -> Result<(), String> {
    let mut lists = Lists::new(Proved::default(), seed);
    lists.trace = true;
    lists.run_list(list).map_err(told)
}

fn told(failure: Box<Failure>) -> String {
    failure.to_string()
}
