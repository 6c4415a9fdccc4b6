//! The random lists of calls.

use lists::random::Lists;

use crate::part::{Items, Run};
use crate::side::Guarded;

const SEED: u64 = 1;
/// So many calls at least.
const CALLS: u64 = 100_000;

/// Runs the lists, or the one of a number, on both sides.
pub fn run(items: &mut Items) -> Run {
    let mut lists = Lists::new(Guarded::new(items.trace()), SEED);
    let mut number = 0;
    while lists.counts().calls < CALLS && !items.ended() {
        if items.begin(&format!("seed {SEED}, list {number}")) {
            lists
                .run_list(number)
                .map_err(|failure| failure.to_string())?;
        }
        number += 1;
    }
    let calls = lists.counts().calls;
    Ok(format!("{calls} calls in {} random lists", items.count()))
}
