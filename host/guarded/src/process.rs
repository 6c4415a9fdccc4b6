//! Each part in a process of its own, which ends if the library touches sectors 0 to 5.

use std::env::current_exe;
use std::os::unix::process::ExitStatusExt;
use std::path::Path;
use std::process::{Command, ExitStatus, Output};
use std::time::Instant;

use crate::part::{Part, Run, PARTS};

const SIGSEGV: i32 = 11;

/// Runs every part and tells what each has run or how it failed.
pub fn run_all() -> Run {
    let program = current_exe().map_err(|why| format!("guarded is not found: {why}"))?;
    let mut failed = 0;
    for part in PARTS {
        match run_part(&program, &part) {
            Ok(told) => println!("{told}"),
            Err(told) => {
                eprintln!("{told}");
                failed += 1;
            }
        }
    }
    if failed > 0 {
        return Err(format!("guarded: {failed} of {} parts failed", PARTS.len()));
    }
    Ok("sectors 0 to 5 were not touched, and both sides agreed after every call".into())
}

fn run_part(program: &Path, part: &Part) -> Run {
    let begun = Instant::now();
    let output = Command::new(program).arg(part.name).output();
    let output = output.map_err(|why| format!("{}: {why}", part.name))?;
    let seconds = begun.elapsed().as_secs_f64();
    let told = ending(&output).map_err(|why| format!("part {}: {why}", part.name))?;
    Ok(format!("{told}, {seconds:.1} s"))
}

/// What a part has run, from its last line, or how it failed.
fn ending(output: &Output) -> Run {
    let told = String::from_utf8_lossy(&output.stdout);
    let last = told.lines().last().unwrap_or_default();
    if output.status.success() {
        return Ok(last.into());
    }
    let item: Vec<&str> = last.split(' ').take(2).collect();
    Err(format!(
        "{}\n  while it ran {last}\n  that alone, each call printed before it is put: guarded {}\n{}",
        reason(output.status),
        item.join(" "),
        String::from_utf8_lossy(&output.stderr)
    ))
}

fn reason(status: ExitStatus) -> String {
    match status.signal() {
        Some(SIGSEGV) => "SECTORS 0 TO 5 TOUCHED, or memory that was not lent: SIGSEGV".into(),
        Some(signal) => format!("ended by signal {signal}"),
        None => "failed".into(),
    }
}

#[cfg(test)]
mod tests {
    use super::*;

    fn ended(status: i32) -> Run {
        ending(&Output {
            status: ExitStatus::from_raw(status),
            stdout: b"lists 1 (seed 1, list 0)\nlists 2 (seed 1, list 1)\n".into(),
            stderr: b"why".into(),
        })
    }

    #[test]
    fn the_last_line_says_what_was_run() {
        assert_eq!(ended(0), Ok("lists 2 (seed 1, list 1)".into()));
    }

    #[test]
    fn a_touched_sector_is_told_with_the_item_that_ran() {
        let told = ended(SIGSEGV).expect_err("a failure");
        for part in [
            "SECTORS 0 TO 5 TOUCHED",
            "ran lists 2 (",
            "guarded lists 2\n",
        ] {
            assert!(told.contains(part), "{told}");
        }
    }

    #[test]
    fn other_failures_are_told_too() {
        let told = ended(256).expect_err("a failure");
        assert!(told.starts_with("failed\n") && told.ends_with("\nwhy"));
        let told = ended(6).expect_err("a failure");
        assert!(told.starts_with("ended by signal 6\n"));
    }
}
