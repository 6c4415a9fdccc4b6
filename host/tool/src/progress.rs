//! A progress bar on the terminal that standard error is, if it is one.

use std::io::{self, IsTerminal, Write};
use std::time::{Duration, Instant};

const WIDTH: u64 = 30;

/// Counts blocks and draws the bar now and then.
pub struct Progress {
    what: String,
    total: Option<u64>,
    done: u64,
    drawn: Option<Instant>,
    shown: bool,
}

impl Progress {
    /// A bar for so many blocks, or for a number not known yet.
    pub fn new(what: String, total: Option<u64>) -> Progress {
        Progress {
            what,
            total,
            done: 0,
            drawn: None,
            shown: io::stderr().is_terminal(),
        }
    }

    /// One block more.
    pub fn advance(&mut self) {
        self.done += 1;
        let waits = |drawn: Instant| drawn.elapsed() < Duration::from_millis(100);
        if self.shown && !self.drawn.is_some_and(waits) {
            self.drawn = Some(Instant::now());
            // A bar that cannot be drawn is no failure of the command.
            let _ = write!(io::stderr(), "\r{}", bar(&self.what, self.done, self.total));
        }
    }
}

impl Drop for Progress {
    /// Takes the bar away, so that a message begins on a line of its own.
    fn drop(&mut self) {
        if self.drawn.is_some() {
            let _ = write!(io::stderr(), "\r\x1b[K");
        }
    }
}

fn bar(what: &str, done: u64, total: Option<u64>) -> String {
    match total {
        None => format!("{what}: {done} blocks"),
        Some(total) => {
            let filled = (WIDTH * done)
                .checked_div(total)
                .unwrap_or(WIDTH)
                .min(WIDTH) as usize;
            let rest = WIDTH as usize - filled;
            let (filled, rest) = ("#".repeat(filled), ".".repeat(rest));
            format!("{what}: [{filled}{rest}] {done} of {total} blocks")
        }
    }
}

#[cfg(test)]
mod tests {
    use super::*;

    #[test]
    fn the_bar_fills_up() {
        assert_eq!(bar("PASS", 7, None), "PASS: 7 blocks");
        let at = |done, total| bar("PASS", done, Some(total));
        assert_eq!(
            at(0, 10),
            "PASS: [..............................] 0 of 10 blocks"
        );
        assert_eq!(
            at(5, 10),
            "PASS: [###############...............] 5 of 10 blocks"
        );
        assert_eq!(
            at(10, 10),
            "PASS: [##############################] 10 of 10 blocks"
        );
    }

    #[test]
    fn a_file_that_grew_or_is_empty_does_not_break_the_bar() {
        let full = "##############################";
        assert_eq!(
            bar("A", 12, Some(10)),
            format!("A: [{full}] 12 of 10 blocks")
        );
        assert_eq!(bar("A", 0, Some(0)), format!("A: [{full}] 0 of 0 blocks"));
    }
}
