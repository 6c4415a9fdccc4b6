//! What a command makes as a whole: written to a file, or to standard output.

use std::path::Path;

use crate::arguments::Given;
use crate::console::{print, report};
use crate::failure::Outcome;
use crate::host::{shown, Replacement};

/// Writes a text, which is said to be `what`, into the file of a path; `-` is standard output.
pub fn output(given: &Given, path: &Path, text: &str, what: &str) -> Outcome {
    if path == Path::new("-") {
        return print(text);
    }
    given.not_the_image(path)?;
    Replacement::of(path, given.flag("--force"))?.commit(text.as_bytes())?;
    report(&format!("{}: {what} written\n", shown(path)));
    Ok(())
}
