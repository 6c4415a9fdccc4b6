//! How a command can fail, and the exit status of each way.

use std::fmt;
use std::path::Path;

use ruzkemp::Error;

use crate::host::shown;

/// What a command answers.
pub type Outcome<T = ()> = Result<T, Failure>;

/// Why a command failed. Whichever it is, no image file has been changed.
#[derive(Debug)]
pub enum Failure {
    /// The unit refused a call: what was asked for, the refusal with its result word, and the
    /// reason.
    Refused(String, Error, String),
    /// A call of a script was not answered as the script expects.
    Unexpected(String),
    /// Two images differ: no failure but an answer, which the status gives as diff(1) does.
    Differ(String),
    /// No entry is found where it was looked for without the unit's help.
    NotFound(String),
    /// The command line or a script is wrong.
    Usage(String),
    /// A host file cannot be read or written.
    Host(String),
    /// The file is not the image of a sound unit.
    NotUnit(String),
    /// The proved library and the second implementation answer differently.
    Disagreement(String),
}

impl Failure {
    /// The exit status.
    pub fn status(&self) -> u8 {
        match self {
            Failure::Refused(..)
            | Failure::Unexpected(_)
            | Failure::Differ(_)
            | Failure::NotFound(_) => 1,
            Failure::Usage(_) => 2,
            Failure::Host(_) => 3,
            Failure::NotUnit(_) => 4,
            Failure::Disagreement(_) => 5,
        }
    }

    /// Trouble with a host file.
    pub fn host(path: &Path, trouble: impl fmt::Display) -> Failure {
        Failure::Host(format!("{}: {trouble}", shown(path)))
    }
}

impl fmt::Display for Failure {
    fn fmt(&self, to: &mut fmt::Formatter) -> fmt::Result {
        match self {
            Failure::Refused(what, error, reason) => {
                let word = error.word();
                write!(to, "{what}: refused with {word:04X}h: {reason}")
            }
            Failure::Unexpected(text)
            | Failure::Differ(text)
            | Failure::NotFound(text)
            | Failure::Usage(text)
            | Failure::Host(text)
            | Failure::NotUnit(text) => to.write_str(text),
            Failure::Disagreement(text) => write!(
                to,
                "THE TWO IMPLEMENTATIONS DISAGREE: {text}\n\
                 ruzkemp: nothing was written; please keep the image and report this"
            ),
        }
    }
}
