//! `report`: a page of HTML about an image.

use std::path::Path;

use super::output::output;
use crate::arguments::{flag, valued, Command, Given, LOW, OFFSET, UNIT};
use crate::failure::{Failure, Outcome};
use crate::host::called;
use crate::report::{page, Content, Subject};

/// `report`.
pub const REPORT: Command = Command {
    name: "report",
    operands: &["IMAGE"],
    choices: &[
        valued(
            "--output",
            "FILE",
            "write the report into FILE (- is standard output)",
        )
        .or("-o")
        .needed(),
        flag("--force", "replace FILE if it exists"),
        UNIT,
        LOW,
        OFFSET,
    ],
    summary: "Write a page of HTML about an image: soundness, free space, slices, files",
    about: "The page is one file that needs no other and no network. An image that is not sound\n\
            gets a report too, which says what was found; the exit status is 4 then.",
    run: report,
};

fn report(given: &Given) -> Outcome {
    let Some(path) = given.raw("--output").map(Path::new) else {
        return Err(given.misused("-o FILE has to be given".into()));
    };
    let subject = Subject::of(given)?;
    output(given, path, &page(&subject), "report")?;
    match subject.content {
        Content::Sound(_) => Ok(()),
        Content::Unsound(_) => {
            let image = called(given.path(0));
            Err(Failure::NotUnit(format!("{image}: not a sound unit")))
        }
    }
}
