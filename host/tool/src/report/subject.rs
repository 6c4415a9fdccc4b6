//! What a report is about: an image, and what both implementations say of it.

use reference::layout::{Kit, KIT, SECTOR};
use reference::Finding;
use ruzkemp::State;

use crate::arguments::Given;
use crate::failure::{Failure, Outcome};
use crate::hint;
use crate::host::{called, title, Form, ImageFile};
use crate::session::Session;
use crate::view::View;

use super::text::visible;

/// An image.
pub struct Subject {
    /// Its file name, and where in a pack it begins, to be read by people; not yet escaped.
    pub name: String,
    /// What is in it.
    pub content: Content,
}

/// What is in an image, on which the two implementations agree.
pub enum Content {
    /// A sound unit.
    Sound(View),
    /// No sound unit.
    Unsound(Unsound),
}

/// An image that is no sound unit.
pub struct Unsound {
    /// How it lies in its file.
    pub form: Form,
    /// Its sectors.
    pub sectors: usize,
    /// The kit, if there is room for one.
    pub kit: Option<Kit>,
    /// The rules that fail, by the second implementation.
    pub findings: Vec<Finding>,
    /// What else is to be known if the length or the kit is wrong.
    pub hints: Vec<String>,
}

impl Subject {
    /// Reads the command's image, once: it may come from a pipe.
    pub fn of(given: &Given) -> Outcome<Subject> {
        let file = ImageFile::read_to_judge(given.path(0), given.form()?)?;
        let image = file.words.clone();
        let content = match Session::to_read_file(given, file) {
            Ok(mut session) => Content::Sound(View::of(&mut session)?),
            Err(Failure::NotUnit(_)) => Content::Unsound(unsound(given, &image)?),
            Err(failure) => return Err(failure),
        };
        let mut name = visible(title(given.path(0)));
        if let Some(offset) = given.form()?.offset {
            name += &format!(" from sector {offset} on");
        }
        Ok(Subject { name, content })
    }
}

/// What can be said of an image that Init did not accept.
fn unsound(given: &Given, image: &[u16]) -> Outcome<Unsound> {
    let form = given.form()?;
    let findings = reference::findings(image);
    if findings.is_empty() || ruzkemp::is_sound(image, &State::new(given.unit()?)) {
        let path = called(given.path(0));
        return Err(Failure::Disagreement(format!("report {path}")));
    }
    Ok(Unsound {
        form,
        sectors: image.len() / SECTOR,
        kit: (image.len() >= (KIT + 1) * SECTOR).then(|| Kit::read(image)),
        findings,
        hints: hint::list(image, form),
    })
}
