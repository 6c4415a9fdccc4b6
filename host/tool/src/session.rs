//! A unit on an image file, for the length of one command.

use std::fs;
use std::path::Path;

use ruzkemp::{is_sound, Call, Error, Name, State, SECTOR};

use crate::arguments::Given;
use crate::explained::Explained;
use crate::failure::{Failure, Outcome};
use crate::hint;
use crate::host::{called, shown, Form, ImageFile, Replacement};

/// An image file's unit, initialized.
pub struct Session {
    file: ImageFile,
    dry_run: bool,
    /// The unit: every change of the image is one of its calls.
    pub unit: Explained,
}

impl Session {
    /// Opens the command's image to read it only.
    pub fn to_read(given: &Given) -> Outcome<Session> {
        Session::to_read_at(given, 0, given.form()?)
    }

    /// Opens the command's image, which has been read already, to read it only.
    pub fn to_read_file(given: &Given, file: ImageFile) -> Outcome<Session> {
        Session::of(given, file)?.initialized()
    }

    /// Opens another image of the command, an operand, to read it only.
    pub fn to_read_at(given: &Given, place: usize, form: Form) -> Outcome<Session> {
        Session::to_read_file(given, ImageFile::read(given.path(place), form)?)
    }

    /// Opens the command's image to change it.
    pub fn to_change(given: &Given) -> Outcome<Session> {
        Session::uninitialized(given)?.initialized()
    }

    /// Opens the command's image to change it, before Init.
    pub fn uninitialized(given: &Given) -> Outcome<Session> {
        let file = ImageFile::read_to_change(given.path(0), given.form()?, None)?;
        Session::of(given, file)
    }

    /// Opens the command's image to format it. Of a pack, so many sectors are the unit's.
    pub fn to_format(given: &Given, sectors: u16) -> Outcome<Session> {
        let file = ImageFile::read_to_change(given.path(0), given.form()?, Some(sectors))?;
        Session::of(given, file)
    }

    fn of(given: &Given, file: ImageFile) -> Outcome<Session> {
        let unit = Explained::new(file.words.clone(), given.unit()?);
        Ok(Session {
            file,
            dry_run: given.is_dry_run(),
            unit,
        })
    }

    fn initialized(mut self) -> Outcome<Session> {
        match self.unit.init() {
            Ok(()) => Ok(self),
            Err(Error::CatalogUnsound) => Err(unsound(&self.file, self.unit.image())),
            Err(error) => {
                let what = format!("init of unit {}", self.unit.number());
                Err(self.unit.refused(what, error))
            }
        }
    }

    /// Makes a call about a name; what it answers, or the refusal with its reason.
    pub fn call<T>(
        &mut self,
        call: Call,
        name: Name,
        make: impl FnOnce(&mut Explained) -> ruzkemp::Result<T>,
    ) -> Outcome<T> {
        let what = format!("{} {name}", word(call));
        make(&mut self.unit).map_err(|error| self.unit.refused(what, error))
    }

    /// A failure, and behind it what is to be known if the image's length or kit is the reason.
    pub fn hinted(&self, failure: Failure) -> Failure {
        match failure {
            Failure::Refused(what, error @ Error::CatalogUnsound, reason) => {
                let hint = hint::of(self.unit.image(), self.file.form);
                Failure::Refused(what, error, format!("{reason}{hint}"))
            }
            other => other,
        }
    }

    /// Writes the image back if it is another now, and in a dry run does all but that. The state
    /// is lost then: whatever a command does, no image is written that is not sound without it.
    pub fn write_back(self) -> Outcome {
        let image = self.unit.image();
        if image == self.file.words {
            return Ok(());
        }
        if !is_sound(image, &State::new(self.unit.number())) {
            let path = shown(&self.file.shown);
            return Err(Failure::NotUnit(format!(
                "{path}: not written: with no area process open it would not be a sound unit"
            )));
        }
        let new = self.file.replaced(image)?;
        match self.dry_run {
            true => new.rehearse(),
            false => new.commit_image(),
        }
    }
}

/// Puts a unit that a command makes in a new file, or with `--force` in the place of an old one;
/// with `--offset` in its place in a pack that is there.
pub fn make(given: &Given, made: impl FnOnce() -> Outcome<Explained>) -> Outcome {
    let (path, form) = (given.path(0), given.form()?);
    if path == Path::new("-") {
        return Err(given.misused("a new image needs a file with a name".into()));
    }
    if form.offset.is_some() {
        return make_in_pack(given, made);
    }
    let mut file = Replacement::of(path, given.flag("--force"))?;
    file.write(&form.bytes(made()?.image()))?;
    match given.is_dry_run() {
        true => file.rehearse(),
        false => file.commit_image(),
    }
}

fn make_in_pack(given: &Given, made: impl FnOnce() -> Outcome<Explained>) -> Outcome {
    let path = given.path(0);
    if fs::symlink_metadata(path).is_err() {
        let what = format!(
            "--offset: there is no pack {} to hold the unit",
            shown(path)
        );
        return Err(given.misused(what));
    }
    if !given.flag("--force") {
        let what = "the file exists already (--force formats the unit's part of it)";
        return Err(Failure::host(path, what));
    }
    let unit = made()?;
    // A unit has at most 32,767 sectors.
    let sectors = (unit.image().len() / SECTOR) as u16;
    let mut session = Session::to_format(given, sectors)?;
    session.unit = unit;
    session.write_back()
}

/// The failure that an image which Init does not accept is.
fn unsound(file: &ImageFile, image: &[u16]) -> Failure {
    let path = called(&file.shown);
    match reference::findings(image).first() {
        Some(first) => {
            let number = first.rule.number();
            Failure::NotUnit(format!(
                "{path}: not a sound unit: rule {number} (RULES.md): {first}{} \
                 (ruzkemp check --all says more)",
                hint::of(image, file.form)
            ))
        }
        None => Failure::Disagreement(format!(
            "{path}: the proved library does not accept the image, the second implementation \
             finds it sound"
        )),
    }
}

/// The word that stands for a call in messages and scripts.
pub fn word(call: Call) -> &'static str {
    match call {
        Call::Format => "format",
        Call::Init => "init",
        Call::Set => "set",
        Call::Create => "create",
        Call::LookUp => "look-up",
        Call::Change => "change",
        Call::Remove => "remove",
        Call::CreateArea => "create-area",
        Call::RemoveArea => "remove-area",
        Call::Reserve => "reserve",
        Call::Release => "release",
        Call::Position => "position",
        Call::Sense => "sense",
        Call::Input => "input",
        Call::Output => "output",
        Call::OtherOperation => "other",
        Call::UnitDescription => "describe",
        Call::Listing => "list",
        // Of a raw message only, and the tool sends none.
        Call::Unknown => "unknown",
    }
}

#[cfg(test)]
mod tests {
    use ruzkemp::{Attributes, Record, Role, Unit};

    use super::*;
    use crate::host::{bytes_of, Form};

    #[test]
    fn an_image_that_needs_its_state_is_not_written() {
        let path = std::env::temp_dir().join(format!("ruzkemp-{}.img", std::process::id()));
        let new = Unit::formatted(&Record::new(0, 1, 2, 20, 10)).expect("a legal record");
        let bytes = bytes_of(new.image());
        fs::write(&path, &bytes).expect("written");
        let file = ImageFile::read_to_change(&path, Form::default(), None).expect("read");
        let unit = Explained::new(file.words.clone(), 0);
        let session = Session {
            file,
            dry_run: false,
            unit,
        };
        let mut session = session.initialized().expect("sound");
        let name = Name::new("PASS").expect("a name");
        let attributes = Attributes::EXTENDABLE;
        session.unit.create(name, 0, attributes).expect("created");
        session.unit.create_area(name).expect("opened");
        session
            .unit
            .reserve(name, 1, Role::Sharing)
            .expect("reserved");
        session
            .unit
            .write_block(name, 1, &[1; 256])
            .expect("written");
        let failure = session.write_back().expect_err("the length is not booked");
        let kept = fs::read(&path).expect("it is there");
        fs::remove_file(&path).expect("removed");
        assert_eq!(failure.status(), 4);
        assert!(kept == bytes);
    }
}
