//! `check`: whether images are sound units, by both implementations.

use std::io::Write;
use std::path::Path;

use reference::Finding;
use ruzkemp::State;

use crate::arguments::{flag, Command, Given, LOW, OFFSET, UNIT};
use crate::console::{print, visible};
use crate::failure::{Failure, Outcome};
use crate::host::{called, Form, ImageFile};
use crate::{hint, json};

/// `check`.
pub const CHECK: Command = Command {
    name: "check",
    operands: &["IMAGE..."],
    choices: &[
        flag("--all", "print every broken rule that can be named"),
        flag("--json", "print JSON, with every broken rule"),
        UNIT,
        LOW,
        OFFSET,
    ],
    summary: "Say whether images are sound units, and if not, which rule is broken and where",
    about: "The rules have the numbers of RULES.md. They come from the second implementation;\n\
            the proved library's verdict stands beside it. Exit status 4 if an image is not sound,\n\
            5 if the two disagree, 3 if an image cannot be read; of several images the highest.",
    run: check,
};

/// What is known of an image.
struct Checked {
    form: Form,
    findings: Vec<Finding>,
    /// What else is to be known if the length or the kit is wrong.
    hints: Vec<String>,
    /// The proved library's verdict.
    proved: bool,
}

impl Checked {
    fn read(path: &Path, form: Form, unit: u16) -> Outcome<Checked> {
        let image = ImageFile::read_to_judge(path, form)?.words;
        // Soundness does not depend on the unit's number, and an image file has nothing open.
        Ok(Checked {
            form,
            findings: reference::findings(&image),
            hints: hint::list(&image, form),
            proved: ruzkemp::is_sound(&image, &State::new(unit)),
        })
    }

    /// The second implementation's verdict.
    fn second(&self) -> bool {
        self.findings.is_empty()
    }
}

fn check(given: &Given) -> Outcome {
    let (form, unit) = (given.form()?, given.unit()?);
    let (json, all) = (given.flag("--json"), given.flag("--all"));
    let mut objects = Vec::new();
    let mut worst = None;
    for place in given.operands_from(0) {
        let path = given.path(place);
        let checked = Checked::read(path, form, unit);
        match json {
            true => objects.push(object(path, &checked)),
            false => print(
                &checked
                    .as_ref()
                    .map_or(String::new(), |it| report(path, it, all)),
            )?,
        }
        let outcome = checked.and_then(|it| judged(path, it.second(), it.proved));
        if let Err(failure) = outcome {
            worst = Some(worse(worst, failure));
        }
    }
    if json {
        print(&format!("[\n  {}\n]\n", objects.join(",\n  ")))?;
    }
    worst.map_or(Ok(()), Err)
}

/// The worse of two failures; the other one is told at once.
fn worse(before: Option<Failure>, now: Failure) -> Failure {
    let Some(before) = before else {
        return now;
    };
    let (worst, other) = match now.status() > before.status() {
        true => (now, before),
        false => (before, now),
    };
    // If this cannot be written, the status still tells.
    let other = visible(&other.to_string());
    let _ = writeln!(std::io::stderr(), "ruzkemp: {other}");
    worst
}

/// An image's lines: the first finding or all, and both verdicts.
fn report(path: &Path, checked: &Checked, all: bool) -> String {
    let (findings, path) = (&checked.findings, called(path));
    let mut text = format!("{path}: {}\n", verdict(checked.second() && checked.proved));
    let shown = if all {
        findings.len()
    } else {
        1.min(findings.len())
    };
    for finding in &findings[..shown] {
        text += &finding_lines(finding, checked.form);
    }
    for hint in &checked.hints {
        text += &format!("    note: {hint}\n");
    }
    if shown < findings.len() {
        let more = findings.len() - shown;
        text += &format!("  and {more} more (--all shows them)\n");
    }
    text += &format!("  second implementation: {}\n", verdict(checked.second()));
    text + &format!("  proved library:        {}\n", verdict(checked.proved))
}

fn finding_lines(finding: &Finding, form: Form) -> String {
    let rule = finding.rule;
    let mut lines = format!("  rule {}: {}\n", rule.number(), rule.text());
    lines += &format!("    found: {finding}\n");
    if let Some((sector, word)) = finding.place() {
        lines += &format!("    at: {}\n", form.place(sector, word));
    }
    lines
}

/// A finding's sector in the unit, and the byte in the file at which its word begins.
fn place(finding: &Finding, form: Form) -> Option<(u64, u64)> {
    let (sector, word) = finding.place()?;
    Some((sector as u64, form.byte(sector, word)))
}

/// An image as JSON, in one line for itself and one for each finding.
fn object(path: &Path, checked: &Outcome<Checked>) -> String {
    let path = json::string(&path.to_string_lossy());
    let checked = match checked {
        Ok(checked) => checked,
        Err(failure) => {
            let error = json::string(&failure.to_string());
            return format!("{{\"path\": {path}, \"error\": {error}}}");
        }
    };
    let findings = checked.findings.iter();
    let findings: Vec<String> = findings
        .map(|finding| finding_object(finding, checked.form))
        .collect();
    let findings = match findings.is_empty() {
        true => "[]".into(),
        false => format!("[\n    {}\n  ]", findings.join(",\n    ")),
    };
    format!(
        "{{\"path\": {path}, \"sound\": {}, \"second_implementation\": {}, \
         \"proved_library\": {}, \"findings\": {findings}}}",
        checked.second() && checked.proved,
        checked.second(),
        checked.proved
    )
}

fn finding_object(finding: &Finding, form: Form) -> String {
    let number = |number: Option<u64>| number.map_or("null".into(), |number| number.to_string());
    let (place, numbers) = (place(finding, form), finding.expected_and_found());
    let slices = finding.slices();
    let files: Vec<String> = finding
        .files()
        .iter()
        .map(|name| json::string(name))
        .collect();
    format!(
        "{{\"rule\": {}, \"text\": {}, \"found\": {}, \"expected\": {}, \"actual\": {}, \
         \"sector\": {}, \"byte\": {}, \"files\": [{}], \"file_count\": {}, \
         \"first_slice\": {}, \"slices\": {}}}",
        finding.rule.number(),
        json::string(finding.rule.text()),
        json::string(&finding.to_string()),
        number(numbers.map(|(expected, _)| expected as u64)),
        number(numbers.map(|(_, actual)| actual as u64)),
        number(place.map(|(sector, _)| sector)),
        number(place.map(|(_, byte)| byte)),
        files.join(", "),
        finding.file_count(),
        number(slices.map(|(first, _)| first as u64)),
        number(slices.map(|(_, number)| number as u64))
    )
}

/// How the check of an image ends, by the two verdicts.
fn judged(path: &Path, second: bool, proved: bool) -> Outcome {
    let path = called(path);
    match (second, proved) {
        (true, true) => Ok(()),
        (false, false) => Err(Failure::NotUnit(format!("{path}: not a sound unit"))),
        _ => Err(Failure::Disagreement(format!("check {path}"))),
    }
}

fn verdict(sound: bool) -> &'static str {
    match sound {
        true => "sound",
        false => "not sound",
    }
}

#[cfg(test)]
mod tests {
    use super::*;

    #[test]
    fn two_verdicts_that_differ_are_told_loudly() {
        let path = Path::new("a.img");
        for (second, proved) in [(true, false), (false, true)] {
            let failure = judged(path, second, proved).expect_err("they differ");
            assert_eq!(failure.status(), 5);
            assert!(failure.to_string().contains("DISAGREE"));
        }
        assert!(judged(path, true, true).is_ok());
        let failure = judged(path, false, false).expect_err("not sound");
        assert_eq!(failure.status(), 4);
    }

    #[test]
    fn of_two_failures_the_one_with_the_higher_status_is_kept() {
        let host = || Failure::Host("a".into());
        let unit = || Failure::NotUnit("b".into());
        assert_eq!(worse(None, host()).status(), 3);
        assert_eq!(worse(Some(host()), unit()).status(), 4);
        assert_eq!(worse(Some(unit()), host()).status(), 4);
    }
}
