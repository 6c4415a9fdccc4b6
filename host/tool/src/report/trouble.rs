//! The page's cards about an image that is not sound: its numbers, what was found, by rule, and how to
//! go on.

use reference::{Finding, Rule, MOST_OF_A_RULE};

use crate::host::Form;

use super::subject::Unsound;
use super::summary::tile;
use super::text::escaped;

/// The most findings of a rule that are shown.
const SHOWN: usize = 20;

/// The cards.
pub fn cards(image: &Unsound) -> String {
    let rules = by_rule(&image.findings);
    let rules: String = rules
        .iter()
        .map(|(rule, findings)| group(*rule, findings, image.form))
        .collect();
    let hints = image.hints.iter();
    let hints: String = hints
        .map(|hint| format!("<p>Note: {}.</p>\n", escaped(hint)))
        .collect();
    format!(
        "<section class=\"numbers\" aria-labelledby=\"numbers-title\">\n\
         <h2 id=\"numbers-title\">Numbers as they stand on the disc</h2>\n\
         <dl class=\"tiles\">\n{}</dl>\n</section>\n\
         <section class=\"card trouble\" aria-labelledby=\"found-title\">\n\
         <h2 id=\"found-title\">What was found</h2>\n{hints}{rules}</section>\n\
         <section class=\"card\" aria-labelledby=\"next-title\">\n\
         <h2 id=\"next-title\">How to go on</h2>\n\
         <p><code>ruzkemp ls IMAGE --unsound</code> reads what can be read; the rules are in \
         RULES.md. The image was not changed.</p>\n</section>\n",
        tiles(image)
    )
}

/// The numbers of the image.
fn tiles(image: &Unsound) -> String {
    let mut tiles = tile("Sectors of the image", "", image.sectors);
    if let Some(kit) = &image.kit {
        tiles += &[
            tile("Sectors", "N", kit.n),
            tile("First data sector", "F", kit.f),
            tile("Sectors in a slice", "s", kit.s),
            tile("Keys", "H", kit.h),
            tile("Free sectors", "", kit.free),
        ]
        .concat();
    }
    tiles
}

/// The findings of each rule, the rules in the order in which `check --all` comes to them.
fn by_rule(findings: &[Finding]) -> Vec<(Rule, Vec<&Finding>)> {
    let mut rules: Vec<(Rule, Vec<&Finding>)> = Vec::new();
    for finding in findings {
        match rules.iter_mut().find(|(rule, _)| *rule == finding.rule) {
            Some((_, others)) => others.push(finding),
            None => rules.push((finding.rule, vec![finding])),
        }
    }
    rules
}

/// A rule and what breaks it.
fn group(rule: Rule, findings: &[&Finding], form: Form) -> String {
    let shown = &findings[..findings.len().min(SHOWN)];
    let items: String = shown.iter().map(|finding| item(finding, form)).collect();
    let least = match findings.len() > MOST_OF_A_RULE {
        true => "at least ",
        false => "",
    };
    let more = match findings.len() - shown.len() {
        0 => String::new(),
        more => format!(
            "<p class=\"muted\">{least}{more} more (<code>ruzkemp check --all IMAGE</code>)</p>\n"
        ),
    };
    format!(
        "<h3>Rule {}: {}</h3>\n<ul class=\"findings\">\n{items}</ul>\n{more}",
        rule.number(),
        escaped(rule.text())
    )
}

/// What was found, and where.
fn item(finding: &Finding, form: Form) -> String {
    let place = finding.place().map_or(String::new(), |(sector, word)| {
        let place = form.place(sector, word);
        format!(" <span class=\"muted\">({place})</span>")
    });
    let found = escaped(&finding.to_string());
    format!("<li>{found}{place}</li>\n")
}
