//! The report: a page of HTML about an image, complete in itself.
//!
//! It has no link to anything outside, and its policy allows none. The picture and the tables are
//! there without the script, which adds the sorting, the filter and what is said of a slice
//! under the pointer; all it knows it reads from the picture and the tables.

mod map;
mod subject;
mod summary;
mod tables;
mod text;
mod trouble;

pub use subject::{Content, Subject};

use text::{escaped, filled};

const PAGE: &str = include_str!("page.html");
const STYLE: &str = include_str!("page.css");
const SCRIPT: &str = include_str!("page.js");
/// The sums of the style and of the script, by which the policy allows these two alone.
const STYLE_SUM: &str = "sha256-axTnIcyM9qzY4nEKOiTwZ9hG5B7u5fAENhubGH4Nqu0=";
const SCRIPT_SUM: &str = "sha256-hA9mqMpNqTX0K93QxUd7FaRXmnAPMcy9v2G5iuMrTV0=";

/// The page.
pub fn page(subject: &Subject) -> String {
    let main = match &subject.content {
        Content::Sound(view) => [
            summary::of_unit(view),
            map::section(view),
            tables::files(view),
            tables::free(view),
        ]
        .concat(),
        Content::Unsound(image) => trouble::cards(image),
    };
    filled(
        PAGE,
        &[
            ("name", escaped(&subject.name)),
            ("kind", summary::kind(&subject.content)),
            ("verdict", summary::verdict(&subject.content)),
            ("main", main),
            ("source", summary::source(&subject.content).into()),
            ("style", STYLE.into()),
            ("script", SCRIPT.into()),
            ("style-sum", STYLE_SUM.into()),
            ("script-sum", SCRIPT_SUM.into()),
            ("version", env!("CARGO_PKG_VERSION").into()),
        ],
    )
}
