//! A second implementation of the RC3600 catalog unit, written from document 01 and the changes
//! of document 02 alone.
//!
//! It is plain rather than fast: the proved implementation is compared with it, call by call
//! and word by word.
//!
//! * [`format()`] and [`perform`] are the calls, exact for all arguments.
//! * [`reason`] and [`format_reason`] say in plain words why a call would be refused.
//! * [`soundness`] says whether an image is a sound unit with a state, and if not, why;
//!   [`is_sound`] only whether; [`entries`] gives the entries that stand, [`entered`] their names.
//! * [`findings()`] names every broken rule of an image by the numbers of docs/RULES.md.
//! * [`plain::Plain`] is the plain unit: a separate account with no map, index or place.
//! * [`raw`] has the messages as a C program sends them, whose number may be no call's.
//! * [`pairs`] says which result words are allowed to each call.
//! * [`rescue`] reads what can be read of an image that is not a sound unit.
//! * [`text`] shows names and tells which differ in case only.
//! * [`generate`] makes units, lists of calls and damage from a seed.

#![warn(missing_docs)]

mod findings;
pub mod generate;
pub mod layout;
pub mod pairs;
pub mod plain;
pub mod random;
pub mod raw;
pub mod rescue;
mod sound;
mod straight;
pub mod text;
mod types;
mod unit;

pub use findings::{findings, Finding, Rule, MOST_OF_A_RULE};
pub use sound::{soundness, IndexFault, Unsound};
pub use straight::{entered, entries, is_sound};
pub use types::{Answer, Area, Message, Name, Operation, Role, State, User};
pub use unit::{explain, explain_format, format, format_reason, perform, reason, Question, Reason};
