//! Lists of calls put to the proved library and to the second implementation.
//!
//! * [`random`] makes units and lists from a seed; [`Both`] puts each call to both sides and
//!   compares answer, lent words, image, every word of the state and soundness after it.
//! * [`stored`] replays lists that stand in files, with the answers that they shall have.
//! * [`images`] has images of before a request, which are to be read as they were then.
//! * [`cases`] counts how often calls met names that differ in case only, [`entry_only`] how often
//!   they met entry-only files, or gave the attribute that makes one, and [`one_stretch`] in which
//!   ways they took slices.

#![warn(missing_docs)]

mod both;
pub mod cases;
mod compare;
pub mod entry_only;
pub mod images;
pub mod one_stretch;
mod proved;
pub mod random;
mod side;
pub mod state;
pub mod stored;
pub mod table;
pub mod text;

pub use both::Both;
pub use compare::{compare, Difference, Seen};
pub use proved::{answer_of, message_of, mirror_of, mirror_words, raw_message_of, Proved};
pub use side::{Second, Side, Step};
