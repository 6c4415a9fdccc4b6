//! The disc side of the RC3600 Catalog System, proved: one unit over a lent image of words.
//!
//! Every call goes to the static library of crate `export`, whose functions are proved against the
//! specification for every image, state, message and lent words. This crate adds types and names,
//! and decides one thing itself: [`Unit::rename`] and [`Unit::resize`] refuse what the message
//! Change would read as 'keep'.
//!
//! * [`Unit`] is an image with its state, and has a method for each message.
//! * [`Name`], [`Entry`], [`Attributes`], [`Record`] and [`Description`] are what the messages
//!   carry; [`State`], [`Area`], [`User`] and [`Role`] are what is open.
//! * [`Error`] is a refusal, one variant for each result word.
//! * [`words_from_bytes`] and [`bytes_from_words`] are for image files, in either [`ByteOrder`].
//! * [`Message`] and [`Answer`] are the calls as an emulator has them, for [`Unit::perform`].
//! * [`sys`] is the C interface itself; its messages, of any number, are for
//!   [`Unit::perform_raw`].
//! * [`origin`] says which library is linked.
//!
//! ```
//! use ruzkemp::{Attributes, Name, Record, Role, Unit};
//!
//! # fn main() -> Result<(), Box<dyn std::error::Error>> {
//! // Unit 0 with H = 1, s = 2, N = 20, F = 10.
//! let mut unit = Unit::formatted(&Record::new(0, 1, 2, 20, 10))?;
//! unit.init()?;
//! let pass = Name::new("PASS")?;
//! unit.create(pass, 2, Attributes::EXTENDABLE)?;
//! unit.create_area(pass)?;
//! unit.reserve(pass, 7, Role::Sharing)?;
//! let block = unit.write_block_at(pass, 7, 2, &[1; 256])?;
//! assert_eq!(block, 2);
//! // The entry keeps the booked length until the area process is removed.
//! assert_eq!(unit.look_up(pass)?.length(), 2);
//! unit.release(pass, 7)?;
//! unit.remove_area(pass)?;
//! assert_eq!(unit.look_up(pass)?.length(), 3);
//! # Ok(())
//! # }
//! ```

#![deny(missing_docs)]
#![deny(unsafe_code)]

mod boundary;
mod bytes;
mod entry;
mod error;
mod kit;
mod message;
mod name;
pub mod origin;
mod reasons;
mod state;
pub mod sys;
mod unit;

pub use bytes::{bytes_from_words, words_from_bytes, ByteOrder};
pub use entry::{Attributes, Entry, ENTRY};
pub use error::{Error, Result};
pub use kit::{Description, Record, SECTOR};
pub use message::{Answer, Call, Message, Operation};
pub use name::{Name, NameError, NameWords};
pub use state::{Area, Role, State, User};
pub use unit::{is_sound, Block, Unit};
