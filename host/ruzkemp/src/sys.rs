//! The C interface of the library, as `include/ruzkemp.h` has it.
//!
//! Every field of the structs is a 16-bit word, but for the number of entries. A slice is a
//! pointer and a number of words. The library keeps no pointer, has no memory of its own and
//! reads and writes only the words lent to it.
//!
//! A call that is refused leaves every word as it was, but for the sender's position where
//! [`Unit`](crate::Unit) says so. One that is obeyed leaves each word of the state that stands for the new
//! value already: any but 0 for yes, any from 2 on for an exclusive user.

use core::mem::{align_of, offset_of, size_of};

/// A user's entry in an area descriptor; vacant if `id` is 0.
#[repr(C)]
#[derive(Clone, Copy, PartialEq, Eq, Debug, Default)]
pub struct UserState {
    /// The sender's number.
    pub id: u16,
    /// 0 sharing, 1 exclusive writer, 2 (and any other) exclusive user.
    pub role: u16,
    /// The open count.
    pub opens: u16,
    /// The block that the next transput reads or writes.
    pub position: u16,
}

/// An area descriptor; open if `live` is not 0.
#[repr(C)]
#[derive(Clone, Copy, PartialEq, Eq, Debug, Default)]
pub struct AreaState {
    /// Whether the descriptor is in use.
    pub live: u16,
    /// The file's name, sixth character 0.
    pub name: [u16; 3],
    /// The live index sector, 0 while the file has no slice.
    pub index: u16,
    /// The live length in sectors.
    pub length: u16,
    /// The users.
    pub users: [UserState; 3],
}

/// The unit's state, lent with every call.
#[repr(C)]
#[derive(Clone, Copy, PartialEq, Eq, Debug, Default)]
pub struct UnitState {
    /// The unit number; above 3 no unit is known.
    pub unit: u16,
    /// Not 0 once Init has accepted the image.
    pub initialized: u16,
    /// The area descriptors.
    pub areas: [AreaState; 8],
}

/// A call; the fields that it does not name are not read.
#[repr(C)]
#[derive(Clone, Copy, PartialEq, Eq, Debug, Default)]
pub struct UnitMessage {
    /// Which call: one of the numbers of [`call`], else the answer is [`NO_SUCH_CALL`].
    pub call: u16,
    /// The file's name, with the unit number as sixth character.
    pub name: [u16; 3],
    /// The unit of Init, Get Unit Description and Listing.
    pub unit: u16,
    /// The length that Create asks for, in sectors.
    pub size: u16,
    /// The attributes that Create asks for.
    pub attributes: u16,
    /// The sender of a message to an area process.
    pub sender: u16,
    /// What an area message asks for: one of the numbers of [`operation`].
    pub operation: u16,
    /// The count of Reserve, the operation of transput and of any other.
    pub number: u16,
    /// The byte count of transput and of Get Unit Description.
    pub bytes: u16,
    /// The block of Position and transput.
    pub block: u16,
}

/// What a call answers.
#[repr(C)]
#[derive(Clone, Copy, PartialEq, Eq, Debug, Default)]
pub struct UnitAnswer {
    /// The result word, 0 if all went well.
    pub result: u16,
    /// The returned byte count.
    pub bytes: u16,
    /// The returned block.
    pub block: u16,
    /// The number of entries listed.
    pub entries: u32,
}

/// The result word of a message whose number is no call's; no other message is answered so.
pub const NO_SUCH_CALL: u16 = 0xFFFF;

/// The numbers of the calls.
pub mod call {
    /// Init Catalog.
    pub const INIT: u16 = 0;
    /// Set Entry.
    pub const SET: u16 = 1;
    /// Create Entry.
    pub const CREATE: u16 = 2;
    /// Look-up Entry.
    pub const LOOK_UP: u16 = 3;
    /// Change Entry.
    pub const CHANGE: u16 = 4;
    /// Remove Entry.
    pub const REMOVE: u16 = 5;
    /// Create Area Process.
    pub const CREATE_AREA: u16 = 6;
    /// Remove Area Process.
    pub const REMOVE_AREA: u16 = 7;
    /// A message to an area process.
    pub const AREA_MESSAGE: u16 = 8;
    /// Get Unit Description.
    pub const UNIT_DESCRIPTION: u16 = 9;
    /// The listing, by name.
    pub const LISTING: u16 = 10;
}

/// The numbers of the operations of a message to an area process.
pub mod operation {
    /// Reservation.
    pub const RESERVE: u16 = 0;
    /// Set the sender's position.
    pub const POSITION: u16 = 1;
    /// Sense the disc.
    pub const SENSE: u16 = 2;
    /// Input or output of a block.
    pub const TRANSPUT: u16 = 3;
    /// An operation of some other number, as is any number above.
    pub const OTHER: u16 = 4;
}

extern "C" {
    /// Whether image and state are a sound unit.
    ///
    /// # Safety
    ///
    /// `image` points to `words` words that nobody writes during the call.
    pub fn ruzkemp_sound(image: *const u16, words: usize, state: UnitState) -> bool;

    /// Carries out a call and answers it.
    ///
    /// # Safety
    ///
    /// `state`, the `words` words at `image` and the `lent_words` words at `lent` can be read and
    /// written, do not overlap, and nobody else uses them during the call.
    pub fn ruzkemp_perform(
        state: *mut UnitState,
        image: *mut u16,
        words: usize,
        lent: *mut u16,
        lent_words: usize,
        message: UnitMessage,
    ) -> UnitAnswer;

    /// Formats a unit and answers the result word.
    ///
    /// # Safety
    ///
    /// `state` and the `words` words at `image` can be read and written, the `record_words` words
    /// at `record` can be read; they do not overlap, and nobody else uses them during the call.
    pub fn ruzkemp_format(
        state: *mut UnitState,
        image: *mut u16,
        words: usize,
        record: *const u16,
        record_words: usize,
        bytes: u16,
    ) -> u16;
}

/// Whether a struct has a size, an alignment and these offsets; the compiler asks.
macro_rules! laid_out {
    ($name:ident, $size:expr, $align:expr, $($field:ident at $offset:expr),+) => {
        const _: () = {
            assert!(size_of::<$name>() == $size && align_of::<$name>() == $align);
            $(assert!(offset_of!($name, $field) == $offset);)+
        };
    };
}

laid_out!(UserState, 8, 2, id at 0, role at 2, opens at 4, position at 6);
laid_out!(AreaState, 36, 2, live at 0, name at 2, index at 8, length at 10, users at 12);
laid_out!(UnitState, 292, 2, unit at 0, initialized at 2, areas at 4);
laid_out!(UnitMessage, 24, 2, call at 0, name at 2, unit at 8, size at 10, attributes at 12,
    sender at 14, operation at 16, number at 18, bytes at 20, block at 22);
laid_out!(UnitAnswer, 12, 4, result at 0, bytes at 2, block at 4, entries at 8);
