//! Refusals: the result words and what they mean.

use std::fmt;

use crate::message::Call;
use crate::reasons::{Reason, REASONS};
use crate::sys::NO_SUCH_CALL;

/// A result, or the refusal of a call.
pub type Result<T> = std::result::Result<T, Error>;

/// A refusal: one variant for each result word. Shown, it is one short line: the word and its
/// meaning. The same word can have several reasons; which are possible at a call says
/// [`Error::reasons`].
#[derive(Clone, Copy, PartialEq, Eq, Hash, Debug)]
pub enum Error {
    /// 1200h. The unit is not known or not initialized; for Init and Format an area process is
    /// open. The lent record, the name, the size or the attributes are illegal. Change, Remove: the
    /// file has an area process, is SYS or MAP or is permanent. Listing and Get Unit Description: too
    /// few words or bytes. Format: the record is not acceptable.
    CatalogParameter,
    /// 9000h. The image is not sound with the state.
    CatalogUnsound,
    /// 5000h. The name does not stand in the catalog.
    NoEntry,
    /// 1010h. The new name is used.
    EntryExists,
    /// 1100h. There are not enough free slices for SYS and file together.
    DiscFull,
    /// 1008h. There would be more than 127 stretches in SYS or in the file.
    IndexFull,
    /// 1080h. Format: not 18 bytes, or fewer than 9 words lent.
    FormatRecord,
    /// 0A00h. Areas: the unit is not known or not initialized, the file is SYS or MAP, the
    /// operation is unknown, another user is exclusive writer or is there at all, the position
    /// is negative, or output or input is at the end of a file that is not extendable.
    AreaIllegal,
    /// 8800h. Areas: the image is not sound with the state.
    AreaUnsound,
    /// 4800h. Area create: the name is not entered. Area messages: it is not open.
    NoArea,
    /// 0900h. Area create: none of the eight area processes is vacant. Output: no slice is free.
    AreaFull,
    /// 0200h. Area messages: another user is exclusive user.
    AreaReserved,
    /// 0810h. Area messages: the sender is 0 or no user, the position is past the length, or
    /// input is at the end of an extendable file.
    NotUserOrPastEnd,
    /// 0808h. Reserve: no user entry is vacant or own, or the open count is 65,535. Output: more
    /// than 127 stretches with one slice more.
    UsersOrIndexFull,
    /// 0880h. Transput: not 512 bytes, or fewer than 256 words lent.
    BlockSize,
    /// 0C00h. Output: the file is write protected.
    WriteProtected,
    /// FFFFh. The number of a raw message is no call's; no [`Message`](crate::Message) is answered
    /// so.
    NoSuchCall,
    /// Any other word; the library is proved to answer none.
    Other(u16),
}

/// The words with their variants and meanings, which `ruzkemp_result_text` of `include/ruzkemp.h`
/// has too.
const WORDS: [(u16, Error, &str); 17] = [
    (
        0x1200,
        Error::CatalogParameter,
        "parameter refused by the catalog",
    ),
    (
        0x9000,
        Error::CatalogUnsound,
        "image is not sound with the state",
    ),
    (0x5000, Error::NoEntry, "no entry of the name"),
    (0x1010, Error::EntryExists, "name is used by another file"),
    (0x1100, Error::DiscFull, "not enough free slices"),
    (
        0x1008,
        Error::IndexFull,
        "more than 127 stretches in SYS or the file",
    ),
    (0x1080, Error::FormatRecord, "not one record of 18 bytes"),
    (
        0x0A00,
        Error::AreaIllegal,
        "illegal area call, or the end of a fixed file",
    ),
    (
        0x8800,
        Error::AreaUnsound,
        "image is not sound with the state, at an area call",
    ),
    (
        0x4800,
        Error::NoArea,
        "no area process of the name, or no entry to open",
    ),
    (
        0x0900,
        Error::AreaFull,
        "no area process vacant, or no slice free",
    ),
    (
        0x0200,
        Error::AreaReserved,
        "another user is exclusive user",
    ),
    (
        0x0810,
        Error::NotUserOrPastEnd,
        "sender is no user, or the position is at or past the end",
    ),
    (
        0x0808,
        Error::UsersOrIndexFull,
        "no more users or opens, or more than 127 stretches in the file",
    ),
    (0x0880, Error::BlockSize, "not one block of 512 bytes"),
    (0x0C00, Error::WriteProtected, "file is write protected"),
    (
        NO_SUCH_CALL,
        Error::NoSuchCall,
        "no call has the message's number",
    ),
];

impl Error {
    /// The refusal of a result word; none if it is 0.
    pub fn from_word(word: u16) -> Option<Error> {
        let named = WORDS.iter().find(|(known, ..)| *known == word);
        match named {
            _ if word == 0 => None,
            Some((_, error, _)) => Some(*error),
            None => Some(Error::Other(word)),
        }
    }

    /// Nothing where the result word is 0, else the refusal.
    pub fn check(word: u16) -> Result<()> {
        Error::from_word(word).map_or(Ok(()), Err)
    }

    /// The result word.
    pub fn word(self) -> u16 {
        match self {
            Error::Other(word) => word,
            named => WORDS
                .iter()
                .find(|(_, error, _)| *error == named)
                .map_or(0, |(word, ..)| *word),
        }
    }

    /// The reasons that the refusal can have at a call, in the order of the questions. A length that
    /// [`Unit::resize`](crate::Unit::resize) refuses itself is none of Change's.
    pub fn reasons(self, call: Call) -> Vec<&'static str> {
        let possible = |reason: &&Reason| {
            let (error, calls, _) = reason;
            *error == self && calls.iter().any(|group| group.contains(&call))
        };
        REASONS
            .iter()
            .filter(possible)
            .map(|(_, _, text)| *text)
            .collect()
    }

    /// The word and the reasons that it can have at a call, in plain words.
    pub fn explain(self, call: Call) -> String {
        let reasons = self.reasons(call);
        let reasons = if reasons.is_empty() {
            "for no reason that the call has".into()
        } else {
            reasons.join(", or ")
        };
        format!("refused with {:04X}h: {reasons}", self.word())
    }

    /// What the word means, in short.
    fn meaning(self) -> &'static str {
        WORDS
            .iter()
            .find(|(_, error, _)| *error == self)
            .map_or("no result word of the library", |(.., meaning)| meaning)
    }
}

impl fmt::Display for Error {
    /// The word and what it means, in one line.
    fn fmt(&self, f: &mut fmt::Formatter<'_>) -> fmt::Result {
        write!(f, "{:04X}h: {}", self.word(), self.meaning())
    }
}

impl std::error::Error for Error {}
