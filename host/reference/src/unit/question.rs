//! The questions and the words that refuse.

/// The questions put to a call; the first one whose answer is no gives the result word.
#[derive(Clone, Copy, PartialEq, Eq, PartialOrd, Ord, Hash, Debug)]
pub enum Question {
    /// Catalog question 1: unit known and initialized, for Init no area process.
    UnitKnown,
    /// Catalog question 2: image sound with the state.
    UnitSound,
    /// Catalog question 3: the name stands in the catalog.
    NameStands,
    /// Catalog question 4: lent record, name, size and attributes legal.
    Legal,
    /// Catalog question 5: no area process, not SYS or MAP, not permanent.
    Changeable,
    /// Catalog question 6: new name unused.
    NameUnused,
    /// Catalog question 7: enough free slices for SYS and file together.
    EnoughFree,
    /// Catalog question 8: at most 127 stretches in each.
    FewStretches,
    /// Listing: room for all entries.
    ListingRoom,
    /// Get Unit Description: byte count and words lent.
    DescriptionRoom,
    /// Areas: unit known and initialized.
    AreaUnitKnown,
    /// Areas: image sound with the state.
    AreaUnitSound,
    /// Area create: the name is entered.
    Entered,
    /// Area create and remove: not SYS or MAP.
    NotSystem,
    /// Area create: already open, or a descriptor vacant.
    DescriptorVacant,
    /// Area message: open.
    Open,
    /// Area message: no other exclusive user.
    NoExclusiveUser,
    /// Area message: sender not 0.
    SenderNotZero,
    /// Area message: known operation.
    OperationKnown,
    /// Reserve 2: no other exclusive writer.
    NoOtherWriter,
    /// Reserve 4: no other user.
    NoOtherUser,
    /// Reserve 2 to 4: entry vacant or own, count below 65,535.
    UserEntry,
    /// Release and all else: sender a user.
    SenderUser,
    /// Transput: 512 bytes and at least 256 words lent.
    TransputRoom,
    /// Output: no other exclusive writer.
    OutputAllowed,
    /// Output: not write protected.
    NotProtected,
    /// Position: not negative.
    PositionNotNegative,
    /// Position: not past the length.
    PositionNotPast,
    /// Input from a file without bit 15: below the length (02, R-4).
    InputBelowFixedEnd,
    /// Input from an extendable file: below the length.
    InputBelowExtendableEnd,
    /// Appending: extendable.
    Extendable,
    /// Appending: a slice free where one is needed.
    SliceFree,
    /// Appending: at most 127 stretches with it.
    AppendStretches,
    /// Format: 18 bytes and at least 9 words lent.
    FormatRoom,
    /// Format: unit known, no area process, limits met, free, top, image length.
    FormatLegal,
    /// A C program's message: its number is a call's, 0 to 10. Document 01 has neither the
    /// question nor its word.
    CallNumbered,
}

impl Question {
    /// The result word if the answer is no.
    pub fn word(self) -> u16 {
        match self {
            Question::UnitKnown => 0x1200,
            Question::UnitSound => 0x9000,
            Question::NameStands => 0x5000,
            Question::Legal => 0x1200,
            Question::Changeable => 0x1200,
            Question::NameUnused => 0x1010,
            Question::EnoughFree => 0x1100,
            Question::FewStretches => 0x1008,
            Question::ListingRoom => 0x1200,
            Question::DescriptionRoom => 0x1200,
            Question::AreaUnitKnown => 0x0A00,
            Question::AreaUnitSound => 0x8800,
            Question::Entered => 0x4800,
            Question::NotSystem => 0x0A00,
            Question::DescriptorVacant => 0x0900,
            Question::Open => 0x4800,
            Question::NoExclusiveUser => 0x0200,
            Question::SenderNotZero => 0x0810,
            Question::OperationKnown => 0x0A00,
            Question::NoOtherWriter => 0x0A00,
            Question::NoOtherUser => 0x0A00,
            Question::UserEntry => 0x0808,
            Question::SenderUser => 0x0810,
            Question::TransputRoom => 0x0880,
            Question::OutputAllowed => 0x0A00,
            Question::NotProtected => 0x0C00,
            Question::PositionNotNegative => 0x0A00,
            Question::PositionNotPast => 0x0810,
            Question::InputBelowFixedEnd => 0x0A00,
            Question::InputBelowExtendableEnd => 0x0810,
            Question::Extendable => 0x0A00,
            Question::SliceFree => 0x0900,
            Question::AppendStretches => 0x0808,
            Question::FormatRoom => 0x1080,
            Question::FormatLegal => 0x1200,
            Question::CallNumbered => 0xFFFF,
        }
    }
}

/// A question answered no, and the block that a transput hands back with it.
pub(super) struct Refusal {
    pub(super) question: Question,
    pub(super) block: u16,
}

impl From<Question> for Refusal {
    fn from(question: Question) -> Refusal {
        Refusal { question, block: 0 }
    }
}
