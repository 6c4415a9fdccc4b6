//! The reasons for which a call is refused: those of the specification, and a
//! number that no call has.

use crate::error::Error::{self, *};
use crate::message::Call::{self, *};

/// The calls that ask catalog questions 1 and 2, Init apart.
const CATALOG: &[Call] = &[
    Set,
    Create,
    LookUp,
    Change,
    Remove,
    UnitDescription,
    Listing,
];
/// The messages to an area process.
const MESSAGES: &[Call] = &[
    Reserve,
    Release,
    Position,
    Sense,
    Input,
    Output,
    OtherOperation,
];
/// Those that only a user may send.
const OF_USERS: &[Call] = &[Release, Position, Sense, Input, Output];
const AREAS: &[Call] = &[CreateArea, RemoveArea];
const WITH_POSITION: &[Call] = &[Position, Input, Output];
const WITH_SIZE: &[Call] = &[Set, Create, Change];

/// A refusal, the calls at which a reason for it is possible, and the reason.
pub type Reason = (Error, &'static [&'static [Call]], &'static str);

/// All reasons, those of one call in the order of the specification's questions.
pub const REASONS: &[Reason] = &[
    (CatalogParameter, &[&[Init]], "the unit is not known"),
    (CatalogParameter, &[&[Init]], "an area process is open"),
    (
        CatalogParameter,
        &[CATALOG],
        "the unit is not known or not initialized",
    ),
    (
        CatalogUnsound,
        &[&[Init], CATALOG],
        "the image is not sound with the state",
    ),
    (
        NoEntry,
        &[&[LookUp, Change, Remove]],
        "the name does not stand in the catalog",
    ),
    (
        CatalogParameter,
        &[&[Set, LookUp, Change]],
        "fewer than 16 words are lent",
    ),
    (CatalogParameter, &[&[Set, Create]], "the name is illegal"),
    (CatalogParameter, &[&[Change]], "the new name is illegal"),
    (CatalogParameter, &[&[Set, Create]], "the size is negative"),
    (CatalogParameter, &[WITH_SIZE], "the attributes are illegal"),
    (
        CatalogParameter,
        &[WITH_SIZE],
        "entry only is asked for (such files are no longer created)",
    ),
    (
        CatalogParameter,
        &[&[Change]],
        "an entry-only file would get slices",
    ),
    (
        CatalogParameter,
        &[&[Change, Remove]],
        "the file has an area process",
    ),
    (
        CatalogParameter,
        &[&[Change, Remove]],
        "the file is SYS or MAP",
    ),
    (CatalogParameter, &[&[Remove]], "the file is permanent"),
    (
        CatalogParameter,
        &[&[Change]],
        "the file is permanent and its name or length would change",
    ),
    (
        EntryExists,
        &[WITH_SIZE],
        "the name is used by another file",
    ),
    (DiscFull, &[WITH_SIZE], "there are not enough free slices"),
    (
        IndexFull,
        &[WITH_SIZE],
        "SYS or the file would have more than 127 stretches",
    ),
    (
        CatalogParameter,
        &[&[Listing]],
        "fewer than 16 words for each entry are lent",
    ),
    (
        CatalogParameter,
        &[&[UnitDescription]],
        "the byte count is below 32 or fewer than 16 words are lent",
    ),
    (
        AreaIllegal,
        &[AREAS, MESSAGES],
        "the unit is not known or not initialized",
    ),
    (
        AreaUnsound,
        &[AREAS, MESSAGES],
        "the image is not sound with the state",
    ),
    (
        NoArea,
        &[&[CreateArea]],
        "the name does not stand in the catalog",
    ),
    (AreaIllegal, &[AREAS], "the file is SYS or MAP"),
    (
        AreaFull,
        &[&[CreateArea]],
        "all eight area processes are in use",
    ),
    (NoArea, &[MESSAGES], "there is no area process of the name"),
    (AreaReserved, &[MESSAGES], "another user is exclusive user"),
    (NotUserOrPastEnd, &[MESSAGES], "the sender is 0"),
    (
        AreaIllegal,
        &[&[OtherOperation]],
        "the operation is unknown",
    ),
    (
        AreaIllegal,
        &[&[Reserve]],
        "another user is exclusive writer",
    ),
    (
        AreaIllegal,
        &[&[Reserve]],
        "exclusive use is asked for beside another user",
    ),
    (
        UsersOrIndexFull,
        &[&[Reserve]],
        "all three user entries are taken",
    ),
    (
        UsersOrIndexFull,
        &[&[Reserve]],
        "the sender's open count is 65,535",
    ),
    (NotUserOrPastEnd, &[OF_USERS], "the sender is no user"),
    (
        BlockSize,
        &[&[Input, Output]],
        "the byte count is not 512 or fewer than 256 words are lent",
    ),
    (
        AreaIllegal,
        &[&[Output]],
        "another user is exclusive writer",
    ),
    (WriteProtected, &[&[Output]], "the file is write protected"),
    (AreaIllegal, &[WITH_POSITION], "the position is negative"),
    (
        NotUserOrPastEnd,
        &[WITH_POSITION],
        "the position is past the length",
    ),
    (
        AreaIllegal,
        &[&[Input]],
        "the position is at the end of a fixed file",
    ),
    (
        NotUserOrPastEnd,
        &[&[Input]],
        "the position is at the end of an extendable file",
    ),
    (
        AreaIllegal,
        &[&[Output]],
        "the file ends there and is not extendable",
    ),
    (AreaFull, &[&[Output]], "no slice is free"),
    (
        UsersOrIndexFull,
        &[&[Output]],
        "the file would have more than 127 stretches",
    ),
    (
        FormatRecord,
        &[&[Format]],
        "the byte count is not 18 or fewer than 9 words are lent",
    ),
    (CatalogParameter, &[&[Format]], "the unit is not known"),
    (CatalogParameter, &[&[Format]], "an area process is open"),
    (
        CatalogParameter,
        &[&[Format]],
        "the kit is outside its limits",
    ),
    (
        CatalogParameter,
        &[&[Format]],
        "the free sectors are not N - F or the top is not N",
    ),
    (
        CatalogParameter,
        &[&[Format]],
        "the image does not have 256 words for each sector",
    ),
    (NoSuchCall, &[&[Unknown]], "the number is no call's"),
];
