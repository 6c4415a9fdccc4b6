//! Whether a host file has room in a unit, in words.

use reference::layout::Kit;
use ruzkemp::{Error, Name};

use crate::failure::{Failure, Outcome};
use crate::host::{MOST_SECTORS, SECTOR_BYTES};
use crate::values::count;

/// The sectors that a file of so many bytes needs, if a unit can have them.
pub fn sectors(name: Name, bytes: u64) -> Outcome<u16> {
    let sectors = bytes.div_ceil(SECTOR_BYTES as u64);
    match u16::try_from(sectors) {
        Ok(fitting) if usize::from(fitting) <= MOST_SECTORS => Ok(fitting),
        _ => Err(Failure::Host(format!(
            "{name}: {bytes} bytes need {sectors} sectors, and a unit has at most {MOST_SECTORS}"
        ))),
    }
}

/// The failure of an output to a file that is to have so many blocks, where that is known: if no
/// slice is free, how many the file needs, and how many were free by the kit before the first
/// output.
pub fn counted(failure: Failure, blocks: Option<u64>, before: &Kit) -> Failure {
    match (failure, blocks) {
        (Failure::Refused(what, error @ Error::AreaFull, reason), Some(blocks)) => {
            // The index block comes before the first block.
            let needed = (blocks + 1).div_ceil(before.s as u64);
            let (needed, free) = (count(needed, "slice"), before.free / before.s);
            let blocks = count(blocks, "block");
            let numbers = format!("{blocks} and the index take {needed}; free before: {free}");
            Failure::Refused(what, error, format!("{reason}: {numbers}"))
        }
        (failure, _) => failure,
    }
}
