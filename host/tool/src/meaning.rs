//! Broken limits in plain words; broken rules have theirs in the second implementation.

use reference::layout::KitFault;

/// Which of Format's limits a kit breaks.
pub fn of_limit(fault: KitFault) -> &'static str {
    match fault {
        KitFault::SysSize => "H (--keys) has to be 1 to 64",
        KitFault::SliceSize => "s (--slice) has to be 2 to 64",
        KitFault::FirstSector => "F (--first) has to be at least 10",
        KitFault::Sectors => "N (--sectors) has to be above F (--first) and at most 32767",
        KitFault::Remainder => "s (--slice) has to divide N - F (--sectors less --first)",
        KitFault::TooManySlices => "there are more than 4096 slices: (N - F) / s",
        KitFault::TooFewSlices => "there are too few slices for SYS: at least H / s, rounded up",
        KitFault::Top => "top has to be N (--sectors)",
    }
}
