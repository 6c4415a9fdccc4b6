//! Units, calls and damage from a seed.
//!
//! * [`fresh`] formats a small unit, [`aged`] writes one with a past straight from the layout
//!   (surplus slices, files in any order or close together, several layers), [`crowded`] one whose
//!   indexes and free slices lie in close to 127 stretches, at times with one long stretch behind
//!   them; [`with_entries_only`] writes entry-only files into
//!   a unit, [`open_areas`] opens area processes on it, [`fill_vacant`] fills what is vacant in its
//!   state, and [`unit()`] does some of all this.
//! * [`shaped`] writes a unit of a given shape, for measurements; [`add_file`] adds a file with
//!   given slices.
//! * [`name()`] and [`names()`] make legal names, many of them in two cases, [`other_case`] one that
//!   differs from another in case only.
//! * [`Caller`] makes calls, most of them accepted; [`raw()`] makes a call the words that a C
//!   program sends, their number at times no call's.
//! * [`format_call`] makes calls of Format, [`damage()`] breaks an image or a state.
//!
//! ```
//! use reference::{generate, perform, random::Random};
//!
//! let random = &mut Random::new(1);
//! let mut unit = generate::unit(random);
//! let mut caller = generate::Caller::new(random, &unit.image, &unit.state);
//! for _ in 0..20 {
//!     let mut call = caller.call(random, &unit.image, &unit.state);
//!     perform(&mut unit.image, &mut unit.state, &call.message, &mut call.lent);
//! }
//! ```

mod areas;
mod builder;
mod calls;
mod damage;
mod formats;
mod names;
mod past;
pub(crate) mod raw;
mod records;
mod shapes;
mod words;

pub use areas::{fill_vacant, open_areas};
pub use calls::{open_names, Call, Caller};
pub use damage::damage;
pub use formats::{format_call, FormatCall};
pub use names::{name, name_in_capitals, names, other_case};
pub use past::{aged, crowded};
pub use raw::{raw, RawCall};
pub use records::{formatted, fresh, large_record, record, unformatted, with_entries_only};
pub use shapes::{add_file, shaped, Shape};

use crate::random::Random;
use crate::types::State;

/// An image with its state.
#[derive(Clone, PartialEq, Eq, Debug)]
pub struct Unit {
    /// The disc.
    pub image: Vec<u16>,
    /// The state.
    pub state: State,
}

/// A sound unit of any of the kinds above, initialized, with or without area processes.
pub fn unit(random: &mut Random) -> Unit {
    let mut unit = match random.below(40) {
        0 => crowded(random),
        1..=14 => fresh(random),
        _ => aged(random),
    };
    if random.chance(60) {
        open_areas(random, &mut unit);
    }
    if random.chance(20) {
        fill_vacant(random, &mut unit.state);
    }
    unit
}
