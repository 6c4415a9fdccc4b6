//! One unit kept twice: each call is put to both sides, and everything is compared after it.

use reference::generate::Unit;
use reference::Answer;

use crate::cases::{self, Cases};
use crate::entry_only::{self, Uses};
use crate::one_stretch::{Taking, Ways};
use crate::{compare, Difference, Second, Seen, Side, Step};

/// A unit as the proved library and as the second implementation have it.
pub struct Both<P> {
    proved: P,
    second: Second,
    sound: bool,
    cases: Cases,
    uses: Uses,
    ways: Ways,
}

impl<P: Side> Both<P> {
    /// Both sides, with no unit yet.
    pub fn new(proved: P) -> Both<P> {
        Both {
            proved,
            second: Second::default(),
            sound: false,
            cases: Cases::default(),
            uses: Uses::default(),
            ways: Ways::default(),
        }
    }

    /// The names that differ in case only, as they came up so far.
    pub fn cases(&self) -> &Cases {
        &self.cases
    }

    /// The uses of entry-only files, as they came up so far.
    pub fn uses(&self) -> &Uses {
        &self.uses
    }

    /// The ways in which slices were taken so far.
    pub fn ways(&self) -> &Ways {
        &self.ways
    }

    /// The second implementation.
    pub fn second(&self) -> &Second {
        &self.second
    }

    /// Gives both sides a unit.
    pub fn set(&mut self, unit: &Unit) {
        self.proved.set(unit);
        self.second.set(unit);
        self.sound = self.second.is_sound();
    }

    /// Puts a step to both sides and compares them.
    pub fn put(&mut self, step: &Step) -> Result<(Answer, Vec<u16>), Difference> {
        let (mut uses, mut taking) = (Vec::new(), None);
        if self.sound {
            cases::count(&mut self.cases, step, self.second.current());
            uses = entry_only::met(step, self.second.current());
            taking = Taking::before(step, self.second.current());
        }
        let (proved_answer, proved_lent) = self.proved.put(step);
        let (answer, lent) = self.second.put(step);
        self.uses.add(uses, entry_only::outcome(answer));
        if let Some(taking) = taking {
            let ways = taking.ways(self.second.current(), answer);
            self.ways.add(ways, taking.column);
        }
        let proved = Seen::of(&self.proved, proved_answer, &proved_lent);
        let second = Seen::of(&self.second, answer, &lent);
        if let Some(difference) = compare(self.sound, &proved, &second) {
            return Err(difference);
        }
        self.sound = second.sound;
        Ok((answer, lent))
    }
}
