//! Random lists of calls: the same seed and number give the same list.

use std::fmt;

use reference::generate::{self, Call, Caller, FormatCall, Unit};
use reference::layout::{Kit, KIT, SECTOR};
use reference::pairs::Counts;
use reference::random::Random;
use reference::{soundness, Answer, Message};

use crate::cases::Cases;
use crate::entry_only::Uses;
use crate::one_stretch::Ways;
use crate::text::{outcome_text, step_text};
use crate::{Both, Difference, Side, Step};

/// What a list begins with and does.
#[derive(Clone, Copy, PartialEq, Eq, Debug)]
enum Kind {
    /// A small unit is formatted and initialized, then called.
    Fresh,
    /// A unit with a past, nothing open or some area processes.
    Aged,
    /// A unit close to 127 stretches.
    Crowded,
    /// A unit that is damaged, called and mended, again and again.
    Damaged,
    /// Calls of Format, legal or close to it.
    Formats,
    /// A unit that is unknown, not initialized or of random words.
    Foreign,
    /// A unit of any size up to the limits, formatted and called.
    Large,
}

/// How many lists of a thousand are of each kind.
const KINDS: [(Kind, usize); 7] = [
    (Kind::Fresh, 250),
    (Kind::Aged, 359),
    (Kind::Crowded, 120),
    (Kind::Damaged, 120),
    (Kind::Formats, 70),
    (Kind::Foreign, 80),
    (Kind::Large, 1),
];

/// A difference that a list has found.
#[derive(Debug)]
pub struct Failure {
    seed: u64,
    list: u64,
    call: u64,
    shape: String,
    step: String,
    difference: Difference,
}

impl fmt::Display for Failure {
    fn fmt(&self, f: &mut fmt::Formatter<'_>) -> fmt::Result {
        let Failure {
            seed, list, call, ..
        } = self;
        writeln!(f, "seed {seed}, list {list}, call {call}: a difference")?;
        writeln!(f, "  the list began with {}", self.shape)?;
        writeln!(f, "  the call: {}", self.step)?;
        writeln!(f, "  {}", self.difference)?;
        write!(
            f,
            "  the list with a trace: lists --seed {seed} --list {list}"
        )
    }
}

/// Names the list that ran where a side panics.
struct Running {
    seed: u64,
    list: u64,
}

impl Drop for Running {
    fn drop(&mut self) {
        if std::thread::panicking() {
            eprintln!("this was seed {}, list {}", self.seed, self.list);
        }
    }
}

/// Runs random lists on both sides.
pub struct Lists<P> {
    both: Both<P>,
    seed: u64,
    /// Whether each step is printed.
    pub trace: bool,
    /// The list that runs: its number, its calls so far, and what it began with.
    list: u64,
    calls: u64,
    shape: String,
}

impl<P: Side> Lists<P> {
    /// The lists of a seed.
    pub fn new(proved: P, seed: u64) -> Lists<P> {
        Lists {
            both: Both::new(proved),
            seed,
            trace: false,
            list: 0,
            calls: 0,
            shape: String::new(),
        }
    }

    /// What came up so far.
    pub fn counts(&self) -> &Counts {
        &self.both.second().counts
    }

    /// The names that differ in case only, as they came up so far.
    pub fn cases(&self) -> &Cases {
        self.both.cases()
    }

    /// The uses of entry-only files, as they came up so far.
    pub fn uses(&self) -> &Uses {
        self.both.uses()
    }

    /// The ways in which slices were taken so far.
    pub fn ways(&self) -> &Ways {
        self.both.ways()
    }

    /// Runs the lists from number 0 on until so many calls were put; the number of lists.
    pub fn run(&mut self, calls: u64) -> Result<u64, Box<Failure>> {
        let mut lists = 0;
        while self.counts().calls < calls {
            self.run_list(lists)?;
            lists += 1;
        }
        Ok(lists)
    }

    /// Runs one list.
    pub fn run_list(&mut self, number: u64) -> Result<(), Box<Failure>> {
        let start = Random::new(self.seed ^ number.rotate_left(32)).bits();
        let random = &mut Random::new(start);
        (self.list, self.calls) = (number, 0);
        let _running = Running {
            seed: self.seed,
            list: number,
        };
        self.list_of(kind(random), random)
    }

    fn list_of(&mut self, kind: Kind, random: &mut Random) -> Result<(), Box<Failure>> {
        match kind {
            Kind::Fresh => {
                let number = random.below(4) as u16;
                let record = generate::record(random, number);
                self.formatted(random, &record)?;
                self.calls(random, 90)
            }
            Kind::Aged => {
                let unit = aged(random);
                self.begin("an aged unit", unit);
                self.calls(random, 90)
            }
            Kind::Crowded => {
                let unit = crowded(random);
                self.begin("a crowded unit", unit);
                self.calls(random, 60)
            }
            Kind::Damaged => self.damaged(random),
            Kind::Formats => self.formats(random),
            Kind::Foreign => {
                let unit = foreign(random);
                self.begin("a unit unknown, uninitialized or of random words", unit);
                self.calls(random, 12)
            }
            Kind::Large => {
                let number = random.below(4) as u16;
                let record = generate::large_record(random, number);
                self.formatted(random, &record)?;
                self.calls(random, 12)
            }
        }
    }

    /// The unit, of which both sides have the same words.
    fn unit(&self) -> &Unit {
        self.both.second().current()
    }

    fn begin(&mut self, what: &str, unit: Unit) {
        self.shape = format!("{what}: {}", shape(&unit));
        if self.trace {
            println!("# {}", self.shape);
        }
        self.both.set(&unit);
    }

    /// A unit of random words, formatted and initialized; at times with entry-only files, which no
    /// call makes.
    fn formatted(&mut self, random: &mut Random, record: &[u16]) -> Result<(), Box<Failure>> {
        let unit = generate::unformatted(random, record);
        self.begin("random words", unit);
        let (bytes, record) = (18, record.to_vec());
        self.put(&Step::Format { bytes, record })?;
        self.put(&init(self.unit()))?;
        if random.chance(50) {
            let unit = generate::with_entries_only(random, self.unit().clone());
            self.begin("a formatted unit, entry-only files written into it", unit);
        }
        Ok(())
    }

    /// Damages a unit, calls it and mends it, some times over.
    fn damaged(&mut self, random: &mut Random) -> Result<(), Box<Failure>> {
        let unit = generate::unit(random);
        self.begin("a unit to be damaged", unit);
        for _ in 0..8 {
            let whole = self.unit().clone();
            let mut unit = whole.clone();
            for _ in 0..random.pick(&[1, 1, 1, 2]) {
                let what = generate::damage(random, &mut unit);
                if self.trace {
                    println!("# damage: {what}");
                }
            }
            self.both.set(&unit);
            self.calls(random, 5)?;
            self.both.set(&whole);
            if self.trace {
                println!("# mended");
            }
            self.calls(random, 3)?;
        }
        Ok(())
    }

    /// Calls of Format, each on a unit of its own; one that is accepted is initialized and called.
    fn formats(&mut self, random: &mut Random) -> Result<(), Box<Failure>> {
        for _ in 0..8 {
            let FormatCall {
                unit,
                bytes,
                record,
            } = generate::format_call(random);
            self.begin("a unit to be formatted", unit);
            let answer = self.put(&Step::Format { bytes, record })?;
            if answer.result == 0 {
                self.put(&init(self.unit()))?;
                self.calls(random, 3)?;
            }
        }
        Ok(())
    }

    /// Puts so many calls to the unit.
    fn calls(&mut self, random: &mut Random, number: usize) -> Result<(), Box<Failure>> {
        let Unit { image, state } = self.unit();
        let mut caller = Caller::new(random, image, state);
        for _ in 0..number {
            let step = next(random, &mut caller, self.unit());
            self.put(&step)?;
        }
        Ok(())
    }

    /// Puts one step to both sides.
    fn put(&mut self, step: &Step) -> Result<Answer, Box<Failure>> {
        self.calls += 1;
        let before = self.trace.then(|| self.unit().clone());
        let outcome = self.both.put(step);
        if let (Some(before), Ok((answer, lent))) = (before, &outcome) {
            let outcome = outcome_text(step, &before, *answer, lent, self.unit());
            println!("{} -> {outcome}", step_text(step));
        }
        outcome.map(|(answer, _)| answer).map_err(|difference| {
            Box::new(Failure {
                seed: self.seed,
                list: self.list,
                call: self.calls,
                shape: self.shape.clone(),
                step: step_text(step),
                difference,
            })
        })
    }
}

fn kind(random: &mut Random) -> Kind {
    let mut draw = random.below(KINDS.iter().map(|(_, weight)| weight).sum());
    for (kind, weight) in KINDS {
        if draw < weight {
            return kind;
        }
        draw -= weight;
    }
    Kind::Fresh
}

fn aged(random: &mut Random) -> Unit {
    let mut unit = generate::aged(random);
    if random.chance(50) {
        generate::open_areas(random, &mut unit);
    }
    if random.chance(25) {
        generate::fill_vacant(random, &mut unit.state);
    }
    unit
}

fn crowded(random: &mut Random) -> Unit {
    let mut unit = generate::crowded(random);
    if random.chance(65) {
        generate::open_areas(random, &mut unit);
    }
    unit
}

fn foreign(random: &mut Random) -> Unit {
    let mut unit = if random.chance(30) {
        let record = generate::record(random, 0);
        generate::unformatted(random, &record)
    } else {
        generate::unit(random)
    };
    let state = &mut unit.state;
    state.initialized = random.chance(40);
    if random.chance(60) {
        state.unit = random.pick(&[4, 5, 255, 256, 0x0103, 0xFFFF]);
    }
    unit
}

fn init(unit: &Unit) -> Step {
    let unit = unit.state.unit;
    Step::Call(Call {
        message: Message::Init { unit },
        lent: Vec::new(),
    })
}

/// The next step: mostly a call of the caller's, now and then with other words lent, or as words
/// whose number or operation may be unknown; at times Format, and Init soon after it.
fn next(random: &mut Random, caller: &mut Caller, unit: &Unit) -> Step {
    if unit.state.unit <= 3 && !unit.state.initialized && random.chance(25) {
        return init(unit);
    }
    if random.below(500) == 0 {
        return format_again(random, unit);
    }
    let mut call = caller.call(random, &unit.image, &unit.state);
    if random.chance(4) {
        let number = random.pick(&[0, 1, 2, 9, 15, 16, 17, 31, 32, 255, 256, 257, 512]);
        call.lent.resize(number, random.word());
    }
    if random.chance(8) {
        return Step::Raw(generate::raw(random, call));
    }
    Step::Call(call)
}

/// Format with the unit's own numbers, at times with one of them changed.
fn format_again(random: &mut Random, unit: &Unit) -> Step {
    let mut record = generate::record(random, unit.state.unit).to_vec();
    if unit.image.len() >= (KIT + 1) * SECTOR {
        let Kit { h, s, n, f, .. } = Kit::read(&unit.image);
        let words = [h, s, n, n.wrapping_sub(f), f, n].map(|word| word as u16);
        record[1..7].copy_from_slice(&words);
    }
    if random.chance(30) {
        let word = random.below(7);
        record[word] = record[word].wrapping_add(random.pick(&[1, 2, 0xFFFF]));
    }
    let bytes = random.pick(&[18, 18, 18, 18, 18, 18, 17]);
    Step::Format { bytes, record }
}

/// The unit in numbers.
fn shape(unit: &Unit) -> String {
    let Unit { image, state } = unit;
    let open = state.areas.iter().filter(|area| area.live).count();
    let words = image.len();
    let state = format!(
        "unit {}, initialized {}, {open} areas open, {words} words",
        state.unit, state.initialized
    );
    match soundness(image, &unit.state) {
        Ok(layers) => {
            let Kit {
                h, s, n, f, free, ..
            } = Kit::read(image);
            format!("H {h}, s {s}, N {n}, F {f}, L {layers}, {free} sectors free; {state}")
        }
        Err(fault) => format!("not sound ({fault:?}); {state}"),
    }
}
