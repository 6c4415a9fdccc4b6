//! Calls per second, each with its soundness check: the proved library and the second
//! implementation on copies of the same unit. Then the time of a Create by where the stretch lies that
//! the file gets.

use std::hint::black_box;
use std::ops::Range;

use reference::generate::{self, shaped, Shape};
use reference::layout::name_of;
use reference::random::Random;
use ruzkemp::{Name, NameWords, Role, Unit};

use crate::compare::Timed;
use crate::entries::{gathered, name_in, Words};
use crate::layouts::{with_free, with_stretch_at, Layout, EMPTY, LAYOUTS, PLACES};
use crate::shapes::{FEW, MANY, MIDDLE};
use crate::timing::{is_file, needed, read, verdict, Fastest};

/// How often each call is timed on each unit; the fastest time counts.
const ROUNDS: usize = 60;
/// The most that the ratio to the second implementation may be.
const TARGET: f64 = 1.0;
/// How many files are looked up in turn.
const LOOKED_UP: usize = 16;
/// The sender of transputs.
const SENDER: u16 = 7;
/// The word of an input at the length of an extendable file, as the generated files are. A library
/// of before R-4 has it too, and since then a fixed file takes the same steps to its own word.
const AT_END: u16 = 0x0810;
/// The word for more than 127 stretches.
const MANY_STRETCHES: u16 = 0x1008;

/// New files: how many slices they have.
const NEW: [(&str, usize); 3] = [
    ("Create and Remove, 1 slice", 1),
    ("Create and Remove, 60 slices", 60),
    ("Create and Remove, 1,000 slices", 1_000),
];
/// The last of these where no more than 127 stretches of one slice would do.
const REFUSED: &str = "Create, 1,000 slices, refused with 1008h";

const UNITS: [(&str, Shape); 3] = [
    ("small: 100 files", FEW),
    ("middle: 1,000 files", MIDDLE),
    ("full: 3,900 files", MANY),
];

/// A message as each of the two has it.
type Both = (ruzkemp::Message, reference::Message);

/// A message written once for both.
macro_rules! both {
    ($($message:tt)*) => {(
        {
            #[allow(unused_imports)]
            use ruzkemp::{Message, Operation};
            Message::$($message)*
        },
        {
            #[allow(unused_imports)]
            use reference::{Message, Operation};
            Message::$($message)*
        },
    )};
}

/// A kind of call: messages sent in turn, how many calls that makes, their result word and the words
/// lent.
struct Calls {
    title: &'static str,
    messages: Vec<Both>,
    calls: usize,
    result: u16,
    lent: Vec<u16>,
}

fn look_up(entries: &[Words]) -> Calls {
    let step = (entries.len() / LOOKED_UP).max(1);
    let names = entries.iter().step_by(step).take(LOOKED_UP);
    let messages: Vec<Both> = names
        .map(name_in)
        .map(|name| both!(LookUp { name }))
        .collect();
    Calls {
        title: "Look-up",
        calls: messages.len(),
        messages,
        result: 0,
        lent: vec![0; 16],
    }
}

fn create_and_remove(title: &'static str, name: NameWords, size: u16) -> Calls {
    Calls {
        title,
        messages: vec![create(name, size), both!(Remove { name })],
        calls: 1,
        result: 0,
        lent: vec![],
    }
}

/// Create that is refused.
fn refused(title: &'static str, name: NameWords, size: u16, result: u16) -> Calls {
    Calls {
        title,
        messages: vec![create(name, size)],
        calls: 1,
        result,
        lent: vec![],
    }
}

fn create(name: NameWords, size: u16) -> Both {
    both!(Create {
        name,
        size,
        attributes: 1
    })
}

/// Transput of a block of a file, with its result word.
fn transput(title: &'static str, name: NameWords, number: u16, block: u16, result: u16) -> Calls {
    let message = both!(AreaMessage {
        name,
        sender: SENDER,
        operation: Operation::Transput {
            operation: number,
            bytes: 512,
            block
        }
    });
    Calls {
        title,
        messages: vec![message],
        calls: 1,
        result,
        lent: vec![1; 256],
    }
}

fn listing(entries: &[Words]) -> Calls {
    Calls {
        title: "Listing",
        messages: vec![both!(Listing { unit: 0 })],
        calls: 1,
        result: 0,
        lent: vec![0; 16 * entries.len()],
    }
}

/// The unit in both implementations.
#[derive(Clone)]
struct Pair {
    proved: Unit<Vec<u16>>,
    second: generate::Unit,
}

impl Pair {
    fn new(second: generate::Unit) -> Pair {
        let mut proved = Unit::new(second.image.clone(), second.state.unit);
        proved.init().expect("a sound unit");
        Pair { proved, second }
    }

    /// Opens a file in both.
    fn open(&mut self, name: NameWords) {
        let count = Role::Sharing.count();
        let reserve = both!(AreaMessage {
            name,
            sender: SENDER,
            operation: Operation::Reserve(count)
        });
        for message in [both!(CreateArea { name }), reserve] {
            let same = self.send_both(&message, 0, &mut []);
            assert!(same, "{:?} differs", message.0);
        }
    }

    fn send_proved(&mut self, message: &Both, lent: &mut [u16]) -> u16 {
        self.proved.perform(&message.0, lent).result
    }

    fn send_second(&mut self, message: &Both, lent: &mut [u16]) -> u16 {
        let (image, state) = (&mut self.second.image, &mut self.second.state);
        reference::perform(image, state, &message.1, lent).result
    }

    /// Sends a message to both, which have to answer this result word; says whether they agree on
    /// the image and the lent words too.
    fn send_both(&mut self, message: &Both, result: u16, lent: &mut [u16]) -> bool {
        let mut copy = lent.to_vec();
        let results = (
            self.send_proved(message, lent),
            self.send_second(message, &mut copy),
        );
        assert_eq!(results, (result, result), "{:?}", message.0);
        lent == copy && self.proved.image() == self.second.image
    }
}

/// A name that is not entered and for which SYS need not grow, in capitals as the others are.
fn new_name(random: &mut Random, unit: &Unit<Vec<u16>>) -> NameWords {
    loop {
        let name = Name::from_words(generate::name_in_capitals(random));
        let mut copy = unit.clone();
        let before = copy.look_up(Name::SYS);
        let created = copy.create(name, 1, ruzkemp::Attributes::EXTENDABLE);
        if created.is_ok() && copy.look_up(Name::SYS) == before {
            return name.words();
        }
    }
}

/// A row of the table: calls on a unit, and the fastest times of reading, of the second
/// implementation and of the proved library.
pub struct Row {
    unit: &'static str,
    calls: Calls,
    pair: Pair,
    /// Whether both have left and handed back the same words. A library of before R-1 lists in
    /// another order, and one of before R-6 takes other slices for new files: both are timed all the
    /// same where two libraries are compared.
    same_words: bool,
    parts: Vec<Range<usize>>,
    reading: Fastest,
    second: Fastest,
    proved: Fastest,
}

impl Row {
    /// Calls on a unit, after both have answered them; `parts` is what every check reads.
    fn new(unit: &'static str, mut calls: Calls, mut pair: Pair, parts: Vec<Range<usize>>) -> Row {
        let mut same_words = true;
        for message in &calls.messages {
            same_words &= pair.send_both(message, calls.result, &mut calls.lent);
        }
        Row {
            unit,
            calls,
            pair,
            same_words,
            parts,
            reading: Fastest::NONE,
            second: Fastest::NONE,
            proved: Fastest::NONE,
        }
    }

    fn measure(&mut self) {
        let (pair, calls) = (&mut self.pair, &mut self.calls);
        self.reading.measure(|| {
            let image = black_box(pair.proved.image());
            black_box(read(image, black_box(&self.parts)));
        });
        self.second.measure(|| {
            for message in &calls.messages {
                black_box(pair.send_second(black_box(message), &mut calls.lent));
            }
        });
        self.measure_proved();
    }

    fn measure_proved(&mut self) -> f64 {
        let (pair, calls) = (&mut self.pair, &mut self.calls);
        self.proved.measure(|| {
            for message in &calls.messages {
                black_box(pair.send_proved(black_box(message), &mut calls.lent));
            }
        })
    }

    fn print(&self) {
        let calls = self.calls.calls as f64;
        let per_second = |fastest: Fastest| calls / fastest.0 * 1e6;
        let (second, proved) = (per_second(self.second), per_second(self.proved));
        let ratio = self.proved.0 / self.second.0;
        let messages = self.calls.messages.len() as f64;
        let to_reading = self.proved.0 / (messages * self.reading.0);
        let verdict = verdict(ratio <= TARGET);
        let (title, unit) = (self.calls.title, self.unit);
        println!("| {title} | {unit} | {second:.0} | {proved:.0} | {ratio:.3} | {to_reading:.1} | at most {TARGET:.1}, {verdict} |");
    }
}

impl Timed for Row {
    fn title(&self) -> String {
        format!("{}, {}", self.calls.title, self.unit)
    }

    fn time(&mut self) -> f64 {
        self.measure_proved() / self.calls.calls as f64
    }
}

/// The rows of a unit: every kind of call on a copy of it with one file open, after both have
/// answered it. Files are taken by their places, so that two libraries get the same calls whatever
/// their listings' order.
fn rows_of(random: &mut Random, unit: &'static str, shape: &Shape) -> Vec<Row> {
    let closed = Pair::new(shaped(random, shape));
    let parts = needed(closed.proved.image(), shape);
    let entries = gathered(closed.proved.image());
    let with_block = |entry: &&Words| is_file(*entry) && entry[7] > 0;
    let file = entries.iter().find(with_block);
    let file = name_in(file.expect("a file with a block"));
    // The last file of SYS: its name is sought up to the last layer.
    let last = entries.iter().rfind(with_block);
    let last = last.expect("a file with a block");
    let (last, length) = (name_in(last), last[7]);
    let new = new_name(random, &closed.proved);
    let kinds = [
        (file, look_up(&entries)),
        (file, create_and_remove("Create and Remove", new, 1)),
        (file, transput("Input", file, 5, 0, 0)),
        (
            last,
            transput("Input at the length", last, 5, length, AT_END),
        ),
        (file, transput("Output", file, 7, 0, 0)),
        (file, listing(&entries)),
    ];
    let row = |(opened, calls): (NameWords, Calls)| {
        let mut pair = closed.clone();
        pair.open(opened);
        Row::new(unit, calls, pair, parts.clone())
    };
    kinds.map(row).into_iter().collect()
}

/// The rows of new files on a unit whose free slices lie in given stretches, nothing open. Of 2,000
/// slices that lie alone 1,000 are refused.
fn rows_of_new(layout: &'static Layout) -> Vec<Row> {
    let pair = Pair::new(with_free(layout.is_free));
    let parts = needed(pair.proved.image(), &EMPTY);
    let name = name_of("NEW", 0);
    let calls = NEW.map(|(title, slices)| {
        let size = (EMPTY.s * slices - 1) as u16;
        match slices {
            1_000 if layout.alone => refused(REFUSED, name, size, MANY_STRETCHES),
            _ => create_and_remove(title, name, size),
        }
    });
    let row = |calls: Calls| Row::new(layout.title, calls, pair.clone(), parts.clone());
    calls.map(row).into_iter().collect()
}

/// The rows of the table, not measured yet.
pub fn rows() -> Vec<Row> {
    let random = &mut Random::new(5);
    let mut rows: Vec<Row> = UNITS
        .iter()
        .flat_map(|(unit, shape)| rows_of(random, unit, shape))
        .collect();
    rows.sort_by_key(|row| row.calls.title);
    rows.extend(LAYOUTS.iter().flat_map(rows_of_new));
    rows
}

/// Measures and prints the table.
pub fn run() {
    let mut rows = rows();
    for row in &rows {
        assert!(row.same_words, "{}: the words differ", row.title());
    }
    for _ in 0..ROUNDS {
        rows.iter_mut().for_each(Row::measure);
    }
    println!("| call | unit | second implementation, calls per second | proved, calls per second | time proved / second | time proved / reading | target |");
    println!("|---|---|--:|--:|--:|--:|---|");
    rows.iter().for_each(Row::print);
}

/// Measures and prints how the time of a Create grows with the place of the stretch that the file gets:
/// the part of the map before it is looked through once.
pub fn run_places() {
    let (title, slices) = NEW[1];
    let size = (EMPTY.s * slices - 1) as u16;
    let mut rows = PLACES.map(|first| {
        let pair = Pair::new(with_stretch_at(first));
        let parts = needed(pair.proved.image(), &EMPTY);
        let calls = create_and_remove(title, name_of("NEW", 0), size);
        Row::new(title, calls, pair, parts)
    });
    for row in &rows {
        assert!(row.same_words, "{}: the words differ", row.title());
    }
    for _ in 0..ROUNDS {
        rows.iter_mut().for_each(Row::measure);
    }
    println!("| {title}: their stretch begins at slice | second implementation, microseconds | proved, microseconds |");
    println!("|--:|--:|--:|");
    for (first, row) in PLACES.iter().zip(&rows) {
        let (second, proved) = (row.second.0, row.proved.0);
        println!("| {first} | {second:.2} | {proved:.2} |");
    }
    let steps = |number: fn(&Row) -> f64| {
        let [quarter, half, end] = [&rows[0], &rows[1], &rows[2]].map(number);
        (half - quarter, end - half)
    };
    let ((near, far), distance) = (steps(|row| row.proved.0), (PLACES[2] - PLACES[1]) as f64);
    let distance = distance / (PLACES[1] - PLACES[0]) as f64;
    println!();
    println!("From the first to the second {near:.2} microseconds, from the second to the third, {distance:.2} times as far, {far:.2}.");
}
