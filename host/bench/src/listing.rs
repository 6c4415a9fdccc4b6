//! The listing: the proved call, and Rust that gathers the entries and sorts them.

use std::hint::black_box;

use reference::generate::{shaped, Shape};
use reference::random::Random;
use ruzkemp::{Message, Unit};

use crate::compare::Timed;
use crate::entries::{by_number, by_words, gather_and_sort, gathered, Words};
use crate::shapes::{FEW, LARGEST, MANY, MIDDLE};
use crate::timing::{verdict, Fastest};

/// How often each function is timed on each unit; the fastest time counts.
const ROUNDS: usize = 60;
/// The most that the time of the call less its soundness check may be of that of Rust, which has no
/// check either. The smallest unit has no target.
const TARGET: f64 = 1.5;

/// The units, whose names are random and stand in no order.
const UNITS: [(&str, Shape); 4] = [
    (SMALLEST, FEW),
    ("1,000 files", MIDDLE),
    ("3,900 files", MANY),
    ("100,000 entries, files without slices", LARGEST),
];
const SMALLEST: &str = "100 files";
/// The rows between which growth is told.
const FROM: usize = 2;
const TO: usize = 3;

/// A row of the table: its unit, and the fastest times of the soundness check, of the call and of
/// Rust that compares names in the one way and in the other.
pub struct Row {
    title: &'static str,
    unit: Unit<Vec<u16>>,
    lent: Vec<u16>,
    entries: Vec<Words>,
    check: Fastest,
    call: Fastest,
    by_words: Fastest,
    by_number: Fastest,
}

impl Row {
    fn new(random: &mut Random, (title, shape): (&'static str, &Shape)) -> Row {
        let made = shaped(random, shape);
        let mut unit = Unit::new(made.image, made.state.unit);
        unit.init().expect("a sound unit");
        let entries = gathered(unit.image());
        assert_eq!(entries.len(), shape.files + 2, "{title}");
        let mut row = Row {
            title,
            lent: vec![0; entries.as_flattened().len()],
            unit,
            entries,
            check: Fastest::NONE,
            call: Fastest::NONE,
            by_words: Fastest::NONE,
            by_number: Fastest::NONE,
        };
        assert_eq!(row.list(), 0, "{title}: the listing is refused");
        row
    }

    /// The proved call; its result word.
    fn list(&mut self) -> u16 {
        let message = Message::Listing { unit: 0 };
        self.unit
            .perform(black_box(&message), &mut self.lent)
            .result
    }

    /// All have to write the same words.
    fn compare(&mut self) {
        for compare in [by_words, by_number] {
            gather_and_sort(self.unit.image(), &mut self.entries, compare);
            let same = self.list() == 0 && self.lent == self.entries.as_flattened();
            assert!(same, "{}: the listings differ", self.title);
        }
    }

    fn measure(&mut self) {
        self.check.measure(|| {
            black_box(black_box(&self.unit).is_sound());
        });
        let image = self.unit.image();
        self.by_words.measure(|| {
            gather_and_sort(black_box(image), &mut self.entries, by_words);
            black_box(&self.entries);
        });
        self.by_number.measure(|| {
            gather_and_sort(black_box(image), &mut self.entries, by_number);
            black_box(&self.entries);
        });
        self.measure_call();
    }

    fn measure_call(&mut self) -> f64 {
        let mut call = self.call;
        let time = call.measure(|| {
            black_box(self.list());
        });
        self.call = call;
        time
    }

    /// The time of the call without that of its soundness check.
    fn less_check(&self) -> f64 {
        self.call.0 - self.check.0
    }

    /// The time of Rust: the faster of the two.
    fn rust(&self) -> f64 {
        self.by_words.0.min(self.by_number.0)
    }

    fn print(&self) {
        let (title, less_check, rust) = (self.title, self.less_check(), self.rust());
        let (check, call) = (self.check.0, self.call.0);
        let (by_words, by_number) = (self.by_words.0, self.by_number.0);
        let [less, whole, both] = [less_check / rust, call / rust, call / (rust + check)];
        let target = match title {
            SMALLEST => String::new(),
            _ => format!("at most {TARGET}, {}", verdict(less <= TARGET)),
        };
        println!("| {title} | {check:.1} | {call:.1} | {less_check:.1} | {by_words:.1} | {by_number:.1} | {less:.2} | {target} | {whole:.2} | {both:.2} |");
    }

    /// n log n of the number of entries.
    fn steps(&self) -> f64 {
        let entries = self.entries.len() as f64;
        entries * entries.log2()
    }
}

impl Timed for Row {
    fn title(&self) -> String {
        format!("Listing, {}", self.title)
    }

    fn time(&mut self) -> f64 {
        self.measure_call()
    }
}

/// The row of the unit that the table of calls does not have, not measured yet.
pub fn largest() -> Row {
    let (title, shape) = &UNITS[TO];
    Row::new(&mut Random::new(6), (title, shape))
}

/// How many times as long the larger of two units takes.
fn print_growth(from: &Row, to: &Row) {
    let growth = |number: fn(&Row) -> f64| number(to) / number(from);
    let steps = growth(Row::steps);
    let less_check = growth(Row::less_check);
    let verdict = verdict(less_check <= steps);
    println!(
        "From {} to {} entries n log n grows {steps:.1} times, the call less its check {less_check:.1} \
         times; target no steeper than n log n, {verdict}. The check grows {:.1} times, the whole call \
         {:.1} times, Rust {:.1} times.",
        from.entries.len(),
        to.entries.len(),
        growth(|row| row.check.0),
        growth(|row| row.call.0),
        growth(Row::rust),
    );
}

/// Measures and prints the table.
pub fn run() {
    let random = &mut Random::new(6);
    let units = UNITS.iter().map(|(title, shape)| (*title, shape));
    let mut rows: Vec<Row> = units.map(|unit| Row::new(random, unit)).collect();
    rows.iter_mut().for_each(Row::compare);
    for _ in 0..ROUNDS {
        rows.iter_mut().for_each(Row::measure);
    }
    println!("| the listing, microseconds | check alone | whole call | call less check | Rust gathers and sorts, names by words | the same, names as numbers | call less check / Rust | target | whole call / Rust | whole call / (Rust + check) |");
    println!("|---|--:|--:|--:|--:|--:|--:|---|--:|--:|");
    rows.iter().for_each(Row::print);
    println!();
    println!("Rust is the faster of the two.");
    print_growth(&rows[FROM], &rows[TO]);
}
