//! Microseconds per soundness check: the proved check, a straightforward one in Rust on the
//! same image, and the time to read SYS's words and the used index words once.

use std::hint::black_box;
use std::ops::Range;

use reference::generate::{shaped, Shape, Unit};
use reference::layout::{bit_word, Kit, ENTRY, KIT, MAP_SECTOR, PLACES, SECTOR, SYS_INDEX};
use reference::random::Random;
use reference::{is_sound, perform, Message};
use ruzkemp::{Name, State};

use crate::compare::Timed;
use crate::entries::{gathered, name_in};
use crate::shapes::{FEW, MANY, MIDDLE};
use crate::timing::{is_file, needed, read, verdict, Fastest};

/// How often each function is timed on each unit; the fastest time counts.
const ROUNDS: usize = 400;
/// SYS in 100 stretches may take so many times as long as SYS in one, in these two rows.
const STRETCHED: f64 = 1.2;
const STRETCHES_1: usize = 3;
const STRETCHES_100: usize = 5;

/// What is measured: a unit with so many area processes open, the most that the ratio to the
/// Rust version may be, and the most that the ratio to reading may be, where there is a target.
struct Measured {
    title: &'static str,
    shape: Shape,
    opened: usize,
    rust: f64,
    reading: Option<f64>,
}

/// A unit with few files, measured with no area process open.
const fn few(title: &'static str, shape: Shape) -> Measured {
    Measured {
        title,
        shape,
        opened: 0,
        rust: 1.0,
        reading: None,
    }
}

/// The same of a unit with 3,900 files.
const fn many(title: &'static str, shape: Shape) -> Measured {
    Measured {
        rust: 0.25,
        reading: Some(3.5),
        ..few(title, shape)
    }
}

const ROWS: [Measured; 8] = [
    few("100 files of about 30 slices", FEW),
    few(
        "the same, files in stretches of 3 slices",
        Shape { stretch: 3, ..FEW },
    ),
    Measured {
        rust: 0.25,
        ..few("1,000 files, H = 64", MIDDLE)
    },
    many("3,900 files, M = 4,096, H = 64", MANY),
    many(
        "the same, SYS in 10 stretches",
        Shape {
            sys_stretches: 10,
            ..MANY
        },
    ),
    many(
        "the same, SYS in 100 stretches",
        Shape {
            sys_stretches: 100,
            ..MANY
        },
    ),
    many(
        "one chain of 3,900 names, H = 1",
        Shape {
            h: 1,
            layers: 244,
            ..MANY
        },
    ),
    Measured {
        opened: 8,
        ..many("3,900 files, eight area processes open", MANY)
    },
];

/// Copies of an image with one rule broken in each.
fn damaged(image: &[u16]) -> Vec<(&'static str, Vec<u16>)> {
    let kit = Kit::read(image);
    let changed = |place: usize, word: u16| {
        let mut copy = image.to_vec();
        copy[place] = word;
        copy
    };
    // Two files in the first sector of SYS.
    let sys = image[SYS_INDEX * SECTOR + 2] as usize * SECTOR;
    let places = (0..PLACES).map(|place| sys + place * ENTRY);
    let files: Vec<usize> = places.filter(|&from| is_file(&image[from..])).collect();
    let (one, other) = (files[0], files[1]);
    let index = image[one + 8] as usize * SECTOR;
    let mut twice = image.to_vec();
    twice.copy_within(one..one + 3, other);
    let mut freed = changed(KIT * SECTOR + 3, (kit.free + kit.s) as u16);
    freed[MAP_SECTOR * SECTOR] |= bit_word(0);
    vec![
        ("N one more", changed(KIT * SECTOR + 2, kit.n as u16 + 1)),
        ("a name entered twice", twice),
        ("a length past its slices", changed(one + 7, 32_767)),
        ("a pair of one sector", changed(index + 1, 1)),
        ("slice 1 marked free", freed),
    ]
}

/// Says where one of the checks does not accept the unit or does not refuse a damaged copy.
fn disagreement(unit: &Unit, state: &State) -> Option<String> {
    let both = |image: &[u16]| {
        let ours = ruzkemp::is_sound(image, state);
        (ours, is_sound(image, &unit.state))
    };
    if both(&unit.image) != (true, true) {
        return Some("a sound unit".into());
    }
    let mut copies = damaged(&unit.image).into_iter();
    let accepted = copies.find(|(_, image)| both(image) != (false, false));
    accepted.map(|(what, _)| format!("a unit with {what}"))
}

/// Opens area processes in both implementations, and answers the proved one's state.
fn open(unit: &mut Unit, number: usize) -> State {
    let mut proved = ruzkemp::Unit::new(unit.image.clone(), unit.state.unit);
    proved.init().expect("a sound unit");
    let entries = gathered(&unit.image);
    let files = entries.iter().filter(|entry| is_file(*entry));
    for name in files.take(number).map(name_in) {
        let opened = proved.create_area(Name::from_words(name));
        opened.expect("a vacant descriptor");
        let message = Message::CreateArea { name };
        let answer = perform(&mut unit.image, &mut unit.state, &message, &mut []);
        assert_eq!(answer.result, 0, "{name:04X?} is not opened");
    }
    proved.state().clone()
}

/// A row of the table: its unit, and the fastest times of reading, of the check in Rust and of
/// the proved one.
pub struct Row {
    measured: &'static Measured,
    unit: Unit,
    state: State,
    parts: Vec<Range<usize>>,
    reading: Fastest,
    rust: Fastest,
    proved: Fastest,
}

impl Row {
    fn new(random: &mut Random, measured: &'static Measured) -> Row {
        let mut unit = shaped(random, &measured.shape);
        let state = open(&mut unit, measured.opened);
        if let Some(unit) = disagreement(&unit, &state) {
            panic!("{}: the checks are wrong on {unit}", measured.title);
        }
        Row {
            measured,
            state,
            parts: needed(&unit.image, &measured.shape),
            unit,
            reading: Fastest::NONE,
            rust: Fastest::NONE,
            proved: Fastest::NONE,
        }
    }

    fn measure(&mut self) {
        let (image, state) = (&self.unit.image, &self.unit.state);
        self.reading.measure(|| {
            black_box(read(black_box(image), black_box(&self.parts)));
        });
        self.rust.measure(|| {
            black_box(is_sound(black_box(image), black_box(state)));
        });
        self.measure_proved();
    }

    fn measure_proved(&mut self) -> f64 {
        let image = &self.unit.image;
        self.proved.measure(|| {
            black_box(ruzkemp::is_sound(black_box(image), black_box(&self.state)));
        })
    }

    fn print(&self) {
        let title = self.measured.title;
        let (reading, rust, proved) = (self.reading.0, self.rust.0, self.proved.0);
        let (beside, over) = (proved / rust, proved / reading);
        let rust_target = target(beside, Some(self.measured.rust));
        let reading_target = target(over, self.measured.reading);
        println!("| {title} | {reading:.2} | {rust:.2} | {proved:.2} | {beside:.2} | {rust_target} | {over:.1} | {reading_target} |");
    }
}

impl Timed for Row {
    fn title(&self) -> String {
        format!("Check, {}", self.measured.title)
    }

    fn time(&mut self) -> f64 {
        self.measure_proved()
    }
}

/// A target, and whether it is met.
fn target(ratio: f64, most: Option<f64>) -> String {
    most.map_or(String::new(), |most| {
        format!("at most {most}, {}", verdict(ratio <= most))
    })
}

/// The rows of the table, not measured yet.
pub fn rows() -> Vec<Row> {
    let random = &mut Random::new(4);
    ROWS.iter().map(|row| Row::new(random, row)).collect()
}

/// Measures and prints the table.
pub fn run() {
    let mut rows = rows();
    for _ in 0..ROUNDS {
        rows.iter_mut().for_each(Row::measure);
    }
    println!("| microseconds per soundness check | reading | straightforward Rust | proved | proved / Rust | target | proved / reading | target |");
    println!("|---|--:|--:|--:|--:|---|--:|---|");
    rows.iter().for_each(Row::print);
    let ratio = rows[STRETCHES_100].proved.0 / rows[STRETCHES_1].proved.0;
    let verdict = verdict(ratio <= STRETCHED);
    println!();
    println!("SYS in 100 stretches against SYS in one: {ratio:.2}; target at most {STRETCHED}, {verdict}.");
}
