//! The cases of crate `bad_input`, read from its input and held to its expected output.
//!
//! `crates/bad_input/src/main.rt` says how a line of the input reads.

use lists::state::{state_of, words_of, StateWords};
use lists::{Both, Second, Side, Step};
use reference::generate::{Call, Unit};
use reference::layout::{name_of, SECTOR};
use reference::{format, Message, Operation, State};

use crate::part::{Items, Run};
use crate::side::Guarded;

const INPUT: &str = include_str!("../../../crates/bad_input/stdin");
const EXPECTED: &str = include_str!("../../../crates/bad_input/stdout");

/// Sectors of the image; the last is past the unit's end.
const SECTORS: usize = 21;
/// The state's words before the descriptors, and those of a descriptor.
const BEFORE_AREAS: usize = 2;
const AREA: usize = 18;

/// Puts every case, or the one of a number, to both sides.
pub fn run(items: &mut Items) -> Run {
    let lines: Vec<&str> = INPUT.lines().collect();
    let expected: Vec<&str> = EXPECTED.lines().collect();
    if lines.len() != expected.len() {
        return Err("crates/bad_input: as many lines of output as of input".into());
    }
    for (line, expected) in lines.iter().zip(expected) {
        let (name, edits) = line.split_once(':').ok_or("a case without ':'")?;
        if !items.begin(name) {
            continue;
        }
        let case = Case::of(edits).ok_or("an edit that does not read")?;
        let mut proved = Guarded::new(items.trace());
        for answered in [
            case.put_to(&mut proved),
            case.put_to(&mut Second::default()),
        ] {
            let answered = format!("{name}: {answered}");
            if answered != expected {
                return Err(format!("expected {expected}\nanswered {answered}"));
            }
        }
        case.put_further(proved)?;
    }
    Ok(format!("{} cases of bad_input", items.count()))
}

/// Image, state and call of a case.
struct Case {
    image: Vec<u16>,
    state: StateWords,
    /// The unit that Init is asked for.
    unit: u16,
    /// The words of the image that are lent.
    words: usize,
}

impl Case {
    /// The sound unit that the cases differ from, with the edits of a line.
    fn of(edits: &str) -> Option<Case> {
        let mut case = Case {
            image: vec![0; SECTORS * SECTOR],
            state: words_of(&State::new(0)),
            unit: 0,
            words: 20 * SECTOR,
        };
        case.fresh(1, 10);
        case.store(10 * SECTOR + 32, &[0x5041, 0x5353, 0, 0, 0, 0, 1, 2, 12, 4]);
        case.store(10 * SECTOR + 48, &[0x4441, 0x5900, 0, 0, 0, 0, 0, 1, 16, 2]);
        case.store(12 * SECTOR, &[1, 4, 12]);
        case.store(16 * SECTOR, &[1, 2, 16]);
        case.store(9 * SECTOR, &[0x0800]);
        case.store(8 * SECTOR + 3, &[2]);
        for edit in edits.split_whitespace() {
            let (place, edit) = edit.split_once('.')?;
            let (word, value) = edit.split_once('=')?;
            case.edit(number(place)?.into(), number(word)?.into(), number(value)?)?;
        }
        Some(case)
    }

    fn store(&mut self, at: usize, words: &[u16]) {
        self.image[at..at + words.len()].copy_from_slice(words);
    }

    /// Formats the image anew with H, F, s = 2 and N = 20.
    fn fresh(&mut self, h: u16, f: u16) {
        self.image.fill(0);
        let record = [0, h, 2, 20, 20 - f, f, 20, 0, 0];
        let image = &mut self.image[..20 * SECTOR];
        let result = format(image, &mut State::new(0), 18, &record);
        assert_eq!(result, 0, "the cases format legal units");
    }

    fn edit(&mut self, place: usize, word: usize, value: u16) -> Option<()> {
        match (place, word) {
            (..100, _) => *self.image.get_mut(place * SECTOR + word)? = value,
            (100..=107, ..AREA) => {
                self.state[BEFORE_AREAS + (place - 100) * AREA + word] = value;
            }
            (200, 0 | 1) => self.state[word] = value,
            (200, 2) => self.unit = value,
            (200, 3) => self.words = value.into(),
            (200, 4) => self.fresh(value, 10),
            (200, 5) => self.image.fill(value),
            (200, 6) => {
                let (first, others) = self.state[BEFORE_AREAS..].split_at_mut(AREA);
                for area in others.chunks_mut(AREA) {
                    area.copy_from_slice(first);
                }
            }
            (200, 7) => self.fresh(1, value),
            _ => return None,
        }
        Some(())
    }

    fn unit(&self) -> Unit {
        Unit {
            image: self.image[..self.words].to_vec(),
            state: state_of(&self.state),
        }
    }

    /// What comes of Init, in the words of `bad_input`.
    fn put_to(&self, side: &mut impl Side) -> String {
        side.set(&self.unit());
        let before = side.unit();
        let not = |yes| if yes { "" } else { "not " };
        let kept = |same| if same { "kept" } else { "CHANGED" };
        let sound = not(side.is_sound());
        let (answer, _) = side.put(&call(Message::Init { unit: self.unit }));
        let after = side.unit();
        let image = kept(after.image == before.image);
        let rest = |unit: &Unit| (unit.state.unit, unit.state.areas);
        let areas = kept(rest(&after) == rest(&before));
        let initialized = not(after.state.initialized);
        let result = answer.result;
        format!(
            "{result:04X}, {sound}sound, image {image}, areas {areas}, {initialized}initialized"
        )
    }

    /// Puts calls that ask for soundness with area processes open, too, and compares.
    fn put_further(&self, proved: Guarded) -> Result<(), String> {
        let mut both = Both::new(proved);
        for message in further(self.state[0]) {
            let mut unit = self.unit();
            unit.state.initialized = true;
            both.set(&unit);
            let done = both.put(&call(message));
            done.map_err(|difference| format!("{message:?}: {difference}"))?;
        }
        Ok(())
    }
}

/// Messages that ask whether the image is sound, of which most write nothing.
fn further(unit: u16) -> [Message; 6] {
    let name = name_of("PASS", unit as u8);
    let operation = Operation::Sense;
    let sender = 7;
    [
        Message::LookUp { name },
        Message::CreateArea { name },
        Message::AreaMessage {
            name,
            sender,
            operation,
        },
        Message::UnitDescription { unit, bytes: 32 },
        Message::Listing { unit },
        Message::RemoveArea { name },
    ]
}

fn call(message: Message) -> Step {
    Step::Call(Call {
        message,
        lent: vec![0; SECTOR],
    })
}

/// A number in base 10 or, with an h behind it, in base 16.
fn number(text: &str) -> Option<u16> {
    match text.strip_suffix('h') {
        Some(digits) => u16::from_str_radix(digits, 16).ok(),
        None => text.parse().ok(),
    }
}
