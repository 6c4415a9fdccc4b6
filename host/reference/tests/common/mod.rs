//! What the test programs share: checked calls and the table of what came up.
#![allow(dead_code)]

use std::collections::{BTreeMap, BTreeSet};

use reference::generate::{Call, Caller, Unit};
use reference::layout::{name_of, stretches};
use reference::pairs::{call_name, Counts};
use reference::plain::{image_after, state_after, File, Plain};
use reference::random::Random;
use reference::text::differ_in_case;
use reference::{explain, soundness, Answer, Message, Operation, Question, State};

/// Counts of what came up: words, questions, and what accepted calls have done.
#[derive(Default)]
pub struct Tally {
    pub counts: Counts,
    pub events: BTreeMap<&'static str, u64>,
}

impl Tally {
    pub fn print(&self) {
        print!("{} calls\n{}", self.counts.calls, self.counts);
        for ((call, question), count) in &self.counts.questions {
            println!("{count:8} {call}: {question:?}");
        }
        for (event, count) in &self.events {
            println!("{count:8} {event}");
        }
    }

    /// Notes what an accepted call has done to the plain unit.
    fn note(&mut self, message: &Message, before: &Plain, after: &Plain) {
        let mut events = case_events(before, after);
        events.extend(entry_only_event(message, before, after));
        events.extend(stretch_event(before, after));
        let grows = after.layers > before.layers;
        let takes = after.sys.len() > before.sys.len();
        if grows {
            events.push(if takes {
                "SYS grows and takes slices"
            } else {
                "SYS grows in its slack"
            });
        }
        let gone = before
            .files
            .iter()
            .find(|(n, _)| !after.files.contains_key(*n));
        let come = after
            .files
            .iter()
            .find(|(n, _)| !before.files.contains_key(*n));
        let changed = match (gone, come) {
            (Some(old), Some(new)) => Some((old, new)),
            _ => before
                .files
                .iter()
                .zip(&after.files)
                .find(|(old, new)| old.0 == new.0 && old.1 != new.1)
                .filter(|_| before.files.len() == after.files.len()),
        };
        match (message, changed) {
            (Message::Change { .. }, Some(((old_name, old), (new_name, new)))) => {
                let key = |name: &str| reference::layout::key(name_of(name, 0), before.h);
                if old_name != new_name {
                    events.push(if key(old_name) == key(new_name) {
                        "Change: renamed, same key"
                    } else {
                        "Change: renamed, other key"
                    });
                    if grows {
                        events.push("Change: renamed, SYS grows");
                    }
                    if takes && new.slices.len() < old.slices.len() {
                        events.push("Change: SYS takes, file gives back");
                    }
                    if takes && new.slices.len() > old.slices.len() {
                        events.push("Change: SYS takes, file takes");
                    }
                }
                let length = new.booked_length.cmp(&old.booked_length);
                let slices = new.slices.len().cmp(&old.slices.len());
                use std::cmp::Ordering::*;
                events.push(match (length, slices) {
                    (Greater, Greater) => "Change: longer, takes",
                    (Greater, Equal) => "Change: longer, no slice",
                    (Greater, Less) => "Change: longer, gives back",
                    (Less, Less) if new.slices.is_empty() => "Change: to nothing",
                    (Less, Less) => "Change: shorter, gives back",
                    (Less, Equal) => "Change: shorter, no slice",
                    (Equal, Equal) => "Change: same length",
                    _ => panic!("a length changes as its slices do"),
                });
                if old.attributes & 0x10 != 0 {
                    events.push("Change: of a permanent file");
                }
            }
            (Message::AreaMessage { .. }, Some(((_, old), (_, new)))) => {
                events.push(if new.sectors.len() == old.sectors.len() {
                    "Output: replaces"
                } else if new.slices.len() == old.slices.len() {
                    "Output: appends, no slice"
                } else if old.slices.is_empty() {
                    "Output: appends, first slice"
                } else if new.slices.last().unwrap() - 1 == *old.slices.last().unwrap() {
                    "Output: appends, next slice"
                } else {
                    "Output: appends, lowest slice"
                });
            }
            (Message::RemoveArea { .. }, Some(_)) => events.push("Remove area: books"),
            (Message::RemoveArea { .. }, None) => {
                events.push(if before.areas.len() > after.areas.len() {
                    "Remove area: nothing new"
                } else {
                    "Remove area: dummy"
                });
            }
            (Message::Create { .. } | Message::Set { .. }, _) => {
                let (_, new) = come.expect("a name comes");
                events.push(match new.slices.len() {
                    0 => "Create: no slices",
                    slices if stretches(&new.slices).len() == 1 && slices > 1 => {
                        "Create: one stretch"
                    }
                    1 => "Create: one slice",
                    _ => "Create: several stretches",
                });
            }
            _ => {}
        }
        for event in events {
            *self.events.entry(event).or_default() += 1;
        }
    }
}

/// What a call that was accepted has done with names that differ in case only.
fn case_events(before: &Plain, after: &Plain) -> Vec<&'static str> {
    let differ = |one: &str, other: &str| differ_in_case(name_of(one, 0), name_of(other, 0));
    let beside = |new: &String, old: &[String]| old.iter().any(|other| differ(new, other));
    let (old, new) = (before.names(), after.names());
    let gone: Vec<&String> = old.iter().filter(|name| !new.contains(name)).collect();
    let come: Vec<&String> = new.iter().filter(|name| !old.contains(name)).collect();
    let open: Vec<String> = before.areas.keys().cloned().collect();
    let mut opened = after.areas.keys().filter(|name| !open.contains(name));
    let renamed = gone.first().zip(come.first());
    let mut events = Vec::new();
    if renamed.is_some_and(|(old, new)| differ(old, new)) {
        events.push("Change: renamed, in case only");
    }
    if gone.is_empty() && come.iter().any(|name| beside(name, &old)) {
        events.push("Create: beside a name in another case");
    }
    if opened.any(|name| beside(name, &open)) {
        events.push("Create area: beside one in another case");
    }
    events
}

/// What a call that was accepted has done with an entry-only file. None makes one (02, R-9).
fn entry_only_event(message: &Message, before: &Plain, after: &Plain) -> Option<&'static str> {
    let entries_only = |plain: &Plain| {
        let is_one = |file: &&File| file.attributes & 4 != 0;
        plain.files.values().filter(is_one).count()
    };
    let (old, new) = (entries_only(before), entries_only(after));
    assert!(new <= old, "{message:?} made an entry-only file");
    let held = |plain: &Plain| -> usize {
        let files = plain.files.values();
        files.map(|file| file.slices.len()).sum()
    };
    let takes = held(after) > held(before);
    match message {
        Message::Remove { .. } if new < old => Some("Remove: entry only"),
        Message::Change { .. } if new < old && takes => Some("Change: entry only takes slices"),
        Message::Change { .. } if new < old => Some("Change: entry only made ordinary"),
        _ => None,
    }
}

/// Where a file that had no slices has several now: in one stretch, behind free slices or not, or in
/// several (02, R-6).
fn stretch_event(before: &Plain, after: &Plain) -> Option<&'static str> {
    let files = |plain: &Plain| -> BTreeSet<usize> {
        let files = plain.files.values();
        files.flat_map(|file| file.slices.clone()).collect()
    };
    let held = files(before);
    let is_new = |file: &&File| file.slices.len() > 1 && !held.contains(&file.slices[0]);
    let file = after.files.values().find(is_new)?;
    let is_first = after
        .free()
        .first()
        .is_none_or(|free| *free > file.slices[0]);
    Some(match (stretches(&file.slices).len(), is_first) {
        (1, true) => "Takes: one stretch, the lowest slices",
        (1, false) => "Takes: one stretch behind free slices",
        _ => "Takes: several stretches",
    })
}

/// The state but for the sender's positions.
fn without_positions(state: &State) -> State {
    let mut state = *state;
    for area in &mut state.areas {
        for user in &mut area.users {
            user.position = 0;
        }
    }
    state
}

/// Refused calls change nothing, save the sender's position where document 01 says so.
pub fn check_refusal(
    before: &Unit,
    after: &Unit,
    call: &Call,
    lent: &[u16],
    answer: &Answer,
    question: Question,
) {
    assert_eq!(answer.result, question.word());
    assert_eq!((answer.bytes, answer.entries), (0, 0));
    assert!(before.image == after.image, "{call:?} changed the image");
    assert_eq!(call.lent, lent, "{call:?} changed the lent words");
    let moves = matches!(
        call.message,
        Message::AreaMessage {
            operation: Operation::Position(_)
                | Operation::Transput {
                    operation: 5 | 7,
                    ..
                },
            ..
        }
    ) && matches!(
        question,
        Question::PositionNotNegative
            | Question::PositionNotPast
            | Question::InputBelowFixedEnd
            | Question::InputBelowExtendableEnd
            | Question::Extendable
            | Question::SliceFree
            | Question::AppendStretches
    );
    if moves {
        let states = (
            without_positions(&before.state),
            without_positions(&after.state),
        );
        assert_eq!(states.0, states.1);
        let Message::AreaMessage { sender, .. } = call.message else {
            unreachable!();
        };
        for (old, new) in before.state.areas.iter().zip(&after.state.areas) {
            for (old, new) in old.users.iter().zip(&new.users) {
                assert!(old == new || old.id == sender);
            }
        }
    } else {
        assert_eq!(before.state, after.state, "{call:?} changed the state");
    }
}

/// The used entries of an image by name: gathered place by place, each put before the first one
/// whose name is above its own.
fn in_name_order<'a>(image: &'a [u16], plain: &Plain) -> Vec<&'a [u16]> {
    let blocks = 0..plain.h * plain.layers;
    let sector = |b: usize| plain.f + (plain.sys[b / plain.s] - 1) * plain.s + b % plain.s;
    let words = blocks.flat_map(|b| image[256 * sector(b)..256 * sector(b) + 256].chunks(16));
    let mut entries: Vec<&[u16]> = Vec::new();
    for entry in words.filter(|entry| **entry != [0; 16]) {
        let above = entries.iter().position(|other| is_below(entry, other));
        entries.insert(above.unwrap_or(entries.len()), entry);
    }
    entries
}

/// Whether an entry's name is below another's: the first word that differs decides.
fn is_below(one: &[u16], other: &[u16]) -> bool {
    let differing = (0..3).find(|&word| one[word] != other[word]);
    differing.is_some_and(|word| one[word] < other[word])
}

/// Puts a call to a sound unit and to its plain unit and compares everything.
pub fn checked(
    unit: &mut Unit,
    plain: &mut Plain,
    call: &Call,
    tally: &mut Tally,
) -> (Answer, Vec<u16>) {
    let before = unit.clone();
    let plain_before = plain.clone();
    let mut lent = call.lent.clone();
    let (answer, question) = explain(&mut unit.image, &mut unit.state, &call.message, &mut lent);
    let mut plain_lent = call.lent.clone();
    let plain_answer = plain.step(&call.message, &mut plain_lent);
    assert_eq!(answer, plain_answer, "{:?}", call.message);
    assert_eq!(lent, plain_lent, "{:?}", call.message);
    if let (Message::Listing { .. }, 0) = (&call.message, answer.result) {
        let words = 16 * answer.entries as usize;
        let entries = in_name_order(&unit.image, plain).concat();
        assert_eq!(lent[..words], entries);
        assert_eq!(lent[words..], call.lent[words..]);
    }
    let image = image_after(&before.image, &plain_before, plain);
    if image != unit.image {
        let differs = (0..image.len()).find(|&word| image[word] != unit.image[word]);
        let word = differs.expect("a word differs");
        panic!(
            "{:?}: sector {} word {} is {} and should be {}",
            call.message,
            word / 256,
            word % 256,
            unit.image[word],
            image[word]
        );
    }
    assert_eq!(unit.state, state_after(&before.state, plain));
    match soundness(&unit.image, &unit.state) {
        Ok(layers) => assert_eq!(layers, plain.layers),
        Err(unsound) => panic!("{:?}: {unsound:?}", call.message),
    }
    if let Err(difference) = plain.agrees(&unit.image, &unit.state) {
        panic!("{:?}: {difference}", call.message);
    }
    match question {
        None => {
            assert_eq!(answer.result, 0);
            tally.note(&call.message, &plain_before, plain);
        }
        Some(question) => {
            assert!(![Question::UnitSound, Question::AreaUnitSound].contains(&question));
            check_refusal(&before, unit, call, &lent, &answer, question);
        }
    }
    tally
        .counts
        .add(call_name(&call.message), answer.result, question);
    (answer, lent)
}

/// A list of calls to a sound unit.
pub fn run_list(random: &mut Random, unit: &mut Unit, calls: usize, tally: &mut Tally) {
    let mut plain = Plain::read(&unit.image, &unit.state).expect("a sound unit");
    plain
        .agrees(&unit.image, &unit.state)
        .expect("read as it stands");
    let mut caller = Caller::new(random, &unit.image, &unit.state);
    for _ in 0..calls {
        let call = caller.call(random, &unit.image, &unit.state);
        checked(unit, &mut plain, &call, tally);
    }
}

/// A unit beside its plain unit, compared after every call.
pub struct Pair {
    pub unit: Unit,
    pub plain: Plain,
    pub tally: Tally,
}

impl Pair {
    /// Formats and initializes unit 0 with H, s, N and F; all words were 5555h before.
    pub fn new(h: u16, s: u16, n: u16, f: u16) -> Pair {
        let mut unit = Unit {
            image: vec![0x5555; 256 * n as usize],
            state: State::new(0),
        };
        let record = [0, h, s, n, n - f, f, n, 0x0606, 0x0707];
        let result = reference::format(&mut unit.image, &mut unit.state, 18, &record);
        assert_eq!(result, 0);
        Pair::over(unit)
    }

    /// Initializes a sound unit.
    pub fn over(mut unit: Unit) -> Pair {
        let message = Message::Init {
            unit: unit.state.unit,
        };
        let (answer, _) = explain(&mut unit.image, &mut unit.state, &message, &mut []);
        assert_eq!(answer.result, 0);
        Pair {
            plain: Plain::read(&unit.image, &unit.state).expect("a sound unit"),
            unit,
            tally: Tally::default(),
        }
    }

    pub fn call(&mut self, message: Message, lent: &[u16]) -> (Answer, Vec<u16>) {
        let call = Call {
            message,
            lent: lent.to_vec(),
        };
        checked(&mut self.unit, &mut self.plain, &call, &mut self.tally)
    }

    pub fn create(&mut self, name: &str, size: u16, attributes: u16) -> u16 {
        let name = name_of(name, 0);
        let message = Message::Create {
            name,
            size,
            attributes,
        };
        self.call(message, &[]).0.result
    }

    pub fn set(&mut self, name: &str, entry: &[u16]) -> u16 {
        let name = name_of(name, 0);
        self.call(Message::Set { name }, entry).0.result
    }

    /// The entry that Look-up gives, which stands.
    pub fn entry(&mut self, name: &str) -> Vec<u16> {
        let name = name_of(name, 0);
        let (answer, lent) = self.call(Message::LookUp { name }, &[9; 17]);
        assert_eq!(answer.result, 0);
        assert_eq!(lent[16], 9);
        lent[..16].to_vec()
    }

    pub fn change(&mut self, name: &str, entry: &[u16]) -> u16 {
        let name = name_of(name, 0);
        self.call(Message::Change { name }, entry).0.result
    }

    pub fn remove(&mut self, name: &str) -> u16 {
        let name = name_of(name, 0);
        self.call(Message::Remove { name }, &[]).0.result
    }

    pub fn create_area(&mut self, name: &str) -> u16 {
        let name = name_of(name, 0);
        self.call(Message::CreateArea { name }, &[]).0.result
    }

    pub fn remove_area(&mut self, name: &str) -> u16 {
        let name = name_of(name, 0);
        self.call(Message::RemoveArea { name }, &[]).0.result
    }

    pub fn area(&mut self, name: &str, sender: u16, operation: Operation) -> u16 {
        let message = Message::AreaMessage {
            name: name_of(name, 0),
            sender,
            operation,
        };
        self.call(message, &[]).0.result
    }

    /// The listing into just enough words, as texts.
    pub fn listed(&mut self) -> Vec<String> {
        let words = 16 * (self.plain.files.len() + 2);
        let (answer, lent) = self.call(Message::Listing { unit: 0 }, &vec![9; words]);
        assert_eq!((answer.result, answer.entries as usize), (0, words / 16));
        lent.chunks(16).map(|entry| text_of(&entry[..3])).collect()
    }

    /// A transput of 512 bytes: result, bytes, block, and the lent words afterwards.
    pub fn transput(
        &mut self,
        name: &str,
        sender: u16,
        operation: u16,
        block: u16,
        words: u16,
    ) -> (u16, u16, u16, Vec<u16>) {
        let operation = Operation::Transput {
            operation,
            bytes: 512,
            block,
        };
        let message = Message::AreaMessage {
            name: name_of(name, 0),
            sender,
            operation,
        };
        let (answer, lent) = self.call(message, &[words; 257]);
        assert_eq!(lent[256], words);
        (answer.result, answer.bytes, answer.block, lent)
    }

    pub fn word(&self, sector: usize, word: usize) -> u16 {
        self.unit.image[256 * sector + word]
    }

    pub fn free(&self) -> u16 {
        self.word(8, 3)
    }
}

/// The characters in three words, zeros left out.
fn text_of(name: &[u16]) -> String {
    let characters = name.iter().flat_map(|word| word.to_be_bytes());
    characters.filter(|&c| c != 0).map(char::from).collect()
}

/// Entry words for Set and Change: a name or none, attributes and size.
pub fn record(name: &str, attributes: u16, size: u16) -> Vec<u16> {
    let mut entry = vec![0; 16];
    entry[..3].copy_from_slice(&name_of(name, 0));
    entry[6] = attributes;
    entry[9] = size;
    entry
}
