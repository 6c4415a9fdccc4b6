//! Random commands: after each the image file is word for word what the second implementation
//! makes of the same messages, or the same refusal is told and the file is as it was.

mod common;

use common::Folder;
use reference::generate::record;
use reference::layout::name_of;
use reference::plain::Plain;
use reference::random::Random;
use reference::{format, perform, Message, Operation, State};

/// A unit as the second implementation has it.
struct Model {
    image: Vec<u16>,
    unit: u16,
}

/// The model's unit while a command is carried out.
struct Calls {
    image: Vec<u16>,
    state: State,
}

impl Calls {
    /// Sends a message; its result word if it is refused.
    fn send(&mut self, message: Message, lent: &mut [u16]) -> Result<(), u16> {
        match perform(&mut self.image, &mut self.state, &message, lent).result {
            0 => Ok(()),
            word => Err(word),
        }
    }

    fn tell(&mut self, name: [u16; 3], operation: Operation, lent: &mut [u16]) -> Result<(), u16> {
        let message = Message::AreaMessage {
            name,
            sender: 77,
            operation,
        };
        self.send(message, lent)
    }

    /// Writes a file's blocks through an area process.
    fn write(&mut self, name: [u16; 3], bytes: &[u8]) -> Result<(), u16> {
        self.send(Message::CreateArea { name }, &mut [])?;
        self.tell(name, Operation::Reserve(4), &mut [])?;
        for block in bytes.chunks(512) {
            let mut words = [0; 256];
            for (place, byte) in block.iter().enumerate() {
                words[place / 2] |= u16::from(*byte) << (8 - 8 * (place % 2));
            }
            let operation = Operation::Transput {
                operation: 3,
                bytes: 512,
                block: 0,
            };
            self.tell(name, operation, &mut words)?;
        }
        self.tell(name, Operation::Reserve(0), &mut [])?;
        self.send(Message::RemoveArea { name }, &mut [])
    }
}

impl Model {
    /// Carries out a command: all of its messages, or none.
    fn attempt(&mut self, messages: impl Fn(&mut Calls) -> Result<(), u16>) -> Result<(), u16> {
        let mut calls = Calls {
            image: self.image.clone(),
            state: State::new(self.unit),
        };
        calls.send(Message::Init { unit: self.unit }, &mut [])?;
        messages(&mut calls)?;
        self.image = calls.image;
        Ok(())
    }
}

/// What a command line comes to in messages.
type Messages = Box<dyn Fn(&mut Calls) -> Result<(), u16>>;

/// A command line, the bytes of the host file, and what it comes to.
struct Step {
    line: Vec<String>,
    host: Vec<u8>,
    messages: Messages,
}

impl Step {
    fn new(line: Vec<String>, messages: Messages) -> Step {
        Step {
            line,
            host: Vec::new(),
            messages,
        }
    }
}

const NAMES: [&str; 11] = [
    "PASS", "Pass", "GATE1", "GATE2", "gate2", "TILL", "LOG", "A", "ZZZZZ", "SYS", "sys",
];

fn arguments(parts: &[&str]) -> Vec<String> {
    parts.iter().map(|part| part.to_string()).collect()
}

fn attributes(random: &mut Random) -> u16 {
    random.pick(&[0, 0, 1, 1, 1, 1, 8, 9, 0x10, 0x4001, 4, 5, 0x0020])
}

fn step(random: &mut Random, unit: u16) -> Step {
    let text = random.pick(&NAMES);
    let name = name_of(text, unit as u8);
    let size = random.below(30) as u16;
    match random.below(6) {
        0 => create(random, text, name, size),
        1 => set(random, text, name, size),
        2 => change(random, text, name, size),
        3 => Step::new(
            arguments(&["rm", "a.img", text]),
            Box::new(move |calls| calls.send(Message::Remove { name }, &mut [])),
        ),
        _ => put(random, text, name),
    }
}

fn create(random: &mut Random, text: &str, name: [u16; 3], size: u16) -> Step {
    let attributes = attributes(random);
    let (shown, number) = (format!("{attributes:04X}h"), size.to_string());
    let line = [
        "create",
        "a.img",
        text,
        "--size",
        &number,
        "--attributes",
        &shown,
    ];
    let message = Message::Create {
        name,
        size,
        attributes,
    };
    Step::new(
        arguments(&line),
        Box::new(move |calls| calls.send(message, &mut [])),
    )
}

fn set(random: &mut Random, text: &str, name: [u16; 3], size: u16) -> Step {
    let attributes = attributes(random);
    let (shown, number) = (format!("{attributes:04X}h"), size.to_string());
    let mut line = arguments(&["set", "a.img", text, "--size", &number]);
    line.extend(arguments(&["--attributes", &shown, "--optional", "1,2,3"]));
    line.extend(arguments(&["--tail", "4,5,6,7,8,9"]));
    let messages = move |calls: &mut Calls| {
        let mut entry = [0; 16];
        entry[3..7].copy_from_slice(&[1, 2, 3, attributes]);
        entry[9..].copy_from_slice(&[size, 4, 5, 6, 7, 8, 9]);
        calls.send(Message::Set { name }, &mut entry)
    };
    Step::new(line, Box::new(messages))
}

/// A Change of the length, or of the name.
fn change(random: &mut Random, text: &str, name: [u16; 3], size: u16) -> Step {
    let new = random.pick(&NAMES);
    let renames = random.chance(40);
    let shown_size = size.to_string();
    let line = match renames {
        true => arguments(&["rename", "a.img", text, new]),
        false => arguments(&["change", "a.img", text, "--size", &shown_size]),
    };
    let messages = move |calls: &mut Calls| {
        let mut entry = [0; 16];
        calls.send(Message::LookUp { name }, &mut entry)?;
        entry[..3].fill(0);
        entry[6] = 0x8000;
        entry[9] = if renames { 0x8000 } else { size };
        if renames {
            entry[..3].copy_from_slice(&name_of(new, 0));
        }
        calls.send(Message::Change { name }, &mut entry)
    };
    Step::new(line, Box::new(messages))
}

/// A put of random bytes: into a new file, or in place of an old one's.
fn put(random: &mut Random, text: &str, name: [u16; 3]) -> Step {
    let length = random.below(9_000);
    let host: Vec<u8> = (0..length).map(|_| random.word() as u8).collect();
    let replaces = random.chance(60);
    let mut line = arguments(&["put", "a.img", text, "host"]);
    if replaces {
        line.push("--replace".into());
    }
    let bytes = host.clone();
    let messages = move |calls: &mut Calls| {
        let mut entry = [0; 16];
        let stands = calls.send(Message::LookUp { name }, &mut entry).is_ok();
        if replaces && stands {
            let blocks = bytes.len().div_ceil(512) as u16;
            entry[9] = if entry[6] & 1 != 0 { 0 } else { blocks };
            entry[..3].fill(0);
            entry[6] = 0x8000;
            calls.send(Message::Change { name }, &mut entry)?;
        } else {
            let message = Message::Create {
                name,
                size: 0,
                attributes: 1,
            };
            calls.send(message, &mut [])?;
        }
        calls.write(name, &bytes)
    };
    Step {
        line,
        host,
        messages: Box::new(messages),
    }
}

/// Every file is got as the plain unit has it.
fn all_is_got(folder: &Folder, model: &Model) {
    let plain = Plain::read(&model.image, &State::new(model.unit)).expect("sound");
    for (name, file) in &plain.files {
        let unit = model.unit.to_string();
        folder.good(&["get", "a.img", name, "out", "--force", "--unit", &unit]);
        let words = file.sectors.iter().flatten();
        let bytes: Vec<u8> = words.flat_map(|word| word.to_be_bytes()).collect();
        assert!(folder.read("out") == bytes, "{name}");
    }
}

/// A random unit, formatted by the tool and by the model.
fn formatted(random: &mut Random, folder: &Folder) -> Model {
    let unit = random.below(4) as u16;
    let record = record(random, unit);
    let mut image = vec![0; 256 * usize::from(record[3])];
    assert_eq!(format(&mut image, &mut State::new(unit), 18, &record), 0);
    let [unit_text, h, s, n, _, f, _, w6, w7] = record.map(|word| word.to_string());
    let mut line = arguments(&["format", "a.img", "--sectors", &n, "--first", &f]);
    line.extend(arguments(&[
        "--slice", &s, "--keys", &h, "--unit", &unit_text,
    ]));
    line.extend(arguments(&["--words", &format!("{w6},{w7}")]));
    let line: Vec<&str> = line.iter().map(String::as_str).collect();
    folder.good(&line);
    Model { image, unit }
}

/// So many random commands; how many were done and how many refused.
fn run(seed: u64, steps: usize) -> (usize, usize) {
    let folder = Folder::new();
    let random = &mut Random::new(seed);
    let mut model = formatted(random, &folder);
    let mut done = 0;
    for _ in 0..steps {
        let mut step = step(random, model.unit);
        step.line.extend(["--unit".into(), model.unit.to_string()]);
        let line: Vec<&str> = step.line.iter().map(String::as_str).collect();
        folder.write("host", &step.host);
        match model.attempt(step.messages) {
            Ok(()) => {
                done += 1;
                folder.good(&line);
            }
            Err(word) => {
                folder.bad(&line, 1, &format!("refused with {word:04X}h: "));
            }
        }
        assert!(folder.words("a.img") == model.image, "{line:?}");
    }
    all_is_got(&folder, &model);
    (done, steps - done)
}

#[test]
fn random_commands_do_what_the_second_implementation_does() {
    let (mut done, mut refused) = (0, 0);
    for seed in 1..=8 {
        let (more_done, more_refused) = run(seed, 60);
        done += more_done;
        refused += more_refused;
    }
    println!("{done} done, {refused} refused");
    assert!(done > 100 && refused > 100);
}
