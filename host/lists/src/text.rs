//! Steps, outcomes and edits of a unit as text; `stored` says how it reads.

use reference::generate::{add_file, Call, RawCall, Unit};
use reference::layout::{name_of, SECTOR};
use reference::{format, Answer, Message, Name, Operation, State};

use crate::state::{place, state_of, words_of};
use crate::Step;

/// Words are written out in so many parts; where that is not enough, a digest stands for them.
const PARTS: usize = 20;

const NO_SUCH_LINE: &str = "there is no such line";

/// A step as a line of a list; of many different words lent only the digest.
pub fn step_text(step: &Step) -> String {
    match step {
        Step::Format { bytes, record } => format!("format {bytes}{}", lent_text("record", record)),
        Step::Call(Call { message, lent }) => message_text(message) + &lent_text("lent", lent),
        Step::Raw(RawCall { message, lent }) => {
            lent_text("raw", message).trim_start().to_owned() + &lent_text("lent", lent)
        }
    }
}

fn message_text(message: &Message) -> String {
    match *message {
        Message::Init { unit } => format!("init {unit}"),
        Message::Set { name } => format!("set {}", name_text(name)),
        Message::Create {
            name,
            size,
            attributes,
        } => format!("create {} {size} {attributes:04X}h", name_text(name)),
        Message::LookUp { name } => format!("look-up {}", name_text(name)),
        Message::Change { name } => format!("change {}", name_text(name)),
        Message::Remove { name } => format!("remove {}", name_text(name)),
        Message::CreateArea { name } => format!("create-area {}", name_text(name)),
        Message::RemoveArea { name } => format!("remove-area {}", name_text(name)),
        Message::UnitDescription { unit, bytes } => format!("description {unit} {bytes}"),
        Message::Listing { unit } => format!("listing {unit}"),
        Message::AreaMessage {
            name,
            sender,
            operation,
        } => operation_text(&format!("{} {sender}", name_text(name)), operation),
    }
}

fn operation_text(area: &str, operation: Operation) -> String {
    match operation {
        Operation::Reserve(count) => format!("reserve {area} {count}"),
        Operation::Position(block) => format!("position {area} {block}"),
        Operation::Sense => format!("sense {area}"),
        Operation::Transput {
            operation,
            bytes,
            block,
        } => format!("transput {area} {operation} {bytes} {block}"),
        Operation::Other(number) => format!("other {area} {number}"),
    }
}

/// A name's characters with the unit behind them, or its three words.
fn name_text(name: Name) -> String {
    let characters: Vec<u8> = name.iter().flat_map(|word| word.to_be_bytes()).collect();
    let text = characters[..5]
        .iter()
        .take_while(|c| c.is_ascii_alphanumeric());
    let text: String = text.map(|&character| char::from(character)).collect();
    let unit = characters[5];
    if !text.is_empty() && name_of(&text, unit) == name {
        format!("{text}/{unit}")
    } else {
        format!("{:04X}h,{:04X}h,{:04X}h", name[0], name[1], name[2])
    }
}

fn lent_text(what: &str, words: &[u16]) -> String {
    match words.len() {
        0 => String::new(),
        number => match words_text(words) {
            Some(text) => format!(" {what} {text}"),
            None => format!(" {what} {number} words {}", digest_text(words)),
        },
    }
}

/// Words, with a number before a word that is repeated, if that takes few parts.
pub(crate) fn words_text(words: &[u16]) -> Option<String> {
    let mut parts = Vec::new();
    for run in words.chunk_by(|one, next| one == next) {
        let word = match run[0] {
            word @ ..=999 => format!("{word}"),
            word => format!("{word:04X}h"),
        };
        parts.push(match run.len() {
            1 => word,
            number => format!("{number}*{word}"),
        });
    }
    (parts.len() <= PARTS).then(|| parts.join(" "))
}

/// A digest of words: FNV-1a of 64 bits, folded.
pub(crate) fn digest_text(words: &[u16]) -> String {
    let bytes = words.iter().flat_map(|word| word.to_be_bytes());
    let mix = |digest: u64, byte: u8| (digest ^ u64::from(byte)).wrapping_mul(0x0100_0000_01B3);
    let digest = bytes.fold(0xCBF2_9CE4_8422_2325, mix);
    format!("#{:08X}", (digest >> 32) ^ (digest & 0xFFFF_FFFF))
}

/// What a step has done: the result word, what else it answers, the words handed back up to the
/// last that is new, and digests of image and state where they changed.
pub fn outcome_text(
    step: &Step,
    before: &Unit,
    answer: Answer,
    lent: &[u16],
    after: &Unit,
) -> String {
    let mut text = format!("{:04X}h", answer.result);
    let mut add = |part: String| text = format!("{text} {part}");
    let numbers = [
        ("bytes", answer.bytes.into()),
        ("block", answer.block.into()),
        ("entries", answer.entries),
    ];
    for (what, number) in numbers.into_iter().filter(|(_, number)| *number != 0) {
        add(format!("{what} {number}"));
    }
    let old = match step {
        Step::Format { record, .. } => record,
        Step::Call(call) => &call.lent,
        Step::Raw(call) => &call.lent,
    };
    let last = lent.iter().zip(old).rposition(|(new, old)| new != old);
    if let Some(last) = last {
        let words = words_text(&lent[..=last]);
        add(format!(
            "lent {}",
            words.unwrap_or_else(|| digest_text(lent))
        ));
    }
    if before.image != after.image {
        add(format!("image {}", digest_text(&after.image)));
    }
    if before.state != after.state {
        add(format!("state {}", digest_text(&words_of(&after.state))));
    }
    text
}

/// The step on a line of a list.
pub fn parse_step(text: &str) -> Result<Step, String> {
    let tokens: Vec<&str> = text.split_whitespace().collect();
    let lends = |token: &&str| ["lent", "record"].contains(token);
    let at = tokens.iter().position(lends).unwrap_or(tokens.len());
    let lent = match tokens.get(at + 1..) {
        Some(words) => parse_words(words)?,
        None => Vec::new(),
    };
    if let ["format", bytes] = tokens[..at] {
        return Ok(Step::Format {
            bytes: number(bytes)?,
            record: lent,
        });
    }
    if let ["raw", ref words @ ..] = tokens[..at] {
        let words = parse_words(words)?;
        let message = words.try_into().map_err(|_| "twelve words are wanted")?;
        return Ok(Step::Raw(RawCall { message, lent }));
    }
    let message = parse_message(&tokens[..at])?;
    Ok(Step::Call(Call { message, lent }))
}

fn parse_message(tokens: &[&str]) -> Result<Message, String> {
    Ok(match *tokens {
        ["init", unit] => Message::Init {
            unit: number(unit)?,
        },
        ["create", name, size, attributes] => Message::Create {
            name: parse_name(name)?,
            size: number(size)?,
            attributes: number(attributes)?,
        },
        ["description", unit, bytes] => Message::UnitDescription {
            unit: number(unit)?,
            bytes: number(bytes)?,
        },
        ["listing", unit] => Message::Listing {
            unit: number(unit)?,
        },
        [call, name] => named_message(call, parse_name(name)?)?,
        [operation, name, sender, ref numbers @ ..] => Message::AreaMessage {
            name: parse_name(name)?,
            sender: number(sender)?,
            operation: parse_operation(operation, numbers)?,
        },
        _ => return Err(NO_SUCH_LINE.into()),
    })
}

/// A message that has only a name.
fn named_message(call: &str, name: Name) -> Result<Message, String> {
    Ok(match call {
        "set" => Message::Set { name },
        "look-up" => Message::LookUp { name },
        "change" => Message::Change { name },
        "remove" => Message::Remove { name },
        "create-area" => Message::CreateArea { name },
        "remove-area" => Message::RemoveArea { name },
        _ => return Err(NO_SUCH_LINE.into()),
    })
}

fn parse_operation(operation: &str, numbers: &[&str]) -> Result<Operation, String> {
    Ok(match (operation, numbers) {
        ("reserve", [count]) => Operation::Reserve(number(count)?),
        ("position", [block]) => Operation::Position(number(block)?),
        ("sense", []) => Operation::Sense,
        ("transput", [operation, bytes, block]) => Operation::Transput {
            operation: number(operation)?,
            bytes: number(bytes)?,
            block: number(block)?,
        },
        ("other", [other]) => Operation::Other(number(other)?),
        _ => return Err(NO_SUCH_LINE.into()),
    })
}

/// A decimal number, or one of base 16 with an h behind it.
pub(crate) fn number(text: &str) -> Result<u16, String> {
    let parsed = match text.strip_suffix('h') {
        Some(digits) => u16::from_str_radix(digits, 16),
        None => text.parse(),
    };
    parsed.map_err(|_| format!("{text} is no word"))
}

pub(crate) fn parse_words(tokens: &[&str]) -> Result<Vec<u16>, String> {
    let mut words = Vec::new();
    for token in tokens {
        let (times, word) = token.split_once('*').unwrap_or(("1", token));
        words.extend(vec![number(word)?; number(times)?.into()]);
    }
    Ok(words)
}

fn parse_name(text: &str) -> Result<Name, String> {
    let words: Vec<&str> = text.split(',').collect();
    if let [first, second, third] = words[..] {
        return Ok([number(first)?, number(second)?, number(third)?]);
    }
    let (text, unit) = text.split_once('/').unwrap_or((text, "0"));
    Ok(name_of(text, number(unit)? as u8))
}

/// Slices such as `2,5-7,10-20/2`, or `-` for none.
fn parse_slices(text: &str) -> Result<Vec<usize>, String> {
    let mut slices = Vec::new();
    for part in text.split(',').filter(|part| *part != "-") {
        let (range, step) = part.split_once('/').unwrap_or((part, "1"));
        let (first, last) = range.split_once('-').unwrap_or((range, range));
        let range = usize::from(number(first)?)..=number(last)?.into();
        slices.extend(range.step_by(number(step)?.into()));
    }
    Ok(slices)
}

/// Makes or edits a unit by a line that is no call.
pub fn edit(line: &str, unit: &mut Unit) -> Result<(), String> {
    let tokens: Vec<&str> = line.split_whitespace().collect();
    match tokens[..] {
        ["blank", of, sectors] => *unit = blank(number(of)?, number(sectors)?),
        ["disc", ref numbers @ ..] => *unit = disc(&parse_words(numbers)?)?,
        ["file", name, attributes, length, slices] => {
            let (name, slices) = (parse_name(name)?, parse_slices(slices)?);
            add_file(unit, name, number(attributes)?, number(length)?, &slices);
        }
        ["words", words] => unit.image.resize(number(words)?.into(), 0),
        ["word", sector, word, value] => {
            let word = SECTOR * usize::from(number(sector)?) + usize::from(number(word)?);
            *unit.image.get_mut(word).ok_or("past the image")? = number(value)?;
        }
        ["put", ref at @ .., value] => {
            let mut words = words_of(&unit.state);
            let at = (0..words.len()).find(|&word| place(word) == at.join(" "));
            words[at.ok_or("no such place")?] = number(value)?;
            unit.state = state_of(&words);
        }
        _ => return Err(NO_SUCH_LINE.into()),
    }
    Ok(())
}

fn blank(unit: u16, sectors: u16) -> Unit {
    Unit {
        image: vec![0x5555; SECTOR * usize::from(sectors)],
        state: State::new(unit),
    }
}

/// A unit formatted and initialized, from its number, H, s, M and F.
fn disc(numbers: &[u16]) -> Result<Unit, String> {
    let [number, h, s, slices, f] = *numbers else {
        return Err("five numbers are wanted".into());
    };
    let n = f + s * slices;
    let mut made = blank(number, n);
    let record = [number, h, s, n, n - f, f, n, 0, 0];
    if format(&mut made.image, &mut made.state, 18, &record) != 0 {
        return Err("Format refuses".into());
    }
    made.state.initialized = true;
    Ok(made)
}
