//! Scripts: lists of messages in a text form, which docs/TOOL.md describes.

use ruzkemp::{Entry, Message, NameWords, Operation, Record, SECTOR};

use crate::values::{attributes, name_words, number, unit, word_list, words};

/// A line of a script that has a message.
pub struct Line {
    /// Its number, from 1.
    pub number: usize,
    /// The message's verb, with the name if it has one.
    pub title: String,
    /// The result word that the script expects, if it says one.
    pub expected: Option<u16>,
    /// What is to be done.
    pub step: Step,
}

/// What a line asks for.
pub enum Step {
    /// Format, with its record and byte count.
    Format([u16; 9], u16),
    /// Any other call, with the words lent, and what of them is printed.
    Send(Message, Lent, Show),
}

/// The words lent with a call.
pub enum Lent {
    /// These.
    Words(Vec<u16>),
    /// As many as the image has: enough for a listing.
    AsImage,
}

/// What is printed of the words handed back.
#[derive(Clone, Copy, PartialEq, Eq, Debug)]
pub enum Show {
    /// Nothing.
    None,
    /// The words.
    Words,
    /// Their bytes as text.
    Text,
    /// The names of the entries.
    Names,
}

/// Reads a script for a unit; what is wrong in the first line that is wrong.
pub fn parse(text: &str, unit: u16) -> Result<Vec<Line>, String> {
    let mut lines = Vec::new();
    for (number, text) in (1..).zip(text.lines()) {
        let line = parse_line(number, text, unit);
        lines.extend(line.map_err(|wrong| format!("line {number}: {wrong}"))?);
    }
    Ok(lines)
}

fn parse_line(number: usize, text: &str, unit: u16) -> Result<Option<Line>, String> {
    let mut parts = tokens(text)?;
    let mut expected = None;
    if parts.first().is_some_and(|first| first == "expect") {
        let word = parts.get(1).ok_or("expect needs a result word")?;
        expected = Some(crate::values::number(word)?);
        parts.drain(..2);
        if parts.is_empty() {
            return Err("expect needs a message after its result word".into());
        }
    }
    if parts.is_empty() {
        return Ok(None);
    }
    let verb = parts.remove(0);
    let mut fields = Fields::new(parts, unit);
    let title = match fields.operands.first() {
        Some(name) => format!("{verb} {name}"),
        None => verb.clone(),
    };
    let step = step(&verb, &mut fields)?;
    fields.all_used(&verb)?;
    Ok(Some(Line {
        number,
        title,
        expected,
        step,
    }))
}

/// The words of a line up to a `#`. Between double quotes blanks and `#` stand for themselves,
/// and `\n`, `\r`, `\t`, `\0`, `\"` and `\\` for one character.
fn tokens(text: &str) -> Result<Vec<String>, String> {
    let mut found = Vec::new();
    let mut token: Option<String> = None;
    let mut quoted = false;
    let mut rest = text.chars();
    while let Some(next) = rest.next() {
        match next {
            '"' => {
                quoted = !quoted;
                token.get_or_insert_default();
            }
            '\\' if quoted => token.get_or_insert_default().push(escaped(rest.next())?),
            '#' if !quoted => break,
            blank if blank.is_whitespace() && !quoted => found.extend(token.take()),
            other => token.get_or_insert_default().push(other),
        }
    }
    if quoted {
        return Err("a quotation mark is not closed".into());
    }
    found.extend(token);
    Ok(found)
}

fn escaped(character: Option<char>) -> Result<char, String> {
    match character {
        Some('n') => Ok('\n'),
        Some('r') => Ok('\r'),
        Some('t') => Ok('\t'),
        Some('0') => Ok('\0'),
        Some(itself @ ('"' | '\\')) => Ok(itself),
        _ => Err("after \\ comes one of n r t 0 \" \\".into()),
    }
}

/// What stands behind a verb: operands, and fields `key=value`.
struct Fields {
    operands: Vec<String>,
    pairs: Vec<(String, String)>,
    unit: u16,
}

impl Fields {
    fn new(parts: Vec<String>, unit: u16) -> Fields {
        let mut fields = Fields {
            operands: Vec::new(),
            pairs: Vec::new(),
            unit,
        };
        for part in parts {
            match part.split_once('=') {
                Some((key, value)) => fields.pairs.push((key.into(), value.into())),
                None => fields.operands.push(part),
            }
        }
        fields
    }

    /// The name, with the unit after a colon if it is another.
    fn name(&mut self) -> Result<NameWords, String> {
        if self.operands.is_empty() {
            return Err("a name is missing".into());
        }
        let text = self.operands.remove(0);
        match text.split_once(':') {
            Some((text, number)) => name_words(text, unit(number)?),
            None => name_words(&text, self.unit),
        }
    }

    /// Takes a field out.
    fn take<T>(
        &mut self,
        key: &str,
        read: impl Fn(&str) -> Result<T, String>,
    ) -> Result<Option<T>, String> {
        let Some(place) = self.pairs.iter().position(|(given, _)| given == key) else {
            return Ok(None);
        };
        let (_, value) = self.pairs.remove(place);
        let value = read(&value).map_err(|wrong| format!("{key}: {wrong}"))?;
        Ok(Some(value))
    }

    fn number(&mut self, key: &str, otherwise: u16) -> Result<u16, String> {
        Ok(self.take(key, number)?.unwrap_or(otherwise))
    }

    fn needed(&mut self, key: &str) -> Result<u16, String> {
        self.take(key, number)?
            .ok_or_else(|| format!("{key}= is missing"))
    }

    fn show(&mut self, otherwise: Show) -> Result<Show, String> {
        let show = self.take("show", |text| match text {
            "none" => Ok(Show::None),
            "words" => Ok(Show::Words),
            "text" => Ok(Show::Text),
            "names" => Ok(Show::Names),
            other => Err(format!("'{other}' is none of none, words, text, names")),
        })?;
        Ok(show.unwrap_or(otherwise))
    }

    fn all_used(&self, verb: &str) -> Result<(), String> {
        if let Some(operand) = self.operands.first() {
            return Err(format!("{verb}: '{operand}' is too much"));
        }
        match self.pairs.first() {
            Some((key, _)) => Err(format!("{verb} has no further {key}=")),
            None => Ok(()),
        }
    }
}

fn step(verb: &str, fields: &mut Fields) -> Result<Step, String> {
    match verb {
        "format" => format(fields),
        "init" | "describe" | "list" => unit_step(verb, fields),
        "set" | "create" | "look-up" | "change" | "remove" => catalog_step(verb, fields),
        "create-area" | "remove-area" => area_step(verb, fields),
        "reserve" | "release" | "position" | "sense" | "other" => control_step(verb, fields),
        "input" => input(fields),
        "output" => output(fields),
        _ => Err(format!("'{verb}' is no message")),
    }
}

fn format(fields: &mut Fields) -> Result<Step, String> {
    let unit = fields.number("unit", fields.unit)?;
    let (keys, slice) = (fields.needed("keys")?, fields.needed("slice")?);
    let (sectors, first) = (fields.needed("sectors")?, fields.needed("first")?);
    let mut record = Record::new(unit, keys, slice, sectors, first);
    record.free = fields.number("free", record.free)?;
    record.top = fields.number("top", record.top)?;
    record.carried = fields.take("words", words::<2>)?.unwrap_or_default();
    Ok(Step::Format(record.words(), fields.number("bytes", 18)?))
}

fn unit_step(verb: &str, fields: &mut Fields) -> Result<Step, String> {
    let unit = fields.number("unit", fields.unit)?;
    Ok(match verb {
        "init" => silent(Message::Init { unit }),
        "describe" => {
            let bytes = fields.number("bytes", 32)?;
            let message = Message::UnitDescription { unit, bytes };
            Step::Send(message, Lent::Words(vec![0; 16]), fields.show(Show::Words)?)
        }
        _ => {
            let show = fields.show(Show::Names)?;
            Step::Send(Message::Listing { unit }, Lent::AsImage, show)
        }
    })
}

fn catalog_step(verb: &str, fields: &mut Fields) -> Result<Step, String> {
    let name = fields.name()?;
    Ok(match verb {
        "create" => {
            let size = fields.number("size", 0)?;
            let attributes = fields
                .take("attributes", attributes)?
                .unwrap_or_default()
                .bits();
            silent(Message::Create {
                name,
                size,
                attributes,
            })
        }
        "set" => lending(Message::Set { name }, entry(fields, Entry::default())?),
        "change" => {
            let kept = Entry::for_change(&Entry::default());
            lending(Message::Change { name }, entry(fields, kept)?)
        }
        "look-up" => {
            let show = fields.show(Show::Words)?;
            Step::Send(Message::LookUp { name }, Lent::Words(vec![0; 16]), show)
        }
        _ => silent(Message::Remove { name }),
    })
}

/// The entry lent to Set or Change.
fn entry(fields: &mut Fields, mut entry: Entry) -> Result<Entry, String> {
    if let Some(name) = fields.take("name", |text| name_words(text, 0))? {
        entry = entry.with_name_words(name);
    }
    if let Some(size) = fields.take("size", number)? {
        entry = entry.with_size(size);
    }
    if let Some(attributes) = fields.take("attributes", attributes)? {
        entry = entry.with_attributes(attributes);
    }
    if let Some(optional) = fields.take("optional", words::<3>)? {
        entry = entry.with_optional(optional);
    }
    if let Some(tail) = fields.take("tail", words::<6>)? {
        entry = entry.with_tail(tail);
    }
    Ok(entry)
}

fn silent(message: Message) -> Step {
    Step::Send(message, Lent::Words(Vec::new()), Show::None)
}

fn lending(message: Message, entry: Entry) -> Step {
    Step::Send(message, Lent::Words(entry.words().to_vec()), Show::None)
}

fn area_step(verb: &str, fields: &mut Fields) -> Result<Step, String> {
    let name = fields.name()?;
    Ok(silent(match verb {
        "create-area" => Message::CreateArea { name },
        _ => Message::RemoveArea { name },
    }))
}

fn control_step(verb: &str, fields: &mut Fields) -> Result<Step, String> {
    let operation = match verb {
        "reserve" => Operation::Reserve(fields.take("as", role)?.unwrap_or(3)),
        "release" => Operation::Reserve(0),
        "position" => Operation::Position(fields.needed("block")?),
        "sense" => Operation::Sense,
        _ => Operation::Other(fields.needed("number")?),
    };
    to_area(fields, operation, Vec::new(), Show::None)
}

/// The count of a reservation, by name or number.
fn role(text: &str) -> Result<u16, String> {
    match text {
        "user" => Ok(3),
        "writer" => Ok(2),
        "exclusive" => Ok(4),
        other => number(other),
    }
}

fn input(fields: &mut Fields) -> Result<Step, String> {
    let show = fields.show(Show::None)?;
    let operation = transput(fields, 1, 5)?;
    to_area(fields, operation, vec![0; SECTOR], show)
}

fn output(fields: &mut Fields) -> Result<Step, String> {
    let words = match (
        fields.take("words", word_list)?,
        fields.take("text", |text| Ok(text.to_string()))?,
        fields.take("fill", number)?,
    ) {
        (Some(words), None, None) => words,
        (None, Some(text), None) => text_words(&text),
        (None, None, Some(word)) => vec![word; SECTOR],
        (None, None, None) => Vec::new(),
        _ => return Err("one of words=, text= and fill= is enough".into()),
    };
    if words.len() > SECTOR {
        return Err(format!("a block has 256 words, {} are given", words.len()));
    }
    let mut block = words;
    block.resize(SECTOR, 0);
    let operation = transput(fields, 3, 7)?;
    to_area(fields, operation, block, Show::None)
}

/// A transput: the second number if a block is given, unless the number is given itself.
fn transput(fields: &mut Fields, sequential: u16, random: u16) -> Result<Operation, String> {
    let block = fields.take("block", number)?;
    let usual = block.map_or(sequential, |_| random);
    Ok(Operation::Transput {
        operation: fields.number("operation", usual)?,
        bytes: fields.number("bytes", 512)?,
        block: block.unwrap_or(0),
    })
}

fn to_area(
    fields: &mut Fields,
    operation: Operation,
    lent: Vec<u16>,
    show: Show,
) -> Result<Step, String> {
    let name = fields.name()?;
    let sender = fields.number("sender", 1)?;
    let message = Message::AreaMessage {
        name,
        sender,
        operation,
    };
    Ok(Step::Send(message, Lent::Words(lent), show))
}

/// The words of a text's bytes, high half first.
fn text_words(text: &str) -> Vec<u16> {
    let pairs = text.as_bytes().chunks(2);
    let word = |pair: &[u8]| u16::from_be_bytes([pair[0], pair.get(1).copied().unwrap_or(0)]);
    pairs.map(word).collect()
}
