//! `put` and `get`: files' blocks from and to host files.

use std::io::{BufRead, BufReader, Cursor, Read};
use std::path::{Path, PathBuf};

use reference::layout::Kit;
use ruzkemp::{Attributes, Block, Call, Entry, Error, Name, Role};

use super::rescue::{self, FIRST, KEYS, SLICE, UNSOUND};
use crate::arguments::{flag, valued, Command, Given, DRY_RUN, LOW, OFFSET, UNIT};
use crate::commands::many::{
    beside, fill, host_files, is_own, may_be_written, written, Which, ALL, FROM, INTO,
};
use crate::console::{print_bytes, report};
use crate::failure::{Failure, Outcome};
use crate::host::{bytes_of, shown, streams, words_of, Replacement, MOST_SECTORS, SECTOR_BYTES};
use crate::progress::Progress;
use crate::room;
use crate::session::Session;
use crate::text::{Wording, DANISH, TEXT};
use crate::values::{self, count};

/// The number under which this tool is a user of an area process.
pub const SENDER: u16 = 1;
/// The most bytes of a text that can fit on a unit: a Danish letter has two on the host.
const MOST_TEXT: u64 = 2 * (MOST_SECTORS * SECTOR_BYTES) as u64;

/// `put`.
pub const PUT: Command = Command {
    name: "put",
    operands: &["IMAGE", "[NAME...]", "[HOSTFILE]"],
    choices: &[
        flag(
            "--replace",
            "replace the words of a file that is entered already",
        ),
        FROM,
        ALL,
        TEXT,
        DANISH,
        UNIT,
        LOW,
        OFFSET,
        DRY_RUN,
    ],
    summary: "Copy a host file (- is standard input) or many into the unit",
    about: "put IMAGE NAME HOSTFILE, or put IMAGE NAME... --from DIR, or put IMAGE --all DIR.\n\n\
            Enters an extendable file, outputs block by block as its exclusive user and books the\n\
            length. The last block is filled up with zeros: the catalog keeps lengths in sectors\n\
            only. With --replace an entered file keeps its attributes, optional words and tail,\n\
            and gets the new length. Of many files all are put or none; --all refuses a folder in\n\
            which something is no regular file or has no file's name.\n\n\
            --text makes line ends CR LF. --danish also makes Æ Ø Å æ ø å the codes of\n\
            [ \\ ] { | } and refuses what has no code, saying line and column.",
    run: put,
};

/// `get`.
pub const GET: Command = Command {
    name: "get",
    operands: &["IMAGE", "[NAME...]", "[HOSTFILE]"],
    choices: &[
        valued("--bytes", "N", "write the first N bytes only"),
        flag("--force", "replace a host file that exists"),
        INTO,
        ALL,
        TEXT,
        DANISH,
        UNSOUND,
        KEYS,
        SLICE,
        FIRST,
        UNIT,
        LOW,
        OFFSET,
    ],
    summary: "Copy a file of the unit to a host file (- is standard output) or many",
    about:
        "get IMAGE NAME HOSTFILE, or get IMAGE NAME... --into DIR, or get IMAGE --all DIR: all\n\
            files but SYS and MAP. DIR is made if it is missing.\n\n\
            Writes whole sectors, unless --bytes gives the true length. A host file appears when\n\
            it is complete, or not at all; if one exists, none is written without --force. In DIR\n\
            only regular files are replaced: a link or a folder there is refused.\n\n\
            --text takes off the zeros at the end and makes line ends LF, --danish also makes the\n\
            codes of [ \\ ] { | } the letters Æ Ø Å æ ø å.",
    run: get,
};

fn put(given: &Given) -> Outcome {
    let which = Which::of(given, &FROM)?;
    let many = !matches!(which, Which::One(..));
    let files = host_files(given, which)?;
    let wording = Wording::of(given);
    let mut session = Session::to_change(given)?;
    let mut lines = String::new();
    for (name, path) in &files {
        let mut source = Source::open(path, wording)?;
        let blocks = put_file(given, &mut session, *name, &mut source)?;
        let (bytes, blocks) = (count(source.taken, "byte"), count(blocks, "block"));
        lines += &format!("{name}: {bytes} put into {blocks}\n");
    }
    if many {
        lines += &format!("{} put\n", count(files.len() as u64, "file"));
    }
    session.write_back()?;
    report(&lines);
    Ok(())
}

/// Puts a host file's bytes into a file; how many blocks it has.
fn put_file(given: &Given, session: &mut Session, name: Name, source: &mut Source) -> Outcome<u64> {
    let attributes = match given.flag("--replace") {
        true => emptied(given, session, name, source)?,
        false => entered(session, name)?,
    };
    open_area(session, name, Role::ExclusiveUser)?;
    let blocks = copy_in(session, name, source)?;
    close_area(session, name)?;
    // The unit refuses output only, and there was none.
    if blocks == 0 && attributes.contains(Attributes::WRITE_PROTECTED) {
        let what = format!("put {name}: the file is write protected: its words stay as they are");
        return Err(Failure::Usage(what));
    }
    Ok(blocks)
}

/// Creates a file's area process and makes this tool its user.
pub fn open_area(session: &mut Session, name: Name, role: Role) -> Outcome {
    session.call(Call::CreateArea, name, |unit| unit.create_area(name))?;
    session.call(Call::Reserve, name, |unit| unit.reserve(name, SENDER, role))
}

/// Removes the area process, which books the length.
pub fn close_area(session: &mut Session, name: Name) -> Outcome {
    session.call(Call::Release, name, |unit| unit.release(name, SENDER))?;
    session.call(Call::RemoveArea, name, |unit| unit.remove_area(name))
}

/// Enters a new file to which blocks can be appended; its attributes. SYS and MAP cannot be replaced
/// either.
fn entered(session: &mut Session, name: Name) -> Outcome<Attributes> {
    let attributes = Attributes::EXTENDABLE;
    let created = session.call(Call::Create, name, |unit| unit.create(name, 0, attributes));
    created.map_err(|failure| match failure {
        Failure::Refused(what, error @ Error::EntryExists, reason) if !is_own(name) => {
            Failure::Refused(
                format!("{what} (--replace replaces its words)"),
                error,
                reason,
            )
        }
        other => other,
    })?;
    Ok(attributes)
}

/// Gives an entered file a length from which all its blocks are going to be written: 0 if it
/// is extendable, else that of the source. Its attributes.
fn emptied(
    given: &Given,
    session: &mut Session,
    name: Name,
    source: &Source,
) -> Outcome<Attributes> {
    let current = match session.unit.look_up(name) {
        Err(Error::NoEntry) => return entered(session, name),
        looked_up => session.call(Call::LookUp, name, |_| looked_up)?,
    };
    let size = match (
        current.attributes().contains(Attributes::EXTENDABLE),
        source.bytes,
    ) {
        (true, _) => 0,
        (false, Some(bytes)) => room::sectors(name, bytes)?,
        (false, None) => {
            let what = format!("{name} is not extendable: its new length has to be known first");
            return Err(given.misused(what));
        }
    };
    let entry = Entry::for_change(&current).with_size(size);
    session.call(Call::Change, name, |unit| unit.change(name, &entry))?;
    Ok(current.attributes())
}

/// Outputs the source's blocks one after the other; how many.
fn copy_in(session: &mut Session, name: Name, source: &mut Source) -> Outcome<u64> {
    let mut progress = Progress::new(name.to_string(), source.blocks());
    let before = Kit::read(session.unit.image());
    let mut blocks = 0;
    while let Some(block) = source.next()? {
        let output = session.call(Call::Output, name, |unit| {
            unit.write_block(name, SENDER, &block)
        });
        output.map_err(|failure| room::counted(failure, source.blocks(), &before))?;
        blocks += 1;
        progress.advance();
    }
    Ok(blocks)
}

/// A host file that is read block by block.
struct Source {
    shown: String,
    reader: Box<dyn Read>,
    /// The length, where it is known before the end.
    bytes: Option<u64>,
    /// The bytes read so far.
    taken: u64,
}

impl Source {
    /// A host file's bytes as they are to stand on the unit.
    fn open(path: &Path, wording: Wording) -> Outcome<Source> {
        let source = Source::of(path)?;
        match wording {
            Wording::Bytes => Ok(source),
            Wording::Text | Wording::Danish => source.converted(wording),
        }
    }

    fn of(path: &Path) -> Outcome<Source> {
        let shown = shown(path);
        if path == Path::new("-") {
            let reader = Box::new(streams::input()?);
            return Ok(Source::new("standard input".into(), reader, None));
        }
        let file = streams::open(path)?;
        let metadata = file.metadata();
        let metadata = metadata.map_err(|error| Failure::host(path, error))?;
        let mut reader = BufReader::new(file);
        let bytes = match (metadata.is_file(), metadata.len()) {
            // A file of /proc says that it is empty, whatever it has.
            (true, 0) => {
                let begin = reader.fill_buf();
                let begin = begin.map_err(|error| Failure::host(path, error))?;
                begin.is_empty().then_some(0)
            }
            (true, bytes) => Some(bytes),
            (false, _) => None,
        };
        Ok(Source::new(shown, Box::new(reader), bytes))
    }

    fn new(shown: String, reader: Box<dyn Read>, bytes: Option<u64>) -> Source {
        Source {
            shown,
            reader,
            bytes,
            taken: 0,
        }
    }

    /// The source of a text, which is read whole.
    fn converted(mut self, wording: Wording) -> Outcome<Source> {
        let trouble = |what: String| Failure::Host(format!("{}: {what}", self.shown));
        let mut bytes = Vec::new();
        let mut reader = self.reader.by_ref().take(MOST_TEXT + 1);
        let read = reader.read_to_end(&mut bytes);
        read.map_err(|error| trouble(error.to_string()))?;
        if bytes.len() as u64 > MOST_TEXT {
            return Err(trouble("the text is longer than a unit".into()));
        }
        let text = wording.to_unit(bytes);
        let text = text.map_err(|stray| trouble(stray.to_string()))?;
        let length = text.len() as u64;
        let reader = Box::new(Cursor::new(text));
        Ok(Source::new(self.shown, reader, Some(length)))
    }

    fn blocks(&self) -> Option<u64> {
        self.bytes.map(|bytes| bytes.div_ceil(SECTOR_BYTES as u64))
    }

    /// The next block, filled up with zeros; none at the end.
    fn next(&mut self) -> Outcome<Option<Block>> {
        let trouble = |what: String| Failure::Host(format!("{}: {what}", self.shown));
        let mut bytes = Vec::with_capacity(SECTOR_BYTES);
        let read = self
            .reader
            .by_ref()
            .take(SECTOR_BYTES as u64)
            .read_to_end(&mut bytes);
        let read = read.map_err(|error| trouble(error.to_string()))?;
        self.taken += read as u64;
        if let Some(bytes) = self.bytes.filter(|bytes| *bytes != self.taken) {
            if read < SECTOR_BYTES {
                let (taken, bytes) = (count(self.taken, "byte"), bytes);
                let what = format!("{taken} could be read, and {bytes} were expected");
                return Err(trouble(what));
            }
        }
        bytes.resize(SECTOR_BYTES, 0);
        let words = words_of(&bytes);
        Ok((read > 0).then(|| std::array::from_fn(|word| words[word])))
    }
}

fn get(given: &Given) -> Outcome {
    if rescue::asked(given)? {
        return rescue::get(given);
    }
    match Which::of(given, &INTO)? {
        Which::One(name, path) => get_one(given, name, &path),
        Which::Named(names, folder) => get_many(given, &folder, Some(names)),
        Which::All(folder) => get_many(given, &folder, None),
    }
}

fn get_one(given: &Given, name: Name, path: &Path) -> Outcome {
    let wanted = given.value("--bytes", values::bytes)?;
    let mut session = Session::to_read(given)?;
    let whole = opened(&mut session, name)?;
    let bytes = wanted.unwrap_or(whole);
    if bytes > whole {
        return Err(given.misused(format!("--bytes {bytes}: {name} has only {whole}")));
    }
    if path == Path::new("-") {
        return print_bytes(&content(&mut session, name, bytes, Wording::of(given))?);
    }
    given.not_the_image(path)?;
    let file = Replacement::of(path, given.flag("--force"))?;
    let content = content(&mut session, name, bytes, Wording::of(given))?;
    let done = written(name, file, &content, path)?;
    report(&format!("{done}\n"));
    Ok(())
}

/// Gets files, all if no names are given, into a folder. All is read, and every host file that
/// exists found, before one is written.
fn get_many(given: &Given, folder: &Path, names: Option<Vec<Name>>) -> Outcome {
    if given.flag("--bytes") {
        return Err(given.misused("--bytes is for one file with its HOSTFILE".into()));
    }
    let mut session = Session::to_read(given)?;
    let names = match names {
        Some(names) => names,
        None => all_files(&mut session)?,
    };
    let wording = Wording::of(given);
    let contents = names.iter().map(|&name| {
        let bytes = opened(&mut session, name)?;
        let content = content(&mut session, name, bytes, wording)?;
        close_area(&mut session, name)?;
        Ok(content)
    });
    let contents: Vec<Vec<u8>> = contents.collect::<Outcome<_>>()?;
    let paths: Vec<PathBuf> = names.iter().map(|&name| beside(folder, name)).collect();
    paths
        .iter()
        .try_for_each(|path| may_be_written(given, path))?;
    let files = names.iter().zip(&contents).zip(&paths);
    fill(folder, names.len(), files, |((name, content), path)| {
        let file = Replacement::in_folder(path, given.flag("--force"))?;
        Ok((written(name, file, content, path)?, true))
    })
}

/// The names of all files, in the listing's order; SYS and MAP are the unit's own.
fn all_files(session: &mut Session) -> Outcome<Vec<Name>> {
    let what = format!("list of unit {}", session.unit.number());
    let listed = session.unit.list();
    let entries = listed.map_err(|error| session.unit.refused(what, error))?;
    let names = entries.iter().map(Entry::name);
    Ok(names.filter(|name| !is_own(*name)).collect())
}

/// Makes this tool a user of a file; how many bytes its blocks have.
fn opened(session: &mut Session, name: Name) -> Outcome<u64> {
    open_area(session, name, Role::Sharing)?;
    let area = session.unit.state().area(name);
    let length = area.map_or(0, |area| area.length);
    Ok(u64::from(length) * SECTOR_BYTES as u64)
}

/// So many bytes of a file as they are to stand on the host.
fn content(session: &mut Session, name: Name, bytes: u64, wording: Wording) -> Outcome<Vec<u8>> {
    let mut content = Vec::with_capacity(bytes as usize);
    copy_out(session, name, bytes, |part| content.extend(part))?;
    let text = wording.to_host(content);
    text.map_err(|stray| Failure::Host(format!("{name}: {stray}")))
}

/// Inputs the blocks of so many bytes one after the other.
fn copy_out(session: &mut Session, name: Name, bytes: u64, mut take: impl FnMut(&[u8])) -> Outcome {
    let sector = SECTOR_BYTES as u64;
    let mut progress = Progress::new(name.to_string(), Some(bytes.div_ceil(sector)));
    let mut rest = bytes;
    let mut block: Block = [0; 256];
    while rest > 0 {
        session.call(Call::Input, name, |unit| {
            unit.read_block(name, SENDER, &mut block)
        })?;
        let part = rest.min(sector);
        take(&bytes_of(&block)[..part as usize]);
        rest -= part;
        progress.advance();
    }
    Ok(())
}
