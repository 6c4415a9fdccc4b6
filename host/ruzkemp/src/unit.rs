//! A unit: an image with its state.

use crate::boundary;
use crate::entry::{Attributes, Entry, ENTRY};
use crate::error::{Error, Result};
use crate::kit::{Description, Record, SECTOR};
use crate::message::{Answer, Message, Operation};
use crate::name::{Name, NameWords};
use crate::state::{Role, State};
use crate::sys::UnitMessage;

/// The byte count of a transput.
const BLOCK_BYTES: u16 = 512;
/// The byte count of Format's record.
const RECORD_BYTES: u16 = 18;
/// The byte count of Get Unit Description.
const DESCRIPTION_BYTES: u16 = 32;

/// A block of a file: the words of one sector.
pub type Block = [u16; SECTOR];

/// A unit: an image, owned (`Vec<u16>`) or borrowed (`&mut [u16]`), with its state.
///
/// Every call but Format and Init asks anew whether the image is sound with the state, so the
/// image may come from anywhere. A call that is refused changes no word of image, state and lent
/// words, but for the sender's position where [`position`](Unit::position) and the methods ending
/// in `_at` say so.
#[derive(Clone, PartialEq, Eq, Debug)]
pub struct Unit<I> {
    image: I,
    state: State,
}

/// Whether image and state are a sound unit.
pub fn is_sound(image: &[u16], state: &State) -> bool {
    boundary::sound(image, state.raw())
}

impl Unit<Vec<u16>> {
    /// A new unit, formatted, not initialized; its other words are zero.
    pub fn formatted(record: &Record) -> Result<Unit<Vec<u16>>> {
        let mut unit = Unit::new(vec![0; record.image_words()], record.unit);
        unit.format(record)?;
        Ok(unit)
    }
}

impl<I: AsRef<[u16]> + AsMut<[u16]>> Unit<I> {
    /// A unit of this number with nothing open, not initialized.
    pub fn new(image: I, number: u16) -> Unit<I> {
        Unit::with_state(image, State::new(number))
    }

    /// A unit with a state that was kept.
    pub fn with_state(image: I, state: State) -> Unit<I> {
        Unit { image, state }
    }

    /// The unit's number.
    pub fn number(&self) -> u16 {
        self.state.unit()
    }

    /// The image.
    pub fn image(&self) -> &[u16] {
        self.image.as_ref()
    }

    /// The image, to be written past the unit: the next call judges what stands there.
    pub fn image_mut(&mut self) -> &mut [u16] {
        self.image.as_mut()
    }

    /// The image, the state dropped.
    pub fn into_image(self) -> I {
        self.image
    }

    /// The state.
    pub fn state(&self) -> &State {
        &self.state
    }

    /// Image and state.
    pub fn into_parts(self) -> (I, State) {
        (self.image, self.state)
    }

    /// Whether image and state are a sound unit.
    pub fn is_sound(&self) -> bool {
        is_sound(self.image(), &self.state)
    }

    /// Carries out any call with any lent words, and answers it.
    pub fn perform(&mut self, message: &Message, lent: &mut [u16]) -> Answer {
        self.perform_raw(message.into(), lent)
    }

    /// Carries out a message of any words, whose number may be no call's: that is answered FFFFh,
    /// and nothing changes.
    pub fn perform_raw(&mut self, message: UnitMessage, lent: &mut [u16]) -> Answer {
        boundary::perform(self.state.raw_mut(), self.image.as_mut(), lent, message).into()
    }

    /// Format: writes an empty catalog and leaves the unit uninitialized. The record's unit must
    /// be this one, and the image must have 256 words for each of its sectors.
    pub fn format(&mut self, record: &Record) -> Result<()> {
        Error::check(self.format_words(&record.words(), RECORD_BYTES))
    }

    /// Format with any record and any byte count; answers the result word.
    pub fn format_words(&mut self, record: &[u16], bytes: u16) -> u16 {
        boundary::format(self.state.raw_mut(), self.image.as_mut(), record, bytes)
    }

    /// Init: accepts the image if it is sound and no area process is open.
    pub fn init(&mut self) -> Result<()> {
        let unit = self.number();
        self.send(Message::Init { unit }, &mut [])?;
        Ok(())
    }

    /// Set Entry: enters a new file with the size, attributes (of [`Attributes::SETTABLE`]), optional
    /// and tail of an entry, as [`Entry::for_set`] makes one.
    pub fn set(&mut self, name: Name, entry: &Entry) -> Result<()> {
        let name = self.named(name);
        self.send(Message::Set { name }, &mut entry.words())?;
        Ok(())
    }

    /// Create Entry: enters a new file of so many sectors, all zero, with attributes of
    /// [`Attributes::SETTABLE`].
    ///
    /// It gets the lowest stretch of as many neighbouring free slices as it needs; if there is none,
    /// slices one by one, the next one where it is free and else the lowest. So does a file of
    /// [`set`](Unit::set), and one without slices that gets a length.
    pub fn create(&mut self, name: Name, size: u16, attributes: Attributes) -> Result<()> {
        let name = self.named(name);
        let attributes = attributes.bits();
        let message = Message::Create {
            name,
            size,
            attributes,
        };
        self.send(message, &mut [])?;
        Ok(())
    }

    /// Look-up Entry: the booked entry of a file.
    pub fn look_up(&mut self, name: Name) -> Result<Entry> {
        let name = self.named(name);
        let mut words = [0; ENTRY];
        self.send(Message::LookUp { name }, &mut words)?;
        Ok(Entry::from_words(words))
    }

    /// Change Entry: gives a file the name, attributes (of [`Attributes::SETTABLE`], unless they are
    /// kept), length, optional and tail of an entry, as [`Entry::for_change`] makes one.
    ///
    /// The entry is sent as it is, and words of it can have no effect though the call is obeyed. Which
    /// words keep the file's name, attributes or length, [`Entry::with_name`],
    /// [`Entry::with_attributes`] and [`Entry::with_size`] say. A file that is
    /// [`PERMANENT`](Attributes::PERMANENT) before the call keeps optional and tail, even where the
    /// same call takes that attribute away; a [`look_up`](Unit::look_up) tells what stands.
    pub fn change(&mut self, name: Name, entry: &Entry) -> Result<()> {
        let name = self.named(name);
        self.send(Message::Change { name }, &mut entry.words())?;
        Ok(())
    }

    /// Gives a file another name and keeps all else: a Look-up, then a Change. A name that differs in
    /// case only is another.
    ///
    /// A name that Change would read as 'keep' ([`Entry::with_name`]) is refused with
    /// [`CatalogParameter`](crate::Error::CatalogParameter), as any other illegal name is.
    pub fn rename(&mut self, name: Name, new: Name) -> Result<()> {
        let current = self.look_up(name)?;
        let entry = Entry::for_change(&current).with_name(new);
        if entry.keeps_name() {
            return Err(Error::CatalogParameter);
        }
        self.change(name, &entry)
    }

    /// Gives a file another length and keeps all else: a Look-up, then a Change.
    ///
    /// A length above 32,767, which Change would read as 'keep' ([`Entry::with_size`]), is refused
    /// with [`CatalogParameter`](crate::Error::CatalogParameter), as [`create`](Unit::create) refuses
    /// it.
    pub fn resize(&mut self, name: Name, size: u16) -> Result<()> {
        let current = self.look_up(name)?;
        let entry = Entry::for_change(&current).with_size(size);
        if entry.keeps_size() {
            return Err(Error::CatalogParameter);
        }
        self.change(name, &entry)
    }

    /// Remove Entry.
    pub fn remove(&mut self, name: Name) -> Result<()> {
        let name = self.named(name);
        self.send(Message::Remove { name }, &mut [])?;
        Ok(())
    }

    /// Create Area Process: nothing happens if it is open.
    pub fn create_area(&mut self, name: Name) -> Result<()> {
        let name = self.named(name);
        self.send(Message::CreateArea { name }, &mut [])?;
        Ok(())
    }

    /// Remove Area Process: books the file's length and slices. Nothing happens if there is none
    /// or if it has users.
    pub fn remove_area(&mut self, name: Name) -> Result<()> {
        let name = self.named(name);
        self.send(Message::RemoveArea { name }, &mut [])?;
        Ok(())
    }

    /// Reserve: makes the sender a user in this role, or adds 1 to its open count.
    pub fn reserve(&mut self, name: Name, sender: u16, role: Role) -> Result<()> {
        self.tell(name, sender, Operation::Reserve(role.count()), &mut [])?;
        Ok(())
    }

    /// Release: takes 1 from the sender's open count; at 0 it is no user any more.
    pub fn release(&mut self, name: Name, sender: u16) -> Result<()> {
        self.tell(name, sender, Operation::Reserve(0), &mut [])?;
        Ok(())
    }

    /// Position: sets the sender's position. A negative one is refused and becomes 0, one past
    /// the length is refused and becomes the length.
    pub fn position(&mut self, name: Name, sender: u16, block: u16) -> Result<()> {
        self.tell(name, sender, Operation::Position(block), &mut [])?;
        Ok(())
    }

    /// Sense: whether the area process would hear the sender.
    pub fn sense(&mut self, name: Name, sender: u16) -> Result<()> {
        self.tell(name, sender, Operation::Sense, &mut [])?;
        Ok(())
    }

    /// Input at the sender's position (1): reads the block into `words`, moves the position one
    /// further and hands back the block's number.
    ///
    /// At the end of the file it is refused, and the position stays: with
    /// [`AreaIllegal`](crate::Error::AreaIllegal) where the file is of fixed length, with
    /// [`NotUserOrPastEnd`](crate::Error::NotUserOrPastEnd) where it is extendable.
    pub fn read_block(&mut self, name: Name, sender: u16, words: &mut Block) -> Result<u16> {
        self.transput(name, sender, 1, 0, words)
    }

    /// Input at a block (5): [`position`](Unit::position), then
    /// [`read_block`](Unit::read_block), with the refusals of both.
    pub fn read_block_at(
        &mut self,
        name: Name,
        sender: u16,
        block: u16,
        words: &mut Block,
    ) -> Result<u16> {
        self.transput(name, sender, 5, block, words)
    }

    /// Output at the sender's position (3): writes the block, or appends it at the length, moves
    /// the position one further and hands back the block's number.
    pub fn write_block(&mut self, name: Name, sender: u16, words: &Block) -> Result<u16> {
        self.transput(name, sender, 3, 0, &mut { *words })
    }

    /// Output at a block (7): Position, then output there.
    pub fn write_block_at(
        &mut self,
        name: Name,
        sender: u16,
        block: u16,
        words: &Block,
    ) -> Result<u16> {
        self.transput(name, sender, 7, block, &mut { *words })
    }

    /// Output at the sender's position with a read after it (19): answers as
    /// [`write_block`](Unit::write_block) does.
    pub fn write_block_checked(&mut self, name: Name, sender: u16, words: &Block) -> Result<u16> {
        self.transput(name, sender, 19, 0, &mut { *words })
    }

    /// Get Unit Description.
    pub fn describe(&mut self) -> Result<Description> {
        let unit = self.number();
        let bytes = DESCRIPTION_BYTES;
        let mut words = [0; 16];
        self.send(Message::UnitDescription { unit, bytes }, &mut words)?;
        Ok(Description::from_words(&words))
    }

    /// The listing: every entry once, in the order of the names, SYS and MAP in their places.
    ///
    /// Names are compared by their words, the first word first and words as unsigned numbers,
    /// which is the order of [`Name`]: the end of a name comes before digits, digits before
    /// capitals, capitals before small letters. The library hands the entries back so; nothing is
    /// sorted here.
    ///
    /// ```
    /// # use ruzkemp::{Attributes, Name, Record, Unit};
    /// # fn main() -> Result<(), Box<dyn std::error::Error>> {
    /// let mut unit = Unit::formatted(&Record::new(0, 1, 2, 20, 10))?;
    /// unit.init()?;
    /// for name in ["TILL2", "Pass", "PASS", "TILL1"] {
    ///     unit.create(Name::new(name)?, 0, Attributes::NONE)?;
    /// }
    /// let entries = unit.list()?;
    /// let names: Vec<String> = entries.iter().map(|entry| entry.name().to_string()).collect();
    /// assert_eq!(names, ["MAP", "PASS", "Pass", "SYS", "TILL1", "TILL2"]);
    /// # Ok(())
    /// # }
    /// ```
    pub fn list(&mut self) -> Result<Vec<Entry>> {
        let unit = self.number();
        // Every entry has a place of its own in the image, so that as many words are enough.
        let mut words = vec![0; self.image().len()];
        let answer = self.send(Message::Listing { unit }, &mut words)?;
        let listed = words.chunks_exact(ENTRY).take(answer.entries as usize);
        let entry = |words: &[u16]| Entry::from_words(std::array::from_fn(|word| words[word]));
        Ok(listed.map(entry).collect())
    }

    /// A name with this unit's number, as messages have it.
    fn named(&self, name: Name) -> NameWords {
        name.on_unit(self.number())
    }

    /// Carries out a call and hands back its answer, or the refusal.
    fn send(&mut self, message: Message, lent: &mut [u16]) -> Result<Answer> {
        self.perform(&message, lent).checked()
    }

    /// Sends a message to an area process.
    fn tell(
        &mut self,
        name: Name,
        sender: u16,
        operation: Operation,
        lent: &mut [u16],
    ) -> Result<Answer> {
        let name = self.named(name);
        let message = Message::AreaMessage {
            name,
            sender,
            operation,
        };
        self.send(message, lent)
    }

    /// Reads or writes a block and hands back its number.
    fn transput(
        &mut self,
        name: Name,
        sender: u16,
        operation: u16,
        block: u16,
        words: &mut Block,
    ) -> Result<u16> {
        let bytes = BLOCK_BYTES;
        let operation = Operation::Transput {
            operation,
            bytes,
            block,
        };
        Ok(self.tell(name, sender, operation, words)?.block)
    }
}
