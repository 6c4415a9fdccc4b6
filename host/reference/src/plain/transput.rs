//! Transput: input and output of one sector.

use super::areas::Users;
use super::slices::runs;
use super::{ask, Block, Outcome, Plain, Refused};
use crate::types::{Answer, Role};

/// A transput's operation number, byte count and block.
#[derive(Clone, Copy)]
pub(super) struct Transput {
    pub(super) operation: u16,
    pub(super) bytes: u16,
    pub(super) block: u16,
}

impl Transput {
    fn is_output(self) -> bool {
        ![1, 5].contains(&self.operation)
    }

    /// Whether Position comes first.
    fn positions(self) -> bool {
        [5, 7].contains(&self.operation)
    }
}

impl Plain {
    pub(super) fn transput(&mut self, users: Users, asked: Transput, lent: &mut [u16]) -> Outcome {
        let mut own = users.sender()?;
        let at = own.position;
        self.may_transput(&users, asked, lent)
            .map_err(|Refused(word, _)| Refused(word, at))?;
        let moved = if asked.positions() {
            self.move_to(&users.area, &mut own, asked.block)
        } else {
            Ok(())
        };
        let at = own.position;
        let done = moved.and_then(|()| {
            if asked.is_output() {
                self.output(&users.area, at, lent)
            } else {
                self.input(&users.area, at, lent)
            }
        });
        if done.is_ok() {
            own.position += 1;
        }
        self.put_users(users, Some(own));
        done.map_err(|Refused(word, _)| Refused(word, at))?;
        Ok(Answer {
            bytes: 512,
            block: at as u16,
            ..Answer::default()
        })
    }

    /// The questions before Position.
    fn may_transput(&self, users: &Users, asked: Transput, lent: &[u16]) -> Result<(), Refused> {
        ask(asked.bytes == 512 && lent.len() >= 256, 0x0880)?;
        if asked.is_output() {
            ask(!users.another_is(Role::ExclusiveWriter), 0x0A00)?;
            let protected = self.files[&users.area].attributes & 8 != 0;
            ask(!protected, 0x0C00)?;
        }
        Ok(())
    }

    /// Input: below the length? A file of fixed length has a word of its own for its end.
    fn input(&self, name: &str, at: usize, lent: &mut [u16]) -> Result<(), Refused> {
        let file = &self.files[name];
        let is_fixed = file.attributes & 1 == 0;
        let end = if is_fixed { 0x0A00 } else { 0x0810 };
        let sector = file.sectors.get(at).ok_or(Refused(end, 0))?;
        lent[..256].copy_from_slice(sector);
        Ok(())
    }

    fn output(&mut self, name: &str, at: usize, lent: &[u16]) -> Result<(), Refused> {
        let mut words: Block = [0; 256];
        words.copy_from_slice(&lent[..256]);
        let file = self.files.get_mut(name).expect("it stands");
        match file.sectors.get_mut(at) {
            Some(sector) => *sector = words,
            None => self.append(name, words)?,
        }
        Ok(())
    }

    /// Appending: extendable? where a slice is needed: one free? at most 127 stretches with it?
    fn append(&mut self, name: &str, words: Block) -> Result<(), Refused> {
        let file = &self.files[name];
        ask(file.attributes & 1 != 0, 0x0A00)?;
        let mut list = file.slices.clone();
        let wanted = self.slices_for(file.sectors.len() + 1);
        if wanted > list.len() {
            let mut free = self.free();
            ask(!free.is_empty(), 0x0900)?;
            Plain::fill_file(&mut free, &mut list, wanted);
            ask(runs(&list) <= 127, 0x0808)?;
        }
        let file = self.files.get_mut(name).expect("it stands");
        file.slices = list;
        file.sectors.push(words);
        Ok(())
    }
}
