//! An image whose sectors 0 to 5 allow no access, and the calls on it: the only unsafe code.
//!
//! Sector 6 starts on a page of its own. The page before it allows neither reading nor writing,
//! and sectors 0 to 5 are its last bytes. The library is given the address of sector 0 and the
//! image's number of words, as always.

#![allow(unsafe_code)]

use std::ffi::{c_int, c_void};
use std::mem::size_of_val;
use std::{io, ptr, slice};

use reference::layout::{SECTOR, SYS_INDEX};
use ruzkemp::sys::{self, UnitAnswer, UnitMessage, UnitState};

/// Words of sectors 0 to 5.
pub const UNTOUCHED: usize = SYS_INDEX * SECTOR;

/// Bytes of a page on x86-64, which the library is made for.
const PAGE: usize = 4096;
/// Bytes of sectors 0 to 5.
const UNTOUCHED_BYTES: usize = 2 * UNTOUCHED;

// The numbers of Linux's <sys/mman.h>.
const PROT_NONE: c_int = 0;
const PROT_READ: c_int = 1;
const PROT_WRITE: c_int = 2;
const MAP_PRIVATE: c_int = 2;
const MAP_ANONYMOUS: c_int = 32;

extern "C" {
    fn mmap(
        at: *mut c_void,
        n: usize,
        prot: c_int,
        flags: c_int,
        fd: c_int,
        from: i64,
    ) -> *mut c_void;
    fn mprotect(at: *mut c_void, n: usize, prot: c_int) -> c_int;
    fn munmap(at: *mut c_void, n: usize) -> c_int;
}

/// An image whose sectors 0 to 5 allow no access.
pub struct GuardedImage {
    /// The page that allows no access; sector 6 starts behind it.
    pages: *mut c_void,
    /// The words of the image, those of sectors 0 to 5 counted.
    words: usize,
}

impl GuardedImage {
    /// An image with these words from sector 6 on; the words before have no place.
    pub fn new(words: &[u16]) -> GuardedImage {
        let accessible = words.get(UNTOUCHED..).unwrap_or_default();
        let bytes = PAGE + size_of_val(accessible);
        let (prot, flags) = (PROT_READ | PROT_WRITE, MAP_PRIVATE | MAP_ANONYMOUS);
        // SAFETY: a new mapping, at an address that the kernel chooses.
        let pages = unsafe { mmap(ptr::null_mut(), bytes, prot, flags, -1, 0) };
        let failed = || io::Error::last_os_error();
        assert!(pages as isize != -1, "mmap: {}", failed());
        let words = words.len();
        let image = GuardedImage { pages, words };
        // SAFETY: the mapping has as many words behind its first page, and nothing refers to it.
        let done = unsafe {
            let to = image.sector_6().cast_mut();
            ptr::copy_nonoverlapping(accessible.as_ptr(), to, accessible.len());
            mprotect(pages, PAGE, PROT_NONE)
        };
        assert!(done == 0, "mprotect: {}", failed());
        image
    }

    /// The words from sector 6 on.
    pub fn accessible(&self) -> &[u16] {
        // SAFETY: so many words of the mapping allow access, and they are borrowed with the image.
        unsafe { slice::from_raw_parts(self.sector_6(), self.words.saturating_sub(UNTOUCHED)) }
    }

    /// Whether image and state are a sound unit.
    pub fn sound(&self, state: &UnitState) -> bool {
        // SAFETY: the library reads within the image only, and keeps no pointer. Whether it leaves
        // sectors 0 to 5 alone is what is tested: if it does not, the process ends.
        unsafe { sys::ruzkemp_sound(self.sector_0(), self.words, *state) }
    }

    /// Carries out a call and answers it.
    pub fn perform(
        &mut self,
        state: &mut UnitState,
        lent: &mut [u16],
        message: UnitMessage,
    ) -> UnitAnswer {
        let (image, words) = (self.sector_0().cast_mut(), self.words);
        let (lent, lent_words) = (lent.as_mut_ptr(), lent.len());
        // SAFETY: as above; the three are borrowed mutably, so they do not overlap.
        unsafe { sys::ruzkemp_perform(state, image, words, lent, lent_words, message) }
    }

    /// Formats the unit and answers the result word.
    pub fn format(&mut self, state: &mut UnitState, record: &[u16], bytes: u16) -> u16 {
        let (image, words) = (self.sector_0().cast_mut(), self.words);
        let (record, record_words) = (record.as_ptr(), record.len());
        // SAFETY: as above; the record is only read.
        unsafe { sys::ruzkemp_format(state, image, words, record, record_words, bytes) }
    }

    fn sector_6(&self) -> *const u16 {
        self.pages.wrapping_byte_add(PAGE).cast()
    }

    fn sector_0(&self) -> *const u16 {
        self.sector_6().wrapping_byte_sub(UNTOUCHED_BYTES)
    }
}

impl Drop for GuardedImage {
    fn drop(&mut self) {
        let bytes = PAGE + size_of_val(self.accessible());
        // SAFETY: the mapping is the image's own, and nothing refers to it any more.
        let done = unsafe { munmap(self.pages, bytes) };
        assert!(done == 0, "munmap: {}", io::Error::last_os_error());
    }
}

#[cfg(test)]
mod tests {
    use super::*;
    use std::fs;

    /// What the kernel says of a word's page: "rw-p" for one that may be read and written.
    fn access(word: *const u16) -> String {
        let maps = fs::read_to_string("/proc/self/maps").unwrap();
        let address = |text: &str| usize::from_str_radix(text, 16).unwrap();
        let holds = |line: &&str| {
            let (range, _) = line.split_once(' ').unwrap();
            let (from, to) = range.split_once('-').unwrap();
            (address(from)..address(to)).contains(&word.addr())
        };
        let line = maps.lines().find(holds).expect("a page that is mapped");
        line.split(' ').nth(1).unwrap().into()
    }

    #[test]
    fn sectors_0_to_5_allow_no_access_and_the_rest_does() {
        for sectors in [6, 7, 14, 20, 300] {
            let words: Vec<u16> = (0..SECTOR * sectors).map(|word| word as u16).collect();
            let image = GuardedImage::new(&words);
            assert_eq!(image.accessible(), &words[UNTOUCHED..]);
            for word in (0..UNTOUCHED).step_by(SECTOR).chain([UNTOUCHED - 1]) {
                assert_eq!(access(image.sector_0().wrapping_add(word)), "---p");
            }
            for word in (UNTOUCHED..words.len()).step_by(SECTOR) {
                assert_eq!(access(image.sector_0().wrapping_add(word)), "rw-p");
            }
        }
    }

    #[test]
    fn an_image_that_ends_before_sector_6_has_no_words_to_touch() {
        for words in [0, 1, UNTOUCHED - 1, UNTOUCHED] {
            let image = GuardedImage::new(&vec![1; words]);
            assert!(image.accessible().is_empty());
            assert_eq!(access(image.sector_0()), "---p");
        }
    }
}
