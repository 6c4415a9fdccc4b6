//! The calls to C, over Rust's slices: the only unsafe code.

#![allow(unsafe_code)]

use crate::sys::{self, UnitAnswer, UnitMessage, UnitState};

/// Whether image and state are a sound unit.
pub fn sound(image: &[u16], state: &UnitState) -> bool {
    // SAFETY: the function only reads, within the words lent, and keeps no pointer.
    unsafe { sys::ruzkemp_sound(image.as_ptr(), image.len(), *state) }
}

/// Carries out a call and answers it.
pub fn perform(
    state: &mut UnitState,
    image: &mut [u16],
    lent: &mut [u16],
    message: UnitMessage,
) -> UnitAnswer {
    // SAFETY: the three are borrowed mutably, so they are valid and overlap nowhere; the function
    // reads and writes within them and keeps no pointer.
    unsafe {
        sys::ruzkemp_perform(
            state,
            image.as_mut_ptr(),
            image.len(),
            lent.as_mut_ptr(),
            lent.len(),
            message,
        )
    }
}

/// Formats a unit and answers the result word.
pub fn format(state: &mut UnitState, image: &mut [u16], record: &[u16], bytes: u16) -> u16 {
    // SAFETY: state and image are borrowed mutably, the record is borrowed, so they are valid and
    // overlap nowhere; the function writes within state and image only and keeps no pointer.
    unsafe {
        sys::ruzkemp_format(
            state,
            image.as_mut_ptr(),
            image.len(),
            record.as_ptr(),
            record.len(),
            bytes,
        )
    }
}
