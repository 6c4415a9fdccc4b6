//! Reasons of Format.

use super::{areas_open, few_lent, unknown, Reason};
use crate::layout::*;
use crate::text::count;
use crate::types::State;
use crate::unit::{explain_format, Question};

/// The reason for which Format would be refused; none if it would be obeyed. Nothing changes.
pub fn format_reason(image: &[u16], state: &State, bytes: u16, record: &[u16]) -> Option<Reason> {
    let (mut image_after, mut state_after) = (image.to_vec(), *state);
    let outcome = explain_format(&mut image_after, &mut state_after, bytes, record);
    let question = outcome.err()?;
    let text = match question {
        Question::FormatRoom if bytes != 18 => format!("the byte count is not 18: {bytes}"),
        Question::FormatRoom => few_lent(9, record),
        _ => illegal(image, state, record),
    };
    Some(Reason { question, text })
}

/// The record has nine words.
fn illegal(image: &[u16], state: &State, record: &[u16]) -> String {
    if let Some(text) = unknown(record[0], state) {
        return text;
    }
    if state.areas.iter().any(|area| area.live) {
        return areas_open(state);
    }
    let kit = Kit::from_words(&record[1..7]);
    if let Err(fault) = kit.limits() {
        return past_limit(&kit, fault);
    }
    let data = kit.n - kit.f;
    if kit.free != data {
        let free = kit.free;
        return format!("the free sectors are {free} and have to be N - F = {data}");
    }
    format!(
        "the image does not have 256 words for each sector: it has {}, and N is {}",
        count(image.len() / SECTOR, "sector"),
        kit.n
    )
}

/// A limit that the kit does not keep.
fn past_limit(kit: &Kit, fault: KitFault) -> String {
    let Kit {
        h, s, n, f, top, ..
    } = *kit;
    match fault {
        KitFault::SysSize => format!("H is {h} and has to be 1 to 64"),
        KitFault::SliceSize => format!("s is {s} and has to be 2 to 64"),
        KitFault::FirstSector => format!("F is {f} and has to be at least 10"),
        KitFault::Sectors => format!("N is {n} and has to be above F = {f} and at most 32767"),
        KitFault::Remainder => format!("s = {s} does not divide N - F = {}", n - f),
        KitFault::TooManySlices => {
            format!(
                "there would be {} slices, and 4096 are the most",
                kit.slices()
            )
        }
        KitFault::TooFewSlices => {
            let (slices, needed) = (count(kit.slices(), "slice"), h.div_ceil(s));
            format!("there would be {slices}, and SYS needs {needed}")
        }
        KitFault::Top => format!("the top is {top} and has to be N = {n}"),
    }
}
