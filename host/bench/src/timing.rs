//! Times of functions, and the words that every call has to read.

use std::ops::Range;
use std::time::Instant;

use reference::generate::Shape;
use reference::layout::{ENTRY, MAP_SECTOR, SECTOR, SYS_INDEX};

/// A timing repeats the function for about so many microseconds.
const MICROSECONDS: f64 = 300.0;

/// The fastest time of a function so far, in microseconds.
#[derive(Clone, Copy)]
pub struct Fastest(pub f64);

impl Fastest {
    /// Nothing timed yet.
    pub const NONE: Fastest = Fastest(f64::INFINITY);

    /// Times a function, twice in a row, so that the second time is warm; answers the faster one.
    pub fn measure(&mut self, mut function: impl FnMut()) -> f64 {
        let mut faster = f64::INFINITY;
        for _ in 0..2 {
            let repeats = (MICROSECONDS / self.0).clamp(1.0, 1_000.0) as usize;
            faster = faster.min(timed(&mut function, repeats));
            self.0 = self.0.min(faster);
        }
        faster
    }
}

fn timed(mut function: impl FnMut(), repeats: usize) -> f64 {
    let start = Instant::now();
    for _ in 0..repeats {
        function();
    }
    start.elapsed().as_secs_f64() * 1e6 / repeats as f64
}

/// The parts of an image that every soundness check has to read: SYS's sectors and the used words
/// of each index block.
pub fn needed(image: &[u16], shape: &Shape) -> Vec<Range<usize>> {
    let index = |sector: usize| {
        let from = sector * SECTOR;
        from..from + 1 + 2 * image[from] as usize
    };
    let mut sys = Vec::new();
    let mut files = Vec::new();
    let mut left = shape.h * shape.layers;
    for pair in image[index(SYS_INDEX)][1..].chunks_exact(2) {
        let sectors = left.min(pair[0] as usize);
        let from = pair[1] as usize * SECTOR;
        let stretch = from..from + sectors * SECTOR;
        let entries = image[stretch.clone()].chunks_exact(ENTRY);
        let with_index = entries.filter(|entry| is_file(entry));
        files.extend(with_index.map(|entry| index(entry[8] as usize)));
        sys.push(stretch);
        left -= sectors;
    }
    [sys, vec![index(SYS_INDEX)], files].concat()
}

/// Whether an entry is that of an ordinary file with slices.
pub fn is_file(entry: &[u16]) -> bool {
    entry[8] as usize > MAP_SECTOR
}

/// Reads parts of an image once.
pub fn read(image: &[u16], parts: &[Range<usize>]) -> u16 {
    let mut all = 0;
    for part in parts {
        for &word in &image[part.clone()] {
            all |= word;
        }
    }
    all
}

/// Whether a target is met, in a word.
pub fn verdict(met: bool) -> &'static str {
    if met {
        "met"
    } else {
        "MISSED"
    }
}
