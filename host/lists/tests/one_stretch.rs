//! A side that takes slices otherwise than R-6 says is found, by the random lists and by the stored list
//! of new files in one stretch (02, R-6).

mod common;

use std::collections::BTreeSet;

use common::{answer, is_found, is_right, Own, Putting, RIGHT};
use lists::{Second, Side};
use reference::generate::Unit;
use reference::layout::{stretches, KIT, SECTOR, STRETCHES};
use reference::plain::{image_after, File, Plain};
use reference::raw::words_of;
use reference::Question::*;
use reference::{Answer, Message};
use ruzkemp::sys::call::*;

/// The stored list of new files in one stretch.
const LIST: &str = include_str!("../stored/one-stretch.list");

/// The calls that take several slices.
const SEVERAL: [u16; 3] = [SET, CREATE, CHANGE];

/// [`is_found`] of a side that only puts messages otherwise.
fn is_found_put(put: Putting, calls: &[u16], line: &str) {
    is_found(LIST, Own { put, ..RIGHT }, calls, line);
}

/// The longest stretches of free slices: first slice and number.
type Parts = [(usize, usize)];
/// Where among them a stretch of so many slices begins, if it is found.
type Seeking = fn(&Parts, usize) -> Option<usize>;

/// The slices that an accepted message takes for a file, and for SYS before it.
struct Taken {
    call: u16,
    before: Plain,
    after: Plain,
    /// The file's name after the message.
    name: String,
    /// What it had before.
    held: Vec<usize>,
    length: usize,
}

/// The slices of SYS and of the file after the message, as a side chooses them.
struct Chosen {
    sys: Vec<usize>,
    file: Vec<usize>,
}

impl Taken {
    /// What a message took between two units, if it took slices.
    fn of(message: &Message, before: &Unit, after: &Unit) -> Option<Taken> {
        let free = |unit: &Unit| unit.image[SECTOR * KIT + 3];
        if after.image.len() < SECTOR * 10 || free(after) >= free(before) {
            return None;
        }
        let call = words_of(message, &[0; 12])[0];
        let before = Plain::read(&before.image, &before.state).ok()?;
        let after = Plain::read(&after.image, &after.state).ok()?;
        let only_in = |one: &Plain, other: &Plain| {
            let mut names = one.files.keys().cloned();
            names.find(|name| !other.files.contains_key(name))
        };
        let (gone, come) = (only_in(&before, &after), only_in(&after, &before));
        let differs = |name: &&String| {
            let held = before.files.get(*name).map(|file| &file.slices);
            held != after.files.get(*name).map(|file| &file.slices)
        };
        let name = come.or_else(|| after.files.keys().find(differs).cloned())?;
        let old: Option<&File> = before.files.get(gone.as_ref().unwrap_or(&name));
        Some(Taken {
            call,
            held: old.map_or(vec![], |file| file.slices.clone()),
            length: old.map_or(0, |file| file.sectors.len()),
            before,
            after,
            name,
        })
    }

    /// The slices as they are to be taken.
    fn right(&self) -> Chosen {
        Chosen {
            sys: self.after.sys.clone(),
            file: self.after.files[&self.name].slices.clone(),
        }
    }

    /// How many slices the file has after the message.
    fn wanted(&self) -> usize {
        self.after.files[&self.name].slices.len()
    }

    /// Whether the file has none before and takes some.
    fn is_new(&self) -> bool {
        self.held.is_empty() && self.wanted() > 0
    }

    /// What is free once SYS has taken.
    fn left(&self) -> BTreeSet<usize> {
        let sys: BTreeSet<usize> = self.after.sys.iter().copied().collect();
        &self.before.free() - &sys
    }

    /// The slices of a new file by where a stretch of so many is found among the free ones, else by
    /// the old choice; all else as it is to be.
    fn new_by(&self, seek: Seeking) -> Chosen {
        let mut chosen = self.right();
        if self.is_new() {
            let free = self.left();
            let first = seek(&parts(&free), self.wanted());
            let stretch = first.map_or(vec![], |first| neighbours(first, self.wanted()));
            chosen.file = one_by_one(free, stretch, self.wanted());
        }
        chosen
    }
}

/// The longest stretches of these free slices.
fn parts(free: &BTreeSet<usize>) -> Vec<(usize, usize)> {
    stretches(&free.iter().copied().collect::<Vec<usize>>())
}

/// So many slices from one on.
fn neighbours(first: usize, number: usize) -> Vec<usize> {
    (first..first + number).collect()
}

/// The old choice: a file that has these slices takes one by one until it has as many as wanted.
fn one_by_one(mut free: BTreeSet<usize>, mut slices: Vec<usize>, wanted: usize) -> Vec<usize> {
    for slice in &slices {
        free.remove(slice);
    }
    while slices.len() < wanted {
        let next = slices.last().map(|last| last + 1);
        let lowest = free.iter().next().copied();
        let slice = next.filter(|next| free.contains(next)).or(lowest);
        let slice = slice.expect("so many are free");
        free.remove(&slice);
        slices.push(slice);
    }
    slices
}

/// Where the lowest stretch of so many begins.
fn lowest(parts: &Parts, number: usize) -> Option<usize> {
    let mut parts = parts.iter();
    parts
        .find(|(_, length)| *length >= number)
        .map(|(first, _)| *first)
}

/// Puts a message, and takes slices as a side chooses them where it is accepted; where that makes too
/// many stretches, it is refused.
fn put_choosing(
    second: &mut Second,
    message: &Message,
    lent: &mut [u16],
    choose: fn(&Taken) -> Chosen,
) -> Answer {
    let before = second.current().clone();
    let answered = second.perform(message, lent);
    let after = second.current().clone();
    let Some(taken) = Taken::of(message, &before, &after).filter(|_| answered.result == 0) else {
        return answered;
    };
    let Chosen { sys, file } = choose(&taken);
    if [&sys, &file]
        .iter()
        .any(|list| stretches(list).len() > STRETCHES)
    {
        second.set(&before);
        return answer(FewStretches.word());
    }
    let mut other = taken.after.clone();
    other.sys = sys;
    if let Some(entered) = other.files.get_mut(&taken.name) {
        entered.slices = file;
    }
    if other != taken.after {
        let (image, state) = (
            image_after(&before.image, &taken.before, &other),
            after.state,
        );
        second.set(&Unit { image, state });
    }
    answered
}

/// Puts a message, and refuses it with a word where it is accepted and takes slices of some kind.
fn put_refusing(
    second: &mut Second,
    message: &Message,
    lent: &mut [u16],
    word: u16,
    meant: fn(&Taken) -> bool,
) -> Answer {
    let before = second.current().clone();
    let answered = second.perform(message, lent);
    let taken = Taken::of(message, &before, second.current()).filter(|_| answered.result == 0);
    if taken.is_some_and(|taken| taken.call != AREA_MESSAGE && meant(&taken)) {
        second.set(&before);
        return answer(word);
    }
    answered
}

#[test]
fn slices_chosen_as_they_are_to_be_are_right() {
    let put: Putting =
        |second, message, lent| put_choosing(second, message, lent, |taken| taken.new_by(lowest));
    is_right(|| Own { put, ..RIGHT }, LIST);
}

/// 01's choice for every file, or for those of one call.
#[test]
fn the_old_choice_is_found() {
    let put: Putting = |second, message, lent| {
        put_choosing(second, message, lent, |taken| taken.new_by(|_, _| None))
    };
    is_found_put(put, &SEVERAL, "create THREE 4 0001h -> 0000h");
    let line = "create THREE 4 0001h -> 0000h";
    is_found_put(put_one_as_before::<CREATE>, &[CREATE], line);
    let line = "set THREE lent 3*9 1 2 3 0001h 2*9 5 6*7 -> 0000h";
    is_found_put(put_one_as_before::<SET>, &[SET], line);
    let line = "change BARE lent 6*0 FFFFh 2*0 4 6*0 -> 0000h";
    is_found_put(put_one_as_before::<CHANGE>, &[CHANGE], line);
}

/// Keeps the old choice for the messages of one call.
fn put_one_as_before<const CALL: u16>(
    second: &mut Second,
    message: &Message,
    lent: &mut [u16],
) -> Answer {
    put_choosing(second, message, lent, |taken| {
        if taken.call == CALL {
            taken.new_by(|_, _| None)
        } else {
            taken.right()
        }
    })
}

#[test]
fn the_highest_stretch_is_found() {
    let put: Putting = |second, message, lent| {
        put_choosing(second, message, lent, |taken| {
            taken.new_by(|parts, number| {
                let mut parts = parts.iter();
                let part = parts.rfind(|(_, length)| *length >= number);
                part.map(|(first, length)| first + length - number)
            })
        })
    };
    let calls = [SET, CREATE, CHANGE, AREA_MESSAGE];
    is_found_put(put, &calls, "create ONE 1 0001h -> 0000h");
}

/// Only a stretch that is no part of a longer one.
#[test]
fn a_whole_free_stretch_is_found() {
    let put: Putting = |second, message, lent| {
        put_choosing(second, message, lent, |taken| {
            taken.new_by(|parts, number| {
                let mut parts = parts.iter();
                parts
                    .find(|(_, length)| *length == number)
                    .map(|(first, _)| *first)
            })
        })
    };
    let calls = [SET, CREATE, CHANGE, AREA_MESSAGE];
    is_found_put(put, &calls, "create ONE 1 0001h -> 0000h");
}

/// The shortest stretch that is long enough, the lowest of several.
#[test]
fn the_best_fit_is_found() {
    let put: Putting = |second, message, lent| {
        put_choosing(second, message, lent, |taken| {
            taken.new_by(|parts, number| {
                let enough = parts.iter().filter(|(_, length)| *length >= number);
                enough
                    .min_by_key(|(_, length)| *length)
                    .map(|(first, _)| *first)
            })
        })
    };
    let calls = [SET, CREATE, CHANGE, AREA_MESSAGE];
    is_found_put(put, &calls, "create ONE 1 0001h -> 0000h");
}

/// The stretches cut where a word of the map ends, or before the unit's last slice.
#[test]
fn a_stretch_that_is_not_seen_is_found() {
    let put: Putting = |second, message, lent| {
        put_choosing(second, message, lent, |taken| {
            taken.new_by(|parts, number| {
                let firsts = parts
                    .iter()
                    .flat_map(|(first, length)| *first..first + length);
                let slices: Vec<usize> = firsts.collect();
                let words = slices.chunk_by(|one, next| one + 1 == *next && one % 16 != 0);
                let mut enough = words.filter(|word| word.len() >= number);
                enough.next().map(|word| word[0])
            })
        })
    };
    is_found_put(put, &SEVERAL, "create NEW 254 0001h -> 0000h");
    let put: Putting = |second, message, lent| {
        put_choosing(second, message, lent, |taken| {
            let last = taken.before.total();
            let right = taken.right();
            if taken.is_new() && taken.wanted() > 1 && right.file.ends_with(&[last - 1, last]) {
                return taken.new_by(|_, _| None);
            }
            right
        })
    };
    let line = "set NEW lent 6*0 0001h 2*0 285 6*0 -> 0000h";
    is_found_put(put, &SEVERAL, line);
}

/// A stretch of one slice less, and the last slice by the old choice.
#[test]
fn a_stretch_one_too_short_is_found() {
    let put: Putting = |second, message, lent| {
        put_choosing(second, message, lent, |taken| {
            let mut chosen = taken.right();
            if taken.is_new() && taken.wanted() > 1 {
                let (free, number) = (taken.left(), taken.wanted() - 1);
                let first = lowest(&parts(&free), number);
                let stretch = first.map_or(vec![], |first| neighbours(first, number));
                chosen.file = one_by_one(free, stretch, taken.wanted());
            }
            chosen
        })
    };
    is_found_put(put, &SEVERAL, "create THREE 4 0001h -> 0000h");
}

/// The file's stretch is sought, and taken, before SYS takes.
#[test]
fn a_stretch_sought_before_sys_takes_is_found() {
    let put: Putting = |second, message, lent| {
        put_choosing(second, message, lent, |taken| {
            let mut chosen = taken.right();
            let mut free = taken.before.free();
            let first = lowest(&parts(&free), taken.wanted());
            if let Some(first) = first.filter(|_| taken.is_new()) {
                chosen.file = neighbours(first, taken.wanted());
                free.retain(|slice| !chosen.file.contains(slice));
                let held = taken.before.sys.clone();
                chosen.sys = one_by_one(free, held, chosen.sys.len());
            }
            chosen
        })
    };
    is_found_put(put, &SEVERAL, "create A0G 3 0001h -> 0000h");
}

#[test]
fn a_file_with_slices_that_takes_in_one_stretch_is_found() {
    // What it takes more.
    let put: Putting = |second, message, lent| {
        put_choosing(second, message, lent, |taken| {
            let mut chosen = taken.right();
            let more = taken.wanted().saturating_sub(taken.held.len());
            if !taken.held.is_empty() && more > 0 {
                let first = lowest(&parts(&taken.left()), more);
                let stretch = first.map_or(vec![], |first| neighbours(first, more));
                let file = [taken.held.clone(), stretch].concat();
                chosen.file = one_by_one(taken.left(), file, taken.wanted());
            }
            chosen
        })
    };
    let calls = [CHANGE, AREA_MESSAGE];
    let line = "change BARE lent 6*0 FFFFh 2*0 5 6*0 -> 0000h";
    is_found_put(put, &calls, line);
    // All that it has then.
    let put: Putting = |second, message, lent| {
        put_choosing(second, message, lent, |taken| {
            moved(taken, !taken.held.is_empty() && taken.length > 0)
        })
    };
    is_found_put(put, &calls, line);
}

/// A file that takes more and moves with all its slices into one stretch, if it is to.
fn moved(taken: &Taken, is_meant: bool) -> Chosen {
    let mut chosen = taken.right();
    let first = lowest(&parts(&taken.left()), taken.wanted());
    if let Some(first) = first.filter(|_| is_meant && taken.wanted() > taken.held.len()) {
        chosen.file = neighbours(first, taken.wanted());
    }
    chosen
}

#[test]
fn surplus_slices_that_count_as_none_are_found() {
    let put: Putting = |second, message, lent| {
        put_choosing(second, message, lent, |taken| {
            moved(taken, !taken.held.is_empty() && taken.length == 0)
        })
    };
    let line = "change OVER lent 6*0 FFFFh 2*0 5 6*0 -> 0000h";
    is_found_put(put, &[CHANGE], line);
}

/// SYS takes what it takes in the lowest stretch of that many, and the file after it.
#[test]
fn sys_that_takes_in_one_stretch_is_found() {
    let put: Putting = |second, message, lent| {
        put_choosing(second, message, lent, |taken| {
            let mut chosen = taken.right();
            let mut free = taken.before.free();
            let more = chosen.sys.len() - taken.before.sys.len();
            if let Some(first) = lowest(&parts(&free), more).filter(|_| more > 1) {
                let stretch = neighbours(first, more);
                free.retain(|slice| !stretch.contains(slice));
                chosen.sys = [taken.before.sys.clone(), stretch].concat();
                if taken.is_new() {
                    let first = lowest(&parts(&free), taken.wanted());
                    let stretch = first.map_or(vec![], |first| neighbours(first, taken.wanted()));
                    chosen.file = one_by_one(free, stretch, taken.wanted());
                }
            }
            chosen
        })
    };
    is_found_put(put, &SEVERAL, "create A0G 1 0001h -> 0000h");
}

/// Refuses with 1100h where no free stretch is as long as a new file needs.
#[test]
fn question_7_judged_by_the_longest_stretch_is_found() {
    let put: Putting = |second, message, lent| {
        put_refusing(second, message, lent, EnoughFree.word(), |taken| {
            taken.is_new() && lowest(&parts(&taken.left()), taken.wanted()).is_none()
        })
    };
    is_found_put(put, &SEVERAL, "create REST 5 0001h -> 0000h");
}

/// Refuses with 1008h where the old choice would have too many stretches.
#[test]
fn question_8_judged_by_the_old_choice_is_found() {
    let put: Putting = |second, message, lent| {
        put_refusing(second, message, lent, FewStretches.word(), |taken| {
            let old = taken.new_by(|_, _| None).file;
            taken.is_new() && stretches(&old).len() > STRETCHES
        })
    };
    is_found_put(put, &SEVERAL, "create NEW 254 0001h -> 0000h");
}
