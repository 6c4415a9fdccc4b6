//! Damaged units: by the generator, by an index sector in front of the data sectors, or by both.

use lists::{Both, Step};
use reference::generate::{self, Call, Caller, Unit};
use reference::layout::{is_legal, Kit, ENTRY, MAP, SECTOR, SYS, SYS_INDEX};
use reference::random::Random;
use reference::Message;

use crate::part::{Items, Run};
use crate::side::Guarded;

const UNITS: u64 = 10_000;
/// Calls put to each unit after Init.
const CALLS: usize = 4;

/// Puts calls to damaged units, or to the one of a number, on both sides.
pub fn run(items: &mut Items) -> Run {
    let mut both = Both::new(Guarded::new(items.trace()));
    for number in 1..=UNITS {
        let random = &mut Random::new(number << 32);
        let (unit, what) = damaged(random);
        if items.begin(&what) {
            put_calls(&mut both, random, &unit)?;
        }
        if items.ended() {
            break;
        }
    }
    Ok(format!("{} damaged units", items.count()))
}

fn put_calls(both: &mut Both<Guarded>, random: &mut Random, unit: &Unit) -> Result<(), String> {
    both.set(unit);
    let mut caller = Caller::new(random, &unit.image, &unit.state);
    let number = unit.state.unit;
    let mut call = Call {
        message: Message::Init { unit: number },
        lent: Vec::new(),
    };
    for _ in 0..=CALLS {
        let message = call.message;
        let done = both.put(&Step::Call(call));
        done.map_err(|difference| format!("{message:?}: {difference}"))?;
        let Unit { image, state } = both.second().current();
        call = caller.call(random, image, state);
    }
    Ok(())
}

/// A unit that is damaged, with what was done to it.
fn damaged(random: &mut Random) -> (Unit, String) {
    let mut unit = generate::unit(random);
    let mut what = Vec::new();
    if random.chance(60) {
        what.extend(index_in_front(random, &mut unit));
    }
    if what.is_empty() || random.chance(30) {
        what.push(generate::damage(random, &mut unit));
    }
    (unit, what.join("; "))
}

/// Puts a sector from 1 to F - 1 where a sound unit's index sector stands, most of the time one of
/// sectors 1 to 5: into a file's entry or an area descriptor, if there is one.
fn index_in_front(random: &mut Random, unit: &mut Unit) -> Option<String> {
    let first = Kit::read(&unit.image).f;
    let sector = random.pick(&[1, 2, 3, 4, 5, 1, 2, 3, 4, 5, 6, 7, 8, 9, first - 1]) as u16;
    let areas = unit.state.areas.iter_mut().filter(|area| area.live);
    let mut areas: Vec<_> = areas.collect();
    if !areas.is_empty() && random.chance(50) {
        let number = random.below(areas.len());
        areas[number].index = sector;
        return Some(format!("index sector {sector} in an area descriptor"));
    }
    let entries = entries(&unit.image);
    if entries.is_empty() {
        return None;
    }
    unit.image[random.pick(&entries) + 8] = sector;
    Some(format!("index sector {sector} in an entry"))
}

/// Where the words of the files' entries begin in the image of a sound unit. What looks like one in
/// SYS's slack is among them, and damage to it does no harm.
fn entries(image: &[u16]) -> Vec<usize> {
    let index = &image[SYS_INDEX * SECTOR..][..SECTOR];
    let pairs = index[1..].chunks_exact(2).take(index[0].into());
    let sectors = pairs.flat_map(|pair| pair[1]..pair[1] + pair[0]);
    let places = sectors.flat_map(|sector| {
        let first = usize::from(sector) * SECTOR;
        (first..first + SECTOR).step_by(ENTRY)
    });
    let file = |at: &usize| {
        let name = [image[*at], image[at + 1], image[at + 2]];
        is_legal(name) && ![SYS, MAP].contains(&name)
    };
    places.filter(file).collect()
}
