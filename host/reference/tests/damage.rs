//! Damaged images and states: nothing panics, refusals change nothing, and a second reading of
//! the rules of a sound unit gives the same verdict.

mod common;

use std::collections::{BTreeMap, BTreeSet};

use common::{check_refusal, run_list, Tally};
use reference::generate::{damage, unit, Caller, Unit};
use reference::random::Random;
use reference::{
    explain, format, is_sound, perform, soundness, Area, Message, Role, State, Unsound, User,
};

/// The rules of a sound unit for a given number of layers, as literally as they can be said:
/// every index block is read and written again, every list compared whole.
struct Rules<'a> {
    image: &'a [u16],
    state: &'a State,
    h: usize,
    s: usize,
    n: usize,
    f: usize,
    m: usize,
}

impl<'a> Rules<'a> {
    /// All L that make every rule true.
    fn layers(image: &'a [u16], state: &'a State) -> Vec<usize> {
        if image.len() < 2_560 {
            return vec![];
        }
        let kit: Vec<usize> = image[2_048..2_054].iter().map(|&w| w as usize).collect();
        let (h, s, n, free, f, top) = (kit[0], kit[1], kit[2], kit[3], kit[4], kit[5]);
        let within = image.len() == 256 * n
            && (1..=64).contains(&h)
            && (2..=64).contains(&s)
            && f >= 10
            && f < n
            && n <= 32_767
            && top == n
            && (n - f) % s == 0
            && (n - f) / s <= 4_096
            && (n - f) / s * s >= h;
        if !within {
            return vec![];
        }
        let m = (n - f) / s;
        let rules = Rules {
            image,
            state,
            h,
            s,
            n,
            f,
            m,
        };
        let ones = (1..=4_096).filter(|&slice| rules.free(slice)).count();
        if (m + 1..=4_096).any(|slice| rules.free(slice)) || free != s * ones {
            return vec![];
        }
        let Some(sys) = rules.index(6) else {
            return vec![];
        };
        let layers = 1..=(m * s / h);
        layers.filter(|&l| rules.hold(&sys, l)).collect()
    }

    fn free(&self, slice: usize) -> bool {
        let word = self.image[9 * 256 + (slice - 1) / 16];
        word & (0x8000 >> ((slice - 1) % 16)) != 0
    }

    /// The slices of an index, if writing them gives the same index again.
    fn index(&self, sector: usize) -> Option<Vec<usize>> {
        let block = self.image.get(256 * sector..256 * sector + 256)?;
        let count = block[0] as usize;
        if count == 0 || count > 127 {
            return None;
        }
        let mut slices = Vec::new();
        for pair in block[1..1 + 2 * count].chunks(2) {
            let (length, first) = (pair[0] as usize, pair[1] as usize);
            for sector in (first..first + length).step_by(self.s) {
                if sector < self.f || sector + self.s > self.n {
                    return None;
                }
                slices.push((sector - self.f) / self.s + 1);
            }
            if slices.len() > 127 * self.m {
                return None;
            }
        }
        let mut again: Vec<u16> = vec![0];
        let mut last = 0;
        for &slice in &slices {
            if last == 0 || slice != last + 1 {
                again[0] += 1;
                again.extend([0, (self.f + (slice - 1) * self.s) as u16]);
            }
            let length = again.len() - 2;
            again[length] += self.s as u16;
            last = slice;
        }
        (again == block[..1 + 2 * count]).then_some(slices)
    }

    fn need(&self, length: usize) -> usize {
        (0..)
            .find(|slices| length == 0 || slices * self.s > length)
            .unwrap()
    }

    fn area(&self, name: &[u16]) -> Option<&Area> {
        let mut open = self.state.areas.iter().filter(|area| area.live);
        open.find(|area| area.name == name)
    }

    fn hold(&self, sys: &[usize], l: usize) -> bool {
        let sectors = self.h * l;
        if sys[0] != 1 || sys.len() * self.s < sectors || (sys.len() - 1) * self.s >= sectors {
            return false;
        }
        // The used places: block and words.
        let mut used: Vec<(usize, &[u16])> = Vec::new();
        for block in 0..sectors {
            let sector = self.f + (sys[block / self.s] - 1) * self.s + block % self.s;
            let places = self.image[256 * sector..256 * (sector + 1)].chunks(16);
            used.extend(
                places
                    .filter(|place| place.iter().any(|&word| word != 0))
                    .map(|place| (block, place)),
            );
        }
        let names: BTreeSet<&[u16]> = used.iter().map(|(_, words)| &words[..3]).collect();
        if names.len() != used.len() {
            return false;
        }
        let seated = used.iter().all(|(block, words)| {
            let characters: Vec<u8> = words[..3].iter().flat_map(|w| w.to_be_bytes()).collect();
            let text: Vec<u8> = characters.iter().copied().take_while(|&c| c != 0).collect();
            let rest = characters[text.len()..].iter().all(|&c| c == 0);
            let total: usize = words[..3].iter().map(|&word| word as usize).sum();
            rest && (1..=5).contains(&text.len())
                && text[0].is_ascii_alphabetic()
                && text.iter().all(|c| c.is_ascii_alphanumeric())
                && (total & 0xFFFF) % self.h == block % self.h
        });
        if !seated {
            return false;
        }
        let special = |name: [u16; 2], middle: [usize; 3]| {
            let mut words = vec![name[0], name[1], 0, 0, 0, 0, 0x8010];
            words.extend(middle.map(|word| word as u16));
            words.extend([0; 6]);
            middle[2] < 65_536 && used.iter().any(|(_, entry)| *entry == words)
        };
        if !special([0x5359, 0x5300], [sectors, 6, sys.len() * self.s])
            || !special([0x4D41, 0x5000], [1, 7, 1])
            || self.image[7 * 256..7 * 256 + 3] != [1, 1, 9]
        {
            return false;
        }
        let mut owned: BTreeMap<usize, usize> = BTreeMap::new();
        for slice in sys {
            *owned.entry(*slice).or_default() += 1;
        }
        for (_, words) in &used {
            if words[..3] == [0x5359, 0x5300, 0] || words[..3] == [0x4D41, 0x5000, 0] {
                continue;
            }
            let open = self.area(&words[..3]);
            let live_index = open.map_or(words[8], |area| area.index) as usize;
            let live_length = open.map_or(words[7], |area| area.length) as usize;
            let slices = if live_index == 0 {
                vec![]
            } else {
                match self.index(live_index) {
                    Some(slices) if self.f + (slices[0] - 1) * self.s == live_index => slices,
                    _ => return false,
                }
            };
            let bit = |number: u32| words[6] >> (15 - number) & 1 == 1;
            let attributes = (0..16).all(|n| !bit(n) || [1, 11, 12, 13, 15].contains(&n))
                && (!bit(13) || (!bit(15) && slices.is_empty()));
            let live = live_length <= 32_767 && slices.len() >= self.need(live_length);
            let booked = words[9] as usize / self.s;
            let entry = words[9] as usize == booked * self.s
                && booked <= slices.len()
                && booked >= self.need(words[7] as usize)
                && words[7] as usize <= live_length
                && words[8] as usize == if booked == 0 { 0 } else { live_index }
                && (open.is_some() || booked == slices.len());
            if !attributes || !live || !entry {
                return false;
            }
            for slice in slices {
                *owned.entry(slice).or_default() += 1;
            }
        }
        let map = (1..=self.m).all(|slice| match owned.get(&slice) {
            None => self.free(slice),
            Some(1) => !self.free(slice),
            _ => false,
        });
        map && self.areas(&names)
    }

    fn areas(&self, names: &BTreeSet<&[u16]>) -> bool {
        let open: Vec<&Area> = self.state.areas.iter().filter(|area| area.live).collect();
        let distinct: BTreeSet<[u16; 3]> = open.iter().map(|area| area.name).collect();
        distinct.len() == open.len()
            && open.iter().all(|area| {
                let users: Vec<&User> = area.users.iter().filter(|u| u.id != 0).collect();
                let ids: BTreeSet<u16> = users.iter().map(|user| user.id).collect();
                let with = |role| users.iter().filter(|u| u.role == role).count();
                names.contains(&area.name[..])
                    && area.name != [0x5359, 0x5300, 0]
                    && area.name != [0x4D41, 0x5000, 0]
                    && ids.len() == users.len()
                    && users
                        .iter()
                        .all(|u| u.opens > 0 && u.position <= area.length)
                    && (with(Role::ExclusiveUser) == 0 || users.len() == 1)
                    && with(Role::ExclusiveWriter) <= 1
            })
    }
}

/// All readings of the rules, which must agree; the verdict.
fn verdict(unit: &Unit, found: &mut BTreeMap<String, u64>) -> Option<usize> {
    let layers = Rules::layers(&unit.image, &unit.state);
    let result = soundness(&unit.image, &unit.state);
    assert_eq!(is_sound(&unit.image, &unit.state), result.is_ok());
    match &result {
        Ok(l) => assert_eq!(layers, [*l]),
        Err(unsound) => assert!(layers.is_empty(), "{unsound:?}, and sound with {layers:?}"),
    }
    let name = match &result {
        Ok(_) => "sound".to_string(),
        Err(Unsound::Limits(fault)) => format!("Limits {fault:?}"),
        Err(Unsound::SysIndex(fault)) => format!("SysIndex {fault:?}"),
        Err(Unsound::Index(_, fault)) => format!("Index {fault:?}"),
        Err(unsound) => {
            let text = format!("{unsound:?}");
            text.split('(').next().unwrap().to_string()
        }
    };
    *found.entry(name).or_default() += 1;
    result.ok()
}

#[test]
fn damaged_units_are_judged_alike_and_never_panic() {
    let random = &mut Random::new(0xDA4A6E);
    let mut found = BTreeMap::new();
    let mut tally = Tally::default();
    for _ in 0..600 {
        let sound = unit(random);
        assert!(verdict(&sound, &mut found).is_some());
        for _ in 0..20 {
            let mut unit = sound.clone();
            let what = damage(random, &mut unit);
            let mut still = verdict(&unit, &mut found);
            if random.chance(15) {
                damage(random, &mut unit);
                still = verdict(&unit, &mut found);
            }
            if still.is_some() && unit.state.unit < 4 && unit.state.initialized {
                // Harmless damage is a unit like any other.
                if random.chance(30) {
                    run_list(random, &mut unit, 5, &mut tally);
                }
                continue;
            }
            let mut caller = Caller::new(random, &unit.image, &unit.state);
            for _ in 0..2 {
                let call = caller.call(random, &unit.image, &unit.state);
                let before = unit.clone();
                let mut lent = call.lent.clone();
                let (answer, question) =
                    explain(&mut unit.image, &mut unit.state, &call.message, &mut lent);
                let Some(question) = question else {
                    let init = matches!(call.message, Message::Init { .. });
                    assert!(still.is_some() && init, "{what}: {call:?}");
                    break;
                };
                check_refusal(&before, &unit, &call, &lent, &answer, question);
                if unit.state.initialized && unit.state.unit < 4 && !init_or_unknown(&answer) {
                    assert!([0x9000, 0x8800].contains(&answer.result));
                }
            }
        }
    }
    for (name, count) in &found {
        println!("{count:6} {name}");
    }
    let wanted = [
        "sound",
        "TooShort",
        "Length",
        "Limits SysSize",
        "Limits SliceSize",
        "Limits FirstSector",
        "Limits Remainder",
        "Limits TooFewSlices",
        "Limits Top",
        "MapPast",
        "Free",
        "SysIndex Count",
        "SysIndex PairLength",
        "SysIndex PairStart",
        "SysIndex PairEnd",
        "SysIndex PairsJoin",
        "SysMissing",
        "SysLength",
        "SysInSlack",
        "MapMissing",
        "CatalogWord",
        "MapIndex",
        "EntryName",
        "EntryTwice",
        "EntryKey",
        "Attributes",
        "FileLength",
        "IndexSector",
        "Index Count",
        "Index PairLength",
        "Index PairStart",
        "Index PairEnd",
        "Index PairsJoin",
        "IndexElsewhere",
        "TooFewSlices",
        "EntryOnlySlices",
        "Reserved",
        "SliceTwice",
        "MarkedFree",
        "MarkedUsed",
        "BookedLength",
        "BookedSlices",
        "BookedTooFew",
        "BookedIndex",
        "AreaTwice",
        "AreaNotEntered",
        "AreaOnCatalog",
        "UserTwice",
        "OpenCount",
        "Position",
        "ExclusiveUser",
        "ExclusiveWriters",
    ];
    for name in wanted {
        assert!(found.contains_key(name), "{name} did not come up");
    }
}

/// Refused before the unit's soundness was asked.
fn init_or_unknown(answer: &reference::Answer) -> bool {
    [0x1200, 0x0A00].contains(&answer.result)
}

#[test]
fn rare_kit_faults() {
    // Limits that a single word cannot break without breaking an earlier rule.
    let verdict_of = |image: Vec<u16>| {
        let unit = Unit {
            image,
            state: State::new(0),
        };
        let mut found = BTreeMap::new();
        assert_eq!(verdict(&unit, &mut found), None);
        found.into_keys().next().unwrap()
    };
    let kit = |h: u16, s: u16, n: u16, f: u16, words: usize| {
        let mut image = vec![0; words];
        image[2_048..2_054].copy_from_slice(&[h, s, n, 0, f, n]);
        image
    };
    assert_eq!(verdict_of(kit(1, 2, 10, 10, 2_560)), "Limits Sectors");
    let image = kit(1, 64, 32_768, 64, 256 * 32_768);
    assert_eq!(verdict_of(image), "Limits Sectors");
    let image = kit(1, 2, 8_204, 10, 256 * 8_204);
    assert_eq!(verdict_of(image), "Limits TooManySlices");
    assert_eq!(verdict_of(vec![]), "TooShort");
    assert_eq!(verdict_of(vec![0; 2_559]), "TooShort");
    assert_eq!(verdict_of(vec![0; 2_560]), "Length");
    // SYS with every pair the same slice, many times over.
    let mut image = vec![0; 256 * 8_202];
    let mut state = State::new(0);
    let record = [0, 1, 2, 8_202, 8_192, 10, 8_202, 0, 0];
    assert_eq!(format(&mut image, &mut state, 18, &record), 0);
    image[256 * 6] = 127;
    for pair in 0..127 {
        image[256 * 6 + 1 + 2 * pair] = 8_192;
        image[256 * 6 + 2 + 2 * pair] = 10;
    }
    assert_eq!(verdict_of(image.clone()), "SliceTwice");
    image[256 * 10 + 7] = 65_535;
    assert_eq!(verdict_of(image), "SliceTwice");
}

#[test]
fn first_slice_of_sys() {
    // A SYS that begins at slice 2.
    let mut unit = Unit {
        image: vec![0; 256 * 20],
        state: State::new(0),
    };
    let record = [0, 1, 2, 20, 10, 10, 20, 0, 0];
    format(&mut unit.image, &mut unit.state, 18, &record);
    unit.image.copy_within(256 * 10..256 * 12, 256 * 12);
    unit.image[256 * 6 + 2] = 12;
    unit.image[256 * 9] = 0xB800;
    let mut found = BTreeMap::new();
    assert_eq!(verdict(&unit, &mut found), None);
    assert!(found.contains_key("SysFirst"), "{found:?}");
}

#[test]
fn garbage_never_panics() {
    let random = &mut Random::new(0x6A6);
    let mut found = BTreeMap::new();
    for _ in 0..1_500 {
        let sectors = random.between(0, 40);
        let odd = if random.chance(80) {
            0
        } else {
            random.below(256)
        };
        let mut image = random.words(256 * sectors + odd);
        let mut state = State::new(random.below(5) as u16);
        state.initialized = random.chance(80);
        for area in &mut state.areas {
            area.live = random.chance(30);
            random.fill(&mut area.name);
            area.index = random.word();
            area.length = random.word();
            for user in &mut area.users {
                user.id = random.below(3) as u16;
                user.role = random.pick(&[Role::Sharing, Role::ExclusiveUser]);
                user.opens = random.word();
                user.position = random.word();
            }
        }
        if image.len() >= 2_560 && random.chance(70) {
            // A kit within limits over garbage, with the free sectors right.
            let s = random.between(2, 4);
            let n = image.len() / 256;
            let f = n - (n - 10) / s * s;
            let m = (n - f) / s;
            image[2_304..2_560].fill(0);
            let mut free = 0;
            for slice in 1..=m {
                if random.chance(50) {
                    image[2_304 + (slice - 1) / 16] |= 0x8000 >> ((slice - 1) % 16);
                    free += s;
                }
            }
            let kit = [random.between(1, 3), s, n, free, f, n];
            for (word, value) in kit.into_iter().enumerate() {
                image[2_048 + word] = value as u16;
            }
            if m > 0 && random.chance(70) {
                image[1_536..1_539].copy_from_slice(&[1, s as u16, f as u16]);
            }
        }
        let mut unit = Unit { image, state };
        let sound = verdict(&unit, &mut found);
        let mut caller = Caller::new(random, &unit.image, &unit.state);
        for _ in 0..5 {
            let call = caller.call(random, &unit.image, &unit.state);
            let before = unit.clone();
            let mut lent = call.lent.clone();
            let answer = perform(&mut unit.image, &mut unit.state, &call.message, &mut lent);
            assert!(sound.is_some() || (answer.result != 0 && before == unit));
        }
    }
    println!("{found:?}");
}
