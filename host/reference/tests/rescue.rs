//! Rescue: a sound image is read as the sound reading reads it and without a doubt, an image that is
//! not sound has one, and nothing panics.

use reference::generate::{aged, crowded, damage, fresh, with_entries_only, Unit};
use reference::layout::{stretches, Kit, KIT, SECTOR};
use reference::plain::Plain;
use reference::random::Random;
use reference::rescue::{File, Kind, Numbers, Rescue, Use};
use reference::{entries, is_sound, State};

/// A unit with nothing open.
fn closed(random: &mut Random) -> Unit {
    let mut unit = match random.below(12) {
        0 => crowded(random),
        1..=3 => fresh(random),
        _ => aged(random),
    };
    if random.chance(20) {
        unit = with_entries_only(random, unit);
    }
    unit.state = State::default();
    unit
}

/// All doubts, about the unit and about the files.
fn doubts(rescue: &Rescue) -> Vec<String> {
    let mut all = rescue.doubts().to_vec();
    for file in rescue.files() {
        let name = file.shown();
        all.extend(file.doubts.iter().map(|doubt| format!("{name}: {doubt}")));
    }
    all
}

/// The stretches of slices that pairs give.
fn slices_of(kit: &Kit, file: &File) -> Vec<(usize, usize)> {
    let slice = |sector: usize| (sector - kit.f) / kit.s + 1;
    let pairs = file.pairs.iter();
    pairs
        .map(|pair| (slice(pair.start), pair.length / kit.s))
        .collect()
}

/// A sound image read by rescue is what the sound reading gives.
fn equals_sound_reading(image: &[u16], rescue: &Rescue) {
    assert_eq!(doubts(rescue), [""; 0]);
    let found: Vec<[u16; 16]> = rescue.files().map(|file| file.words).collect();
    assert!(found == entries(image));
    let plain = Plain::read(image, &State::default()).expect("sound");
    let kit = Kit::read(image);
    for file in rescue.files() {
        let name = file.shown();
        match file.kind {
            Kind::Map => assert_eq!(file.blocks().collect::<Vec<_>>(), [Some(9)]),
            Kind::Sys => assert_eq!(slices_of(&kit, &file), stretches(&plain.sys)),
            Kind::Ordinary => {
                let held = &plain.files[&name];
                assert_eq!(slices_of(&kit, &file), stretches(&held.slices));
                let sector = |number: usize| &image[number * SECTOR..(number + 1) * SECTOR];
                let blocks = file.blocks().map(|at| sector(at.expect("readable")));
                assert!(
                    blocks.eq(held.sectors.iter().map(|block| &block[..])),
                    "{name}"
                );
            }
        }
    }
    assert_eq!(rescue.entries(), plain.files.len() + 2);
}

/// The kit's numbers, given.
fn numbers(kit: &Kit) -> Numbers {
    Numbers {
        h: Some(kit.h),
        s: Some(kit.s),
        f: Some(kit.f),
    }
}

#[test]
fn a_sound_image_is_read_as_the_sound_reading_reads_it() {
    let random = &mut Random::new(801);
    for _ in 0..400 {
        let unit = closed(random);
        let image = &unit.image;
        let given = numbers(&Kit::read(image));
        equals_sound_reading(image, &Rescue::read(image, &Numbers::default()));
        equals_sound_reading(image, &Rescue::read(image, &given));
        // One number of them alone.
        let one = Numbers {
            h: given.h,
            ..Numbers::default()
        };
        equals_sound_reading(image, &Rescue::read(image, &one));
    }
}

#[test]
fn without_a_kit_the_given_numbers_read_the_files() {
    let random = &mut Random::new(802);
    for _ in 0..200 {
        let unit = closed(random);
        let mut image = unit.image.clone();
        let given = numbers(&Kit::read(&image));
        random.fill(&mut image[KIT * SECTOR..(KIT + 1) * SECTOR]);
        let hurt = Rescue::read(&image, &given);
        let sound = Rescue::read(&unit.image, &Numbers::default());
        assert!(hurt.files().eq(sound.files()));
        let kit_only = |doubt: &String| doubt.starts_with("the kit's ");
        assert!(hurt.doubts().iter().all(kit_only), "{:?}", hurt.doubts());
    }
}

/// Looks at everything; nothing may panic.
fn look_around(rescue: &Rescue) {
    for file in rescue.files() {
        let readable = file.blocks().flatten().all(|at| at < rescue.sectors());
        assert!(readable && file.blocks().count() == file.length());
        let missing: Vec<usize> = (0..)
            .zip(file.blocks())
            .filter(|(_, at)| at.is_none())
            .map(|(b, _)| b)
            .collect();
        let said = file
            .missing()
            .into_iter()
            .flat_map(|(first, last)| first..=last);
        assert!(said.eq(missing));
        assert!(rescue.at(file.sector, file.place) == Some(file));
    }
    for sector in 0..rescue.sectors() + 2 {
        let outside = rescue.use_of(sector) == Use::Outside;
        assert_eq!(outside, sector >= rescue.sectors());
        rescue.at(sector, sector % 18);
    }
    for slice in 0..=rescue.layout().slices().unwrap_or(0) + 1 {
        rescue.slice(slice);
    }
    let far = usize::MAX;
    assert!(rescue.slice(far).is_none() && rescue.at(far, 0).is_none());
    assert!(rescue.of_index(far).is_none() && rescue.file(far).is_none());
    rescue.fitting();
}

#[test]
fn there_is_a_doubt_exactly_if_the_image_is_not_sound() {
    let random = &mut Random::new(803);
    let (mut sound, mut unsound) = (0, 0);
    for _ in 0..2_000 {
        let mut unit = closed(random);
        let mut done = Vec::new();
        for _ in 0..random.pick(&[1, 1, 1, 2, 4]) {
            done.push(damage(random, &mut unit));
            unit.state = State::default();
        }
        let rescue = Rescue::read(&unit.image, &Numbers::default());
        let doubts = doubts(&rescue);
        match is_sound(&unit.image, &State::default()) {
            true => sound += 1,
            false => unsound += 1,
        }
        let judged = is_sound(&unit.image, &State::default());
        assert_eq!(doubts.is_empty(), judged, "{done:?}: {doubts:?}");
        if random.chance(10) {
            look_around(&rescue);
        }
    }
    println!("{sound} sound, {unsound} not sound");
    assert!(sound > 250 && unsound > 750);
}

#[test]
fn any_words_of_any_length_are_read() {
    let random = &mut Random::new(804);
    for round in 0..200 {
        let mut image = closed(random).image;
        match round % 4 {
            0 => image.truncate(random.below(image.len() + 1)),
            1 => image.truncate(random.below(12 * SECTOR)),
            2 => {
                let from = random.below(image.len() / SECTOR) * SECTOR;
                let words = random.below(4 * SECTOR).min(image.len() - from);
                random.fill(&mut image[from..from + words]);
            }
            _ => {
                for _ in 0..random.below(200) {
                    let word = random.below(image.len());
                    image[word] = random.pick(&[0, 1, 2, 6, 10, 127, 0x7FFF, 0xFFFF]);
                }
            }
        }
        let given = Numbers {
            h: random.chance(30).then(|| random.below(70)),
            s: random.chance(30).then(|| random.below(70)),
            f: random.chance(30).then(|| random.below(40_000)),
        };
        look_around(&Rescue::read(&image, &given));
    }
    look_around(&Rescue::read(&[], &Numbers::default()));
    look_around(&Rescue::read(&vec![0; 40 * SECTOR], &Numbers::default()));
    look_around(&Rescue::read(
        &vec![0xFFFF; 40 * SECTOR],
        &Numbers::default(),
    ));
}

/// A long disc whose every sector is the same catalog sector, of files that each
/// claim the whole disc: it is read in a moment all the same.
#[test]
fn a_disc_full_of_greedy_entries_is_read() {
    let (s, n) = (9, 10 + 9 * 1_200);
    let mut image = vec![0; n * SECTOR];
    let mut sector = vec![0; SECTOR];
    for place in 0..16 {
        let entry = [
            0x4141 + place as u16,
            0x4100,
            0,
            0,
            0,
            0,
            1,
            0x7FFF,
            10,
            0x7FFF,
        ];
        sector[16 * place..16 * place + 10].copy_from_slice(&entry);
    }
    for part in image.chunks_mut(SECTOR) {
        part.copy_from_slice(&sector);
    }
    image[KIT * SECTOR..][..6].copy_from_slice(&[1, s, n as u16, 0, 10, n as u16]);
    let greedy = [1, (n - 10) as u16, 10];
    image[6 * SECTOR..][..3].copy_from_slice(&greedy);
    image[10 * SECTOR..][..3].copy_from_slice(&greedy);
    let begun = std::time::Instant::now();
    let rescue = Rescue::read(&image, &Numbers::default());
    assert_eq!(rescue.entries(), 16 * (n - 10));
    let doubtful = rescue.files().filter(|file| !file.doubts.is_empty());
    assert_eq!(doubtful.count(), rescue.entries());
    let seconds = begun.elapsed().as_secs();
    assert!(seconds < 60, "{seconds} seconds");
}

#[test]
fn numbers_are_found_that_fit() {
    let random = &mut Random::new(806);
    let mut right = 0;
    for _ in 0..150 {
        let mut image = closed(random).image;
        let kit = numbers(&Kit::read(&image));
        image[KIT * SECTOR..(KIT + 1) * SECTOR].fill(0);
        let found = Rescue::read(&image, &Numbers::default()).fitting();
        let found = found.expect("the kit's numbers fit");
        right += usize::from(found == kit);
        // Whichever they are, nothing but the kit is doubtful with them.
        let rescue = Rescue::read(&image, &found);
        let kit_only = |doubt: &String| doubt.starts_with("the kit's ");
        assert!(
            doubts(&rescue).iter().all(kit_only),
            "{:?}",
            doubts(&rescue)
        );
    }
    println!("{right} of 150 are the kit's");
    assert!(right > 100);
}

#[test]
fn the_index_block_of_a_lost_file_is_found() {
    let random = &mut Random::new(807);
    let mut lost = 0;
    for _ in 0..150 {
        let mut image = closed(random).image;
        let sound = Rescue::read(&image, &Numbers::default());
        assert_eq!(sound.lost(), [0; 0]);
        let held = |file: &File| file.is_ordinary() && !file.pairs.is_empty();
        let Some(file) = sound.files().filter(held).last() else {
            continue;
        };
        let from = file.sector * SECTOR + 16 * file.place;
        image[from..from + 16].fill(0);
        let rescue = Rescue::read(&image, &Numbers::default());
        let index = file.words[8] as usize;
        assert_eq!(rescue.lost(), [index]);
        let found = rescue.of_index(index).expect("it can be followed");
        assert!(found.pairs == file.pairs && found.length() + 1 == file.total());
        assert!(found.blocks().take(file.length()).eq(file.blocks()));
        lost += 1;
    }
    assert!(lost > 80);
}

/// A file's first stretch stands at its end once more, and the reserved length says so too: nothing
/// else is wrong.
#[test]
fn a_slice_that_comes_twice_in_a_file_is_the_only_doubt() {
    let random = &mut Random::new(808);
    let mut found = 0;
    for _ in 0..150 {
        let mut image = closed(random).image;
        let rescue = Rescue::read(&image, &Numbers::default());
        let room = rescue.layout().n;
        let fits = |file: &File| {
            let (first, last) = (file.pairs.first(), file.pairs.last());
            let ends = first
                .zip(last)
                .map(|(first, last)| last.sectors().end != first.start);
            let few = file.pairs.len() < 127 && 2 * file.total() <= room;
            file.is_ordinary() && ends == Some(true) && few
        };
        let Some(file) = rescue.files().find(fits) else {
            continue;
        };
        let (index, first) = (file.words[8] as usize * SECTOR, file.pairs[0]);
        let pairs = file.pairs.len();
        image[index] = pairs as u16 + 1;
        image[index + 1 + 2 * pairs] = first.length as u16;
        image[index + 2 + 2 * pairs] = first.start as u16;
        let entry = file.sector * SECTOR + 16 * file.place;
        image[entry + 9] += first.length as u16;
        let said = doubts(&Rescue::read(&image, &Numbers::default()));
        assert!(!is_sound(&image, &State::default()));
        assert!(
            said.len() == 1 && said[0].ends_with(" twice in it"),
            "{said:?}"
        );
        found += 1;
    }
    assert!(found > 80, "{found}");
}
