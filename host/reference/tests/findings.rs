//! Findings: there are some exactly if an image is not sound, and each rule broken by itself is
//! found with its numbers and its place.

use std::collections::{BTreeMap, HashSet};
use std::time::{Duration, Instant};

use reference::generate::{damage, unit};
use reference::layout::KitFault;
use reference::random::Random;
use reference::{findings, format, soundness, Finding, IndexFault, Rule, State, Unsound};

/// The numbers of the rules that an answer of `soundness` is about, by docs/RULES.md.
fn numbers(unsound: &Unsound) -> &'static [u8] {
    match unsound {
        Unsound::TooShort | Unsound::Length => &[1],
        Unsound::Limits(fault) => match fault {
            KitFault::SysSize => &[2],
            KitFault::SliceSize => &[3],
            KitFault::FirstSector => &[4],
            KitFault::Sectors => &[5],
            KitFault::Remainder => &[6],
            KitFault::TooManySlices => &[7],
            KitFault::TooFewSlices => &[8],
            KitFault::Top => &[9],
        },
        Unsound::Free => &[10],
        Unsound::MapPast(_) => &[11],
        Unsound::SysIndex(fault) | Unsound::Index(_, fault) => match fault {
            IndexFault::Count => &[12],
            IndexFault::PairLength => &[13],
            IndexFault::PairStart => &[14],
            IndexFault::PairEnd => &[15],
            IndexFault::PairsJoin => &[16],
        },
        Unsound::SysFirst => &[17],
        Unsound::SysMissing | Unsound::SysInSlack => &[18],
        Unsound::SysLength => &[19, 20],
        Unsound::CatalogWord([0x5359, ..], _) => &[21],
        Unsound::MapMissing => &[22],
        Unsound::CatalogWord(..) => &[23],
        Unsound::MapIndex(_) => &[24],
        Unsound::EntryName(_) => &[25],
        Unsound::EntryTwice(_) => &[26],
        Unsound::EntryKey(_) => &[27],
        Unsound::Attributes(_) => &[28],
        Unsound::EntryOnlySlices(_) => &[29],
        Unsound::FileLength(_) => &[30],
        Unsound::IndexSector(_) => &[31],
        Unsound::IndexElsewhere(_) => &[32],
        Unsound::TooFewSlices(_) => &[33],
        Unsound::Reserved(_) => &[34],
        Unsound::SliceTwice(_) => &[35],
        Unsound::MarkedFree(_) => &[36],
        Unsound::MarkedUsed(_) => &[37],
        other => panic!("{other:?} is about an area process"),
    }
}

/// Holds the findings against `soundness`; counts the first ones and all.
fn judge(image: &[u16], counts: &mut BTreeMap<u8, (u64, u64)>) -> bool {
    let found = findings(image);
    let verdict = soundness(image, &State::default());
    assert_eq!(found.is_empty(), verdict.is_ok(), "{verdict:?}: {found:?}");
    for finding in &found {
        assert!(!finding.to_string().is_empty() && !finding.to_string().contains('\n'));
        if let Some((sector, word)) = finding.place() {
            assert!(256 * sector + word < image.len() && word < 256);
        }
        counts.entry(finding.rule.number()).or_default().1 += 1;
    }
    let different: HashSet<String> = found.iter().map(|it| format!("{it:?}")).collect();
    assert_eq!(different.len(), found.len(), "{found:?}");
    if let (Err(unsound), Some(first)) = (&verdict, found.first()) {
        let number = first.rule.number();
        let wanted = numbers(unsound);
        assert!(wanted.contains(&number), "{unsound:?}: {found:?}");
        counts.entry(number).or_default().0 += 1;
    }
    verdict.is_ok()
}

#[test]
fn there_are_findings_exactly_if_an_image_is_not_sound() {
    let random = &mut Random::new(0x0F1D);
    let mut counts = BTreeMap::new();
    let (mut sound, mut unsound) = (0, 0);
    for _ in 0..500 {
        let whole = unit(random);
        for _ in 0..20 {
            let mut unit = whole.clone();
            for _ in 0..random.pick(&[1, 1, 1, 2, 4, 8]) {
                damage(random, &mut unit);
            }
            match judge(&unit.image, &mut counts) {
                true => sound += 1,
                false => unsound += 1,
            }
        }
    }
    println!("{sound} sound, {unsound} not; first and all of each rule: {counts:?}");
    assert!(sound > 300 && unsound > 3_000);
    let missing: Vec<u8> = (1..=37).filter(|rule| !counts.contains_key(rule)).collect();
    assert_eq!(missing, []);
}

/// Random words, many of them with a kit and an index of SYS that can be read.
#[test]
fn garbage_is_judged_and_never_panics() {
    let random = &mut Random::new(0x6A6A);
    let mut counts = BTreeMap::new();
    for _ in 0..4_000 {
        let odd = random.pick(&[0, 0, 0, 1, 255]);
        let words = 256 * random.between(0, 40) + odd;
        let mut image = random.words(words);
        let sectors = image.len() / 256;
        if sectors > 14 && random.chance(80) {
            let s = random.between(2, 4);
            let f = sectors - (sectors - 10) / s * s;
            let h = random.between(1, 3);
            let n = sectors + random.pick(&[0, 0, 0, s, 40 * s]);
            let kit = [h, s, n, 0, f, n].map(|word| word as u16);
            image[2_048..2_054].copy_from_slice(&kit);
            if random.chance(80) {
                let pairs = random.between(1, 3) as u16;
                image[1_536] = pairs;
                for pair in 0..pairs as usize {
                    let slices = (n - f) / s;
                    let length = s * random.between(1, slices);
                    let first = f + s * random.below(slices);
                    image[1_537 + 2 * pair] = length as u16;
                    image[1_538 + 2 * pair] = first as u16;
                }
                // SYS in its place, so that its length is known.
                image[256 * f..256 * f + 3].copy_from_slice(&[0x5359, 0x5300, 0]);
                image[256 * f + 7] = (h * random.between(1, 9)) as u16;
            }
        }
        judge(&image, &mut counts);
    }
    println!("{counts:?}");
    assert!(counts.len() > 25);
}

/// H = 1, s = 2, N = 20, F = 10 with PASS of two sectors: SYS in slice 1, PASS in 2 and 3, slices 4
/// and 5 free. SYS is entered in words 0 to 15 of sector 10, MAP in 16 to 31, PASS in 32 to 47.
fn small() -> Vec<u16> {
    let mut image = vec![0; 256 * 20];
    let mut put = |sector: usize, word: usize, words: &[u16]| {
        image[256 * sector + word..][..words.len()].copy_from_slice(words);
    };
    put(6, 0, &[1, 2, 10]);
    put(7, 0, &[1, 1, 9]);
    put(8, 0, &[1, 2, 20, 4, 10, 20]);
    put(9, 0, &[0x1800]);
    put(10, 0, &[0x5359, 0x5300, 0, 0, 0, 0, 0x8010, 1, 6, 2]);
    put(10, 16, &[0x4D41, 0x5000, 0, 0, 0, 0, 0x8010, 1, 7, 1]);
    put(10, 32, &[0x5041, 0x5353, 0, 0, 0, 0, 0x0001, 2, 12, 4]);
    put(12, 0, &[1, 4, 12]);
    image
}

/// What a finding shall be: rule, place, numbers, files and text.
type Wanted<'a> = (
    u8,
    Option<(usize, usize)>,
    Option<(usize, usize)>,
    &'a [&'a str],
    &'a str,
);

fn agrees(finding: &Finding, wanted: &Wanted) {
    let (rule, place, numbers, files, text) = *wanted;
    assert_eq!(finding.to_string(), text);
    assert_eq!(finding.rule.number(), rule, "{finding:?}");
    assert_eq!(finding.place(), place, "{finding:?}");
    assert_eq!(finding.expected_and_found(), numbers, "{finding:?}");
    assert_eq!(finding.files(), files, "{finding:?}");
}

/// An image that breaks one rule has this one finding.
fn alone(image: &[u16], wanted: Wanted) {
    let found = findings(image);
    assert_eq!(found.len(), 1, "{found:?}");
    agrees(&found[0], &wanted);
    let verdict = soundness(image, &State::default()).expect_err("not sound");
    assert!(numbers(&verdict).contains(&wanted.0), "{verdict:?}");
}

/// The small unit with words changed, each at a sector and a word.
fn hurt(changes: &[(usize, usize, u16)]) -> Vec<u16> {
    let mut image = small();
    for &(sector, word, value) in changes {
        image[256 * sector + word] = value;
    }
    image
}

#[test]
fn the_small_unit_is_sound() {
    assert_eq!(findings(&small()), []);
    assert_eq!(soundness(&small(), &State::default()), Ok(1));
}

#[test]
fn rule_1_has_both_lengths() {
    let mut image = small();
    image.truncate(256 * 19);
    let text = "the image has 19 sectors (9728 bytes), the kit says 20 sectors (10240 bytes)";
    alone(&image, (1, Some((8, 2)), Some((10_240, 9_728)), &[], text));
    image = small();
    image.extend([0; 257]);
    let text =
        "the image has 21 sectors and 1 word (10754 bytes), the kit says 20 sectors (10240 bytes)";
    alone(&image, (1, Some((8, 2)), Some((10_240, 10_754)), &[], text));
    image.truncate(256 * 8);
    let text = "the image has 4096 bytes: it is too short to have sectors 6 to 9";
    alone(&image, (1, None, Some((5_120, 4_096)), &[], text));
    alone(
        &[],
        (
            1,
            None,
            Some((5_120, 0)),
            &[],
            "the image has 0 bytes: it is too short to have sectors 6 to 9",
        ),
    );
}

#[test]
fn a_file_that_is_cut_off_is_named() {
    // PASS and all behind it is gone, GATE (place 3) has its index in sector 18.
    let mut image = hurt(&[(9, 0, 0x1000), (8, 3, 2)]);
    let gate = [0x4741, 0x5445, 0, 0, 0, 0, 0, 1, 18, 2];
    image[256 * 10 + 48..][..10].copy_from_slice(&gate);
    image[256 * 18..][..3].copy_from_slice(&[1, 2, 18]);
    assert_eq!(findings(&image), []);
    image.truncate(256 * 13);
    let found = findings(&image);
    assert_eq!(found.len(), 2, "{found:?}");
    let text = "GATE: the index block in sector 18 lies past the end of the image";
    agrees(&found[1], &(1, None, None, &["GATE"], text));
}

/// Nothing is said of a catalog that is not in the image.
#[test]
fn a_catalog_that_is_cut_off_is_not_judged() {
    let mut image = small();
    image.truncate(2_560);
    let text = "the image has 10 sectors (5120 bytes), the kit says 20 sectors (10240 bytes)";
    alone(&image, (1, Some((8, 2)), Some((10_240, 5_120)), &[], text));
}

#[test]
fn rules_2_to_9_have_the_limit_and_the_number() {
    let legal = "is legal";
    let text = format!("H is 0, and at least 1 {legal}");
    alone(
        &hurt(&[(8, 0, 0)]),
        (2, Some((8, 0)), Some((1, 0)), &[], &text),
    );
    let text = format!("H is 65, and at most 64 {legal}");
    alone(
        &hurt(&[(8, 0, 65)]),
        (2, Some((8, 0)), Some((64, 65)), &[], &text),
    );
    let text = format!("s is 1, and at least 2 {legal}");
    alone(
        &hurt(&[(8, 1, 1)]),
        (3, Some((8, 1)), Some((2, 1)), &[], &text),
    );
    let text = format!("F is 9, and at least 10 {legal}");
    alone(
        &hurt(&[(8, 4, 9)]),
        (4, Some((8, 4)), Some((10, 9)), &[], &text),
    );
    let mut image = hurt(&[(8, 2, 10), (8, 5, 10)]);
    image.truncate(2_560);
    let text = "N is 10 and has to be above F, 10";
    alone(&image, (5, Some((8, 2)), Some((11, 10)), &[], text));
    // F is the wrong one.
    let text = "N is 20 and has to be above F, 20";
    alone(
        &hurt(&[(8, 4, 20)]),
        (5, Some((8, 2)), Some((21, 20)), &[], text),
    );
    let mut image = hurt(&[(8, 2, 32_768), (8, 5, 32_768)]);
    image.resize(256 * 32_768, 0);
    let text = format!("N is 32768, and at most 32767 {legal}");
    alone(
        &image,
        (5, Some((8, 2)), Some((32_767, 32_768)), &[], &text),
    );
    let mut image = hurt(&[(8, 2, 21), (8, 5, 21)]);
    image.extend([0; 256]);
    let text = "N - F is 21 - 10 = 11: divided by s = 2 it leaves 1";
    alone(&image, (6, Some((8, 1)), Some((0, 1)), &[], text));
    let mut image = hurt(&[(8, 2, 8_204), (8, 5, 8_204)]);
    image.resize(256 * 8_204, 0);
    let text = "4097 slices, and the map has 4096 bits";
    alone(&image, (7, Some((8, 1)), Some((4_096, 4_097)), &[], text));
    let text = "5 slices, and H = 11 needs 6";
    alone(
        &hurt(&[(8, 0, 11)]),
        (8, Some((8, 0)), Some((6, 5)), &[], text),
    );
    let text = "the top is 19, and N is 20";
    alone(
        &hurt(&[(8, 5, 19)]),
        (9, Some((8, 5)), Some((20, 19)), &[], text),
    );
}

#[test]
fn rules_10_and_11_are_about_the_map() {
    let text = "the kit says 5 free sectors, the map has 2 free slices of 2 sectors: 4";
    alone(
        &hurt(&[(8, 3, 5)]),
        (10, Some((8, 3)), Some((4, 5)), &[], text),
    );
    // Slice 32, and slices 47 to 49 (bits 14 and 15 of word 2, bit 0 of word 3).
    let text = "the bit of slice 32 is 1, and the last slice is 5";
    alone(
        &hurt(&[(9, 1, 1), (8, 3, 6)]),
        (11, Some((9, 1)), Some((5, 32)), &[], text),
    );
    let text = "the bits of slices 47 to 49 are 1, and the last slice is 5";
    let image = hurt(&[(9, 2, 3), (9, 3, 0x8000), (8, 3, 10)]);
    alone(&image, (11, Some((9, 2)), Some((5, 49)), &[], text));
}

#[test]
fn rules_12_to_16_are_about_index_blocks() {
    let text = "SYS: the index block in sector 6 says 0 stretches";
    alone(
        &hurt(&[(6, 0, 0)]),
        (12, Some((6, 0)), Some((1, 0)), &["SYS"], text),
    );
    let text = "PASS: the index block in sector 12 says 128 stretches";
    let wanted = (12, Some((12, 0)), Some((127, 128)), &["PASS"][..], text);
    alone(&hurt(&[(12, 0, 128)]), wanted);
    let text = "PASS: stretch 1 has 3 sectors, and s is 2";
    alone(
        &hurt(&[(12, 1, 3)]),
        (13, Some((12, 1)), Some((2, 3)), &["PASS"], text),
    );
    let text = "SYS: stretch 1 has 0 sectors, and s is 2";
    alone(
        &hurt(&[(6, 1, 0)]),
        (13, Some((6, 1)), Some((2, 0)), &["SYS"], text),
    );
    let text =
        "PASS: stretch 1 begins at sector 13, where no slice begins (F is 10, s is 2, N is 20)";
    alone(
        &hurt(&[(12, 2, 13)]),
        (14, Some((12, 2)), None, &["PASS"], text),
    );
    let text = "PASS: stretch 1 ends at sector 21, and 19 is the last";
    let wanted = (15, Some((12, 1)), Some((19, 21)), &["PASS"][..], text);
    alone(&hurt(&[(12, 1, 10)]), wanted);
    let text = "PASS: stretch 2 begins at sector 14, right behind stretch 1";
    let image = hurt(&[(12, 0, 2), (12, 1, 2), (12, 3, 2), (12, 4, 14)]);
    alone(&image, (16, Some((12, 4)), None, &["PASS"], text));
}

#[test]
fn rules_17_to_20_are_about_sys() {
    // Without PASS; SYS in slice 2.
    let mut image = hurt(&[(6, 2, 12), (9, 0, 0xB800), (8, 3, 8)]);
    image[256 * 10 + 32..256 * 11].fill(0);
    image.copy_within(256 * 10..256 * 11, 256 * 12);
    let text = "SYS begins in slice 2 (sector 12)";
    alone(&image, (17, Some((6, 2)), Some((1, 2)), &[], text));
    let mut image = small();
    image[2_560..2_576].fill(0);
    let text = "no entry of SYS is in a sector of its key, 0";
    alone(&image, (18, Some((10, 0)), None, &[], text));
    // SYS is entered in block 1, and has one block.
    let mut image = small();
    image.copy_within(2_560..2_576, 256 * 11);
    image[2_560..2_576].fill(0);
    let text = "SYS is entered in block 1 of SYS, which has 1 block";
    alone(&image, (18, Some((11, 0)), None, &[], text));
    let text = "the length of SYS is 0, and H is 1";
    alone(
        &hurt(&[(10, 7, 0)]),
        (19, Some((10, 7)), Some((1, 0)), &[], text),
    );
    let text = "SYS has 1 slice, and its length 3 needs 2";
    alone(
        &hurt(&[(10, 7, 3)]),
        (20, Some((10, 7)), Some((2, 1)), &[], text),
    );
}

/// The rules of all findings, in their order.
fn rules(image: &[u16]) -> Vec<u8> {
    let found = findings(image);
    found.iter().map(|finding| finding.rule.number()).collect()
}

/// SYS's index has slice 4 too (sectors 16 and 17, full of words that are no entries).
fn grown(changes: &[(usize, usize, u16)]) -> Vec<u16> {
    let index = [(6, 0, 2), (6, 3, 2), (6, 4, 16), (9, 0, 0x0800), (8, 3, 2)];
    let mut image = hurt(&[&index[..], changes].concat());
    image[256 * 16..256 * 18].fill(0x3132);
    image
}

/// What lies past SYS's length is no entry, whatever SYS's index says.
#[test]
fn no_place_past_the_length_of_sys_is_judged() {
    let text = "SYS has 2 slices, and its length 1 needs 1";
    let wanted = (20, Some((10, 7)), Some((1, 2)), &[][..], text);
    alone(&grown(&[(10, 9, 4)]), wanted);
    // The entry reserves what it did.
    assert_eq!(rules(&grown(&[])), [20, 21]);
    // The length has grown and the index has not; what the slack holds is no entry.
    let image = hurt(&[(10, 7, 3), (11, 0, 0x3132)]);
    let text = "SYS has 1 slice, and its length 3 needs 2";
    alone(&image, (20, Some((10, 7)), Some((2, 1)), &[], text));
}

/// A slice that SYS's index has twice holds its entries once.
#[test]
fn a_slice_that_sys_has_twice_is_one_fault() {
    let twice = [(6, 0, 2), (6, 3, 2), (6, 4, 10)];
    assert_eq!(rules(&hurt(&twice)), [35, 20, 21]);
    let text = "slice 1 (sectors 10 to 11) is in SYS twice";
    // Length and reserved length are those of two slices.
    let image = hurt(&[&twice[..], &[(10, 7, 4), (10, 9, 4)]].concat());
    alone(&image, (35, Some((10, 0)), Some((1, 2)), &["SYS"], text));
}

/// Where it is not known which sectors are SYS's, no word is taken for an entry.
#[test]
fn without_sys_nothing_is_an_entry() {
    // SYS's index names PASS's first slice.
    let text = "SYS begins in slice 2 (sector 12)";
    alone(
        &hurt(&[(6, 2, 12)]),
        (17, Some((6, 2)), Some((1, 2)), &[], text),
    );
    // The name of SYS is gone, and with it the length.
    let text = "no entry of SYS is in a sector of its key, 0";
    let image = hurt(&[(10, 0, 0), (10, 1, 0), (11, 0, 0x3132)]);
    alone(&image, (18, Some((10, 0)), None, &[], text));
}

#[test]
fn rules_21_to_24_are_about_the_words_of_sys_and_map() {
    let text = "word 6 of SYS's entry is 8011h in place of 8010h";
    let numbers = Some((0x8010, 0x8011));
    alone(
        &hurt(&[(10, 6, 0x8011)]),
        (21, Some((10, 6)), numbers, &[], text),
    );
    let text = "word 9 of SYS's entry is 0004h in place of 0002h";
    alone(
        &hurt(&[(10, 9, 4)]),
        (21, Some((10, 9)), Some((2, 4)), &[], text),
    );
    let mut image = small();
    image[2_576..2_592].fill(0);
    let text = "no entry of MAP is in a sector of its key, 0, before the end of SYS";
    alone(&image, (22, Some((10, 0)), None, &[], text));
    // MAP is entered in block 1, and SYS has one block.
    let mut image = small();
    image.copy_within(2_576..2_592, 256 * 11);
    image[2_576..2_592].fill(0);
    alone(&image, (22, Some((10, 0)), None, &[], text));
    let text = "word 15 of MAP's entry is 0001h in place of 0000h";
    alone(
        &hurt(&[(10, 31, 1)]),
        (23, Some((10, 31)), Some((0, 1)), &[], text),
    );
    let text = "word 2 of MAP's index block is 8 in place of 9";
    alone(
        &hurt(&[(7, 2, 8)]),
        (24, Some((7, 2)), Some((9, 8)), &[], text),
    );
}

#[test]
fn rules_25_to_27_are_about_entries() {
    let text = "Pa%20 (10:2) is not a legal name";
    let files = ["Pa%20"];
    alone(
        &hurt(&[(10, 32, 0x5061), (10, 33, 0x2000)]),
        (25, Some((10, 32)), None, &files, text),
    );
    // The sixth character.
    let text = "PASS%00%01 (10:2) is not a legal name";
    let files = ["PASS%00%01"];
    alone(
        &hurt(&[(10, 34, 1)]),
        (25, Some((10, 32)), None, &files, text),
    );
    let mut image = small();
    image[256 * 10 + 64..][..2].copy_from_slice(&[0x5041, 0x5353]);
    let text = "PASS is entered at 10:2 and again at 10:4";
    alone(&image, (26, Some((10, 64)), None, &["PASS"], text));
    // H = 2: SYS (53 59h + 53 00h) has key 1, MAP (4D 41h + 50 00h) key 1, PASS (A3 94h) key 0.
    let mut image = vec![0; 256 * 20];
    let record = [0, 2, 2, 20, 10, 10, 20, 0, 0];
    assert_eq!(format(&mut image, &mut State::new(0), 18, &record), 0);
    image[256 * 11 + 32..][..2].copy_from_slice(&[0x5041, 0x5353]);
    let text = "PASS (11:2) is entered in a sector of key 1, and its key is 0";
    alone(&image, (27, Some((11, 32)), Some((0, 1)), &["PASS"], text));
}

#[test]
fn rules_28_to_34_are_about_files() {
    let files = &["PASS"];
    let text = "PASS (10:2): the attributes are 0003h: no file has bits 0002h";
    alone(
        &hurt(&[(10, 38, 3)]),
        (28, Some((10, 38)), None, files, text),
    );
    let text = "PASS (10:2): the attributes are 0005h: bit 13 and bit 15 are both set";
    alone(
        &hurt(&[(10, 38, 5)]),
        (28, Some((10, 38)), None, files, text),
    );
    let text = "PASS (10:2): it is entry only and has 2 slices";
    alone(
        &hurt(&[(10, 38, 4)]),
        (29, Some((10, 38)), Some((0, 2)), files, text),
    );
    let text = "PASS (10:2): the length is 32768 sectors";
    let numbers = Some((32_767, 32_768));
    alone(
        &hurt(&[(10, 39, 0x8000)]),
        (30, Some((10, 39)), numbers, files, text),
    );
    let text =
        "PASS (10:2): the index sector is 13, where no slice begins (F is 10, s is 2, N is 20)";
    alone(
        &hurt(&[(10, 40, 13)]),
        (31, Some((10, 40)), None, files, text),
    );
    // Slice 3, then slice 2, whose first sector the index block is.
    let image = hurt(&[(12, 0, 2), (12, 1, 2), (12, 2, 14), (12, 3, 2), (12, 4, 12)]);
    let text = "PASS: the index sector is 12, the first stretch begins at 14";
    alone(&image, (32, Some((12, 2)), Some((12, 14)), files, text));
    let text = "PASS (10:2): length 4 needs 3 slices, and it has 2";
    alone(
        &hurt(&[(10, 39, 4)]),
        (33, Some((10, 39)), Some((3, 2)), files, text),
    );
    let text = "PASS (10:2): the reserved length is 6, and it has 2 slices of 2: 4";
    alone(
        &hurt(&[(10, 41, 6)]),
        (34, Some((10, 41)), Some((4, 6)), files, text),
    );
}

#[test]
fn rules_35_to_37_are_about_slices() {
    // GATE has PASS's index.
    let mut image = small();
    let gate = [0x4741, 0x5445, 0, 0, 0, 0, 0, 2, 12, 4];
    image[256 * 10 + 48..][..10].copy_from_slice(&gate);
    let text = "slices 2 to 3 (sectors 12 to 15) are in PASS, GATE";
    alone(
        &image,
        (35, Some((12, 0)), Some((1, 2)), &["PASS", "GATE"], text),
    );
    // PASS has slice 2 twice, and no longer slice 3, which is free.
    let changes = [(12, 0, 2), (12, 1, 2), (12, 3, 2), (12, 4, 12)];
    let image = hurt(&[&changes[..], &[(9, 0, 0x3800), (8, 3, 6)]].concat());
    let text = "slice 2 (sectors 12 to 13) is in PASS twice";
    alone(&image, (35, Some((12, 0)), Some((1, 2)), &["PASS"], text));
    let text = "slice 3 (sectors 14 to 15) is marked free, and PASS has it";
    alone(
        &hurt(&[(9, 0, 0x3800), (8, 3, 6)]),
        (36, Some((9, 0)), None, &["PASS"], text),
    );
    let text = "slices 4 to 5 (sectors 16 to 19) are marked used, and no file has them";
    alone(
        &hurt(&[(9, 0, 0), (8, 3, 0)]),
        (37, Some((9, 0)), None, &[], text),
    );
}

/// Several faults at once: all are named, in an order in which the first is that of `soundness`.
#[test]
fn every_fault_is_named() {
    let image = hurt(&[
        (8, 3, 7),      // rule 10
        (7, 1, 2),      // rule 24
        (10, 38, 2),    // rule 28
        (10, 41, 8),    // rule 34
        (10, 48, 0x31), // rule 25
        (9, 0, 0x3000), // rule 36 for slice 3, rule 37 for slice 5
    ]);
    assert_eq!(rules(&image), [10, 24, 25, 28, 34, 36, 37]);
}

/// The most that an image can ask for: SYS's index lists the whole disc 127 times over, its length
/// is the largest word, and every entry names an index block that lists the whole disc too.
#[test]
fn a_hostile_image_is_judged_quickly() {
    let mut image = vec![0; 256 * 8_202];
    let record = [0, 1, 2, 8_202, 8_192, 10, 8_202, 0, 0];
    assert_eq!(format(&mut image, &mut State::new(0), 18, &record), 0);
    for sector in 10..8_202 {
        for place in 0..16 {
            let number = (16 * sector + place) as u16;
            let entry = [0x4100 + number % 7, number, 0, 0, 0, 0, 0xFFFF, 0xFFFF];
            let from = 256 * sector + 16 * place;
            image[from..from + 8].copy_from_slice(&entry);
            image[from + 8] = (10 + 2 * (number as usize % 4_096)) as u16;
        }
    }
    image[256 * 10..][..10].copy_from_slice(&[0x5359, 0x5300, 0, 0, 0, 0, 0x8010, 0xFFFF, 6, 2]);
    let mut write_index = |sector: usize| {
        image[256 * sector] = 127;
        for pair in 0..127 {
            let (length, start) = (8_192 - 2 * (pair as u16 % 5), 10);
            image[256 * sector + 1 + 2 * pair..][..2].copy_from_slice(&[length, start]);
        }
    };
    write_index(6);
    (12..8_202).step_by(2).for_each(&mut write_index);
    let began = Instant::now();
    let found = findings(&image);
    println!("{} findings in {:?}", found.len(), began.elapsed());
    assert!(!found.is_empty() && found.len() < 37 * 1_001);
    assert!(found
        .iter()
        .all(|finding| finding.to_string().len() < 1_000));
    assert!(began.elapsed() < Duration::from_secs(30));
}

/// docs/RULES.md has every rule under its number, in the same words.
#[test]
fn the_document_has_every_rule() {
    let path = concat!(env!("CARGO_MANIFEST_DIR"), "/../../docs/RULES.md");
    let document = std::fs::read_to_string(path).expect("the document");
    let mut headings = document
        .lines()
        .filter_map(|line| line.strip_prefix("**Rule "));
    for (number, rule) in (1..).zip(Rule::ALL) {
        assert_eq!(rule.number(), number);
        let heading = headings.next().expect("a rule more");
        assert_eq!(heading, format!("{number}: {}.**", rule.text()));
    }
    assert_eq!(headings.next(), None);
}
