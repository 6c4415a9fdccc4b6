//! `format` where numbers are left out or refused: what is chosen, and the nearest legal ones.

mod common;

use std::fs;

use common::{sector, Folder};
use ruzkemp::{Record, Unit};

const OPTIONS: [&str; 4] = ["--sectors", "--first", "--slice", "--keys"];

/// N, F, s and H, where given.
type Numbers = [Option<u16>; 4];

/// The command that formats an image with these numbers.
fn command(image: &str, numbers: Numbers) -> Vec<String> {
    let given = OPTIONS.iter().zip(numbers);
    let options =
        given.filter_map(|(option, number)| Some([option.to_string(), number?.to_string()]));
    let begin = ["format".to_string(), image.to_string()];
    begin.into_iter().chain(options.flatten()).collect()
}

/// The kit of an image that is sound: N, F, s, H and the free sectors.
fn kit(folder: &Folder, image: &str) -> [u16; 5] {
    folder.good(&["check", image]);
    let words = folder.words(image);
    let [keys, slice, sectors, free, first, top] = sector(&words, 8, 0, 6)[..] else {
        panic!("six words");
    };
    assert_eq!((sectors, usize::from(sectors) * 256), (top, words.len()));
    [sectors, first, slice, keys, free]
}

fn formatted(folder: &Folder, numbers: Numbers) -> [u16; 5] {
    let arguments = command("new.img", numbers);
    let arguments: Vec<&str> = arguments.iter().map(String::as_str).collect();
    folder.good(&arguments);
    let kit = kit(folder, "new.img");
    fs::remove_file(folder.file("new.img")).expect("it is there");
    kit
}

#[test]
fn without_numbers_a_unit_has_256_slices_of_4() {
    let folder = Folder::new();
    let said = folder.good(&["format", "a.img"]);
    let wanted =
        "a.img: unit 0 formatted: 1034 sectors, 256 slices of 4 from sector 10 on, 8 keys\n";
    assert_eq!(said, wanted);
    // SYS has 8 sectors, two of the slices.
    assert_eq!(kit(&folder, "a.img"), [1_034, 10, 4, 8, 1_016]);
}

#[test]
fn a_length_alone_is_enough() {
    let folder = Folder::new();
    // The free sectors are N - F less SYS's slices.
    for (sectors, wanted) in [
        (12, [12, 10, 2, 1, 0]),
        (13, [13, 11, 2, 1, 0]),
        (20, [20, 10, 2, 1, 8]),
        (74, [74, 10, 4, 1, 60]),
        (77, [77, 13, 4, 1, 60]),
        (250, [250, 10, 4, 2, 236]),
        (16_397, [16_397, 13, 4, 64, 16_384 - 64]),
        (16_398, [16_398, 14, 8, 64, 16_384 - 64]),
        (32_767, [32_767, 15, 8, 64, 32_752 - 64]),
    ] {
        assert_eq!(
            formatted(&folder, [Some(sectors), None, None, None]),
            wanted
        );
    }
}

#[test]
fn every_number_given_is_kept() {
    let folder = Folder::new();
    for numbers in [
        [None, Some(11), None, None],
        [None, Some(32_765), None, None],
        [None, None, Some(64), None],
        [None, None, Some(3), Some(7)],
        [None, None, None, Some(64)],
        [None, Some(2_000), Some(7), Some(33)],
        [Some(995), Some(10), None, None],
        [Some(13), Some(10), None, None],
        [Some(1_000), None, Some(64), None],
        [Some(500), None, None, Some(64)],
        [Some(18), None, Some(2), Some(8)],
    ] {
        let made = formatted(&folder, numbers);
        for (given, made) in numbers.iter().zip(made) {
            assert!(
                given.is_none_or(|given| given == made),
                "{numbers:?}: {made}"
            );
        }
    }
}

/// The proved Format, on words that are enough for any N.
struct Trial(Vec<u16>);

impl Trial {
    fn new() -> Trial {
        Trial(vec![0; 256 * usize::from(u16::MAX)])
    }

    /// Whether it accepts the numbers.
    fn accepts(&mut self, [sectors, first, slice, keys]: [u16; 4]) -> bool {
        let record = Record::new(0, keys, slice, sectors, first);
        let image = &mut self.0[..record.image_words()];
        Unit::new(image, 0).format(&record).is_ok()
    }

    /// For each number the nearest below and above it with which the others are accepted, by
    /// trying all between.
    fn nearest(&mut self, numbers: [u16; 4]) -> Vec<String> {
        let mut nearest = Vec::new();
        for place in 0..4 {
            let mut with = |value: &u16| {
                let mut changed = numbers;
                changed[place] = *value;
                self.accepts(changed)
            };
            let below = (0..numbers[place]).rev().find(&mut with);
            let above = (numbers[place]..=u16::MAX).skip(1).find(&mut with);
            let found = below.into_iter().chain(above);
            nearest.extend(found.map(|value| format!("{} {value}", OPTIONS[place])));
        }
        nearest
    }

    /// The nearest numbers that are accepted, if those at these places may be others: the first
    /// place as near as possible, then the next, by trying all.
    fn together(&mut self, numbers: [u16; 4], places: &[usize]) -> Option<[u16; 4]> {
        let [place, places @ ..] = places else {
            return self.accepts(numbers).then_some(numbers);
        };
        let given = numbers[*place];
        let pairs = (0..=u16::MAX).map(|by| [given.checked_sub(by), given.checked_add(by)]);
        pairs.flatten().flatten().find_map(|value| {
            let mut changed = numbers;
            changed[*place] = value;
            self.together(changed, places)
        })
    }
}

/// What a refusal says is legal.
fn suggested(folder: &Folder, numbers: Numbers) -> Vec<String> {
    let arguments = command("no.img", numbers);
    let arguments: Vec<&str> = arguments.iter().map(String::as_str).collect();
    let done = folder.bad(&arguments, 1, "refused with 1200h: ");
    let (_, rest) = done.err.split_once(" (legal: ").expect("a suggestion");
    let list = rest.strip_suffix(")\n").expect("its end");
    list.split(", ").map(String::from).collect()
}

#[test]
fn the_nearest_legal_numbers_are_those_that_trying_finds() {
    let folder = Folder::new();
    let mut trial = Trial::new();
    for numbers in [
        [1_000, 10, 4, 3],
        [20, 10, 2, 0],
        [20, 10, 2, 65],
        [20, 10, 1, 1],
        [84, 10, 65, 1],
        [20, 9, 2, 1],
        [10, 10, 2, 1],
        [5, 10, 2, 1],
        [32_768, 10, 2, 1],
        [65_535, 10, 8, 64],
        [8_204, 10, 2, 1],
        [20, 10, 2, 11],
        [107, 10, 64, 64],
    ] {
        let wanted = trial.nearest(numbers);
        assert!(!wanted.is_empty(), "{numbers:?}");
        let said = suggested(&folder, numbers.map(Some));
        assert_eq!(said, wanted, "{numbers:?}");
        for suggestion in said {
            try_out(&folder, numbers.map(Some), &suggestion);
        }
    }
}

/// A suggestion is accepted in the place of the numbers that it names.
fn try_out(folder: &Folder, mut numbers: Numbers, suggestion: &str) {
    for change in suggestion.split(" with ") {
        let (option, value) = change.split_once(' ').expect("an option with its value");
        let place = OPTIONS.iter().position(|known| *known == option);
        numbers[place.expect("a number's option")] = Some(value.parse().expect("a number"));
    }
    formatted(folder, numbers);
}

/// Of numbers that are not given others may be chosen.
#[test]
fn the_numbers_that_are_not_given_do_not_stand_in_the_way() {
    let folder = Folder::new();
    for (numbers, wanted) in [
        ([Some(40_000), None, None, None], vec!["--sectors 32767"]),
        ([Some(11), None, None, None], vec!["--sectors 12"]),
        ([None, Some(9), None, None], vec!["--first 10"]),
        ([None, Some(40_000), None, None], vec!["--first 32765"]),
        ([None, None, Some(65), None], vec!["--slice 64"]),
        ([None, None, None, Some(0)], vec!["--keys 1"]),
        // 97 sectors are prime.
        (
            [Some(107), Some(10), None, None],
            vec!["--sectors 106", "--sectors 108", "--first 11"],
        ),
    ] {
        assert_eq!(suggested(&folder, numbers), wanted, "{numbers:?}");
        for suggestion in wanted {
            try_out(&folder, numbers, suggestion);
        }
    }
}

#[test]
fn where_one_number_is_not_enough_several_are_told_together() {
    let folder = Folder::new();
    let mut trial = Trial::new();
    for (numbers, places, wanted) in [
        // 5 slices of 2 are enough for 10 keys.
        ([20, 10, 1, 65], [2, 3], "--slice 2 with --keys 10"),
        // 4,096 slices of 4 end at 32767.
        (
            [32_769, 9, 4, 1],
            [0, 1],
            "--sectors 32767 with --first 16383",
        ),
        (
            [32_768, 33_000, 2, 1],
            [0, 1],
            "--sectors 32767 with --first 32765",
        ),
        // 988 and 992 are multiples of 4.
        ([1_000, 10, 4, 65], [0, 3], "--sectors 998 with --keys 64"),
        // 990 = 18 times 55.
        ([1_000, 9, 65, 1], [1, 2], "--first 10 with --slice 55"),
    ] {
        assert!(trial.nearest(numbers).is_empty());
        let nearest = trial.together(numbers, &places).expect("legal numbers");
        let options = places.map(|place| format!("{} {}", OPTIONS[place], nearest[place]));
        assert_eq!(options.join(" with "), wanted);
        let numbers = numbers.map(Some);
        assert_eq!(suggested(&folder, numbers), [wanted]);
        try_out(&folder, numbers, wanted);
    }
}

/// So many that trying all would take too long; derived by hand.
#[test]
fn numbers_far_from_legal_are_answered_with_the_nearest() {
    let folder = Folder::new();
    for (numbers, wanted) in [
        (
            [Some(40_000), None, None, Some(65)],
            "--sectors 32767 with --keys 64",
        ),
        (
            [Some(40_000), Some(33_000), None, None],
            "--sectors 32767 with --first 32765",
        ),
        // Behind F, which is not given and so 10 to 13, there are 4,096 slices of 4.
        (
            [Some(40_000), None, Some(4), Some(65)],
            "--sectors 16397 with --keys 64",
        ),
        // 32,757 = 3 times 61 times 179, and slices of 3 would be too many.
        (
            [Some(40_000), Some(9), Some(1), Some(65)],
            "--sectors 32767 with --first 10 with --slice 61 with --keys 64",
        ),
    ] {
        assert_eq!(suggested(&folder, numbers), [wanted], "{numbers:?}");
        try_out(&folder, numbers, wanted);
    }
}

#[test]
fn a_number_past_16_bits_is_answered_with_its_limit_and_the_nearest() {
    let folder = Folder::new();
    let above = "N (--sectors) has to be above F (--first) and at most 32767";
    let huge = "99999999999999999999";
    for (given, wanted) in [
        (
            &["--sectors", "100000"][..],
            format!("--sectors: 100000 is too large: {above} (legal: --sectors 32767)\n"),
        ),
        (
            &["--first", "0x10000"],
            format!("--first: 0x10000 is too large: {above} (legal: --first 32765)\n"),
        ),
        (
            &["--slice", "65536"],
            "--slice: 65536 is too large: s (--slice) has to be 2 to 64 (legal: --slice 64)\n"
                .into(),
        ),
        // 4 slices of 2 are enough for 8 keys.
        (
            &["--keys", huge, "--sectors", "18", "--slice", "2"],
            format!(
                "--keys: {huge} is too large: H (--keys) has to be 1 to 64 (legal: --keys 8)\n"
            ),
        ),
        (
            &["--keys", "70000", "--sectors", "100000"],
            format!(
                "--sectors: 100000 is too large: {above} (legal: --sectors 32767 with --keys 64)\n"
            ),
        ),
    ] {
        folder.bad(&[&["format", "no.img"], given].concat(), 2, &wanted);
    }
    folder.bad(&["format", "no.img", "--keys", "-1"], 2, "is no number");
}

/// What was not given would have been chosen otherwise, had it helped.
#[test]
fn the_reason_is_a_limit_that_the_given_numbers_break() {
    let folder = Folder::new();
    let small = "N (--sectors) is too small: no room for a slice of at least 2 sectors from F on, \
                 which is at least 10";
    let late = "F (--first) is too large: no room for a slice of at least 2 sectors before N, \
                which is at most 32767";
    let few = "there are too few slices for SYS: at least H / s, rounded up";
    for (numbers, taken, wanted) in [
        ([Some(11), None, None, None], "N 11, F 10, s 2, H 1", small),
        ([Some(5), None, None, None], "N 5, F 10, s 2, H 1", small),
        (
            [None, Some(32_766), None, None],
            "N 32767, F 32766, s 2, H 1",
            late,
        ),
        (
            [None, Some(40_000), None, None],
            "N 32767, F 40000, s 2, H 1",
            late,
        ),
        (
            [Some(40), None, Some(64), None],
            "N 40, F 10, s 64, H 1",
            "N (--sectors) is too small: no room for a slice of 64 sectors from F on, which is at \
             least 10",
        ),
        ([Some(12), None, None, Some(3)], "N 12, F 10, s 2, H 3", few),
        // Only slices of 3 fill 3 sectors.
        (
            [Some(13), Some(10), None, Some(5)],
            "N 13, F 10, s 3, H 5",
            few,
        ),
        (
            [None, Some(32_765), None, Some(3)],
            "N 32767, F 32765, s 2, H 3",
            few,
        ),
        // 32,757 sectors are 8,189 slices of 4 and one sector.
        (
            [Some(32_767), None, Some(4), None],
            "N 32767, F 11, s 4, H 64",
            "there are more than 4096 slices: (N - F) / s",
        ),
        // 97 sectors are prime.
        (
            [Some(107), Some(10), None, None],
            "N 107, F 10, s 4, H 1",
            "no s (--slice) of 2 to 64 divides N - F (--sectors less --first)",
        ),
        // For 247 slices 8 keys are taken.
        (
            [Some(1_000), Some(10), Some(4), None],
            "N 1000, F 10, s 4, H 8",
            "s (--slice) has to divide N - F (--sectors less --first)",
        ),
        (
            [None, Some(9), None, None],
            "N 1033, F 9, s 4, H 8",
            "F (--first) has to be at least 10",
        ),
        (
            [None, None, Some(0), None],
            "N 1034, F 10, s 0, H 16",
            "s (--slice) has to be 2 to 64",
        ),
        (
            [Some(40_000), None, None, None],
            "N 40000, F 12, s 4, H 64",
            "N (--sectors) has to be above F (--first) and at most 32767",
        ),
    ] {
        let arguments = command("no.img", numbers);
        let arguments: Vec<&str> = arguments.iter().map(String::as_str).collect();
        let wanted =
            format!("format of unit 0 with {taken}: refused with 1200h: {wanted} (legal: ");
        folder.bad(&arguments, 1, &wanted);
    }
}

/// F is not chosen so that half of the unit is unused.
#[test]
fn an_f_far_behind_10_is_taken_only_if_given() {
    let folder = Folder::new();
    let wanted = vec!["--sectors 16397", "--slice 8"];
    assert_eq!(
        suggested(&folder, [Some(32_767), None, Some(4), None]),
        wanted
    );
    let given = [Some(32_767), Some(16_383), Some(4), None];
    assert_eq!(
        formatted(&folder, given),
        [32_767, 16_383, 4, 64, 16_384 - 64]
    );
}

#[test]
fn one_slice_is_no_plural() {
    let folder = Folder::new();
    let said = folder.good(&["format", "a.img", "--sectors", "12"]);
    let wanted = "a.img: unit 0 formatted: 12 sectors, 1 slice of 2 from sector 10 on, 1 key\n";
    assert_eq!(said, wanted);
}

#[test]
fn a_file_that_is_formatted_by_force_keeps_its_length() {
    let folder = Folder::new();
    folder.write("a.img", &[0; 512 * 300]);
    folder.good(&["format", "a.img", "--force"]);
    assert_eq!(kit(&folder, "a.img"), [300, 12, 4, 3, 284]);
    folder.good(&[
        "format", "a.img", "--force", "--slice", "10", "--first", "20",
    ]);
    assert_eq!(kit(&folder, "a.img"), [300, 20, 10, 1, 270]);
    folder.bad(
        &["format", "a.img", "--force", "--sectors", "301"],
        1,
        "with N 301, F 13, s 4, H 3: refused with 1200h: the file has 300 sectors, and N is 301 \
         (legal: --sectors 300)\n",
    );
    // The length cannot be another, so that none is told.
    let slice = ["format", "a.img", "--force", "--slice", "65"];
    folder.bad(&slice, 1, " (legal: --slice 64)\n");
    // So has one that is made anew, unless no unit is as long.
    folder.good(&["format", "a.img", "--force", "--new"]);
    assert_eq!(kit(&folder, "a.img"), [300, 12, 4, 3, 284]);
    assert_eq!(folder.read("a.img").len(), 512 * 300);
    folder.write("b.img", &[0; 700]);
    folder.good(&["format", "b.img", "--force", "--new"]);
    assert_eq!(kit(&folder, "b.img"), [1_034, 10, 4, 8, 1_016]);
}

#[test]
fn in_a_pack_the_length_has_to_be_given() {
    let folder = Folder::new();
    folder.write("pack", &[0; 512 * 300]);
    let format = ["format", "pack", "--offset", "100", "--force"];
    folder.bad(&format, 2, "--sectors has to be given");
    folder.good(&[&format[..], &["--sectors", "150"]].concat());
    folder.good(&["check", "pack", "--offset", "100"]);
    assert_eq!(folder.read("pack").len(), 512 * 300);
}

/// No numbers help there, so that none are told.
#[test]
fn a_unit_that_is_not_known_is_the_reason_before_its_numbers() {
    let folder = Folder::new();
    let format = ["format", "a.img", "--slice", "65", "--unit", "4"];
    let done = folder.bad(
        &format,
        1,
        "format of unit 4: refused with 1200h: the unit is not known",
    );
    assert!(!done.err.contains("legal"), "{done:?}");
}
