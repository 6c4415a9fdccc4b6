//! New files in one stretch (02, R-6): worked on paper, on a unit with s = 2 and F = 10 whose slices 2 and
//! 3, 5, and 7 to 9 of ten are free: stretches of 2, 1 and 3.

mod common;

use common::{record, Pair};
use reference::generate::{add_file, Unit};
use reference::layout::name_of;
use reference::Operation;

const KEPT: u16 = 0xFFFF;

/// A unit of so many slices with these files: name, length, slices.
fn with_files(h: u16, slices: u16, files: &[(&str, u16, &[usize])]) -> Pair {
    let mut unit: Unit = Pair::new(h, 2, 10 + 2 * slices, 10).unit;
    for (name, length, slices) in files {
        add_file(&mut unit, name_of(name, 0), 1, *length, slices);
    }
    Pair::over(unit)
}

/// The unit, FILL having 4, 6 and 10.
fn paper(h: u16) -> Pair {
    let pair = with_files(h, 10, &[("FILL", 5, &[4, 6, 10])]);
    // Bits 1, 2, 4, 6, 7 and 8.
    assert_eq!((pair.word(9, 0), pair.free()), (0x6B80, 12));
    pair
}

/// The slices of a file.
fn slices<'a>(pair: &'a Pair, name: &str) -> &'a [usize] {
    &pair.plain.files[name].slices
}

/// The words of an index block in use.
fn index(pair: &Pair, sector: usize) -> &[u16] {
    let number = 1 + 2 * pair.word(sector, 0) as usize;
    &pair.unit.image[256 * sector..][..number]
}

#[test]
fn a_new_file_has_the_lowest_stretch_that_is_long_enough() {
    let mut pair = paper(1);
    // Size, slices, index sector, index.
    let cases: [(u16, &[usize], usize, &[u16]); 6] = [
        (1, &[2], 12, &[1, 2, 12]),
        (2, &[2, 3], 12, &[1, 4, 12]),
        (3, &[2, 3], 12, &[1, 4, 12]),
        (4, &[7, 8, 9], 22, &[1, 6, 22]),
        (7, &[2, 3, 5, 7], 12, &[3, 4, 12, 2, 18, 2, 22]),
        (11, &[2, 3, 5, 7, 8, 9], 12, &[3, 4, 12, 2, 18, 6, 22]),
    ];
    for (size, taken, sector, words) in cases {
        assert_eq!(pair.create("NEW", size, 1), 0);
        assert_eq!(slices(&pair, "NEW"), taken);
        assert_eq!(index(&pair, sector), words);
        let reserved = 2 * taken.len() as u16;
        assert_eq!(pair.entry("NEW")[7..10], [size, sector as u16, reserved]);
        assert_eq!(pair.remove("NEW"), 0);
        // By Set, and by Change of a file that has none, the same.
        assert_eq!(pair.set("NEW", &record("", 1, size)), 0);
        assert_eq!(slices(&pair, "NEW"), taken);
        assert_eq!(pair.change("NEW", &record("", KEPT, 0)), 0);
        assert_eq!(slices(&pair, "NEW"), []);
        assert_eq!(pair.change("NEW", &record("OTHER", KEPT, size)), 0);
        assert_eq!(slices(&pair, "OTHER"), taken);
        assert_eq!(pair.remove("OTHER"), 0);
    }
    assert_eq!(pair.create("NEW", 12, 1), 0x1100);
    assert_eq!(pair.free(), 12);
}

#[test]
fn a_file_that_has_slices_takes_them_as_before() {
    let files: [(&str, u16, &[usize]); 3] =
        [("FILL", 3, &[4, 10]), ("KEEP", 1, &[6]), ("OVER", 0, &[5])];
    let mut pair = with_files(1, 10, &files);
    // The next number, though 2 and 3 are neighbours.
    assert_eq!(pair.change("KEEP", &record("", KEPT, 3)), 0);
    assert_eq!(slices(&pair, "KEEP"), [6, 7]);
    assert_eq!(pair.change("KEEP", &record("", KEPT, 1)), 0);
    // Surplus slices at length 0 are slices: 7 to 9 would be one stretch.
    assert_eq!(pair.change("OVER", &record("", KEPT, 5)), 0);
    assert_eq!(slices(&pair, "OVER"), [5, 2, 3]);
    // Given back, it has none.
    assert_eq!(pair.change("OVER", &record("", KEPT, 0)), 0);
    assert_eq!(pair.change("OVER", &record("", KEPT, 5)), 0);
    assert_eq!(slices(&pair, "OVER"), [7, 8, 9]);
}

/// The live slices count: the second output finds the first one's, though none is booked.
#[test]
fn an_appending_output_takes_the_lowest_slice_first() {
    let mut pair = paper(1);
    assert_eq!(pair.create("NEW", 0, 1), 0);
    pair.create_area("NEW");
    pair.area("NEW", 7, Operation::Reserve(3));
    let taken: [&[usize]; 4] = [&[2], &[2, 3], &[2, 3], &[2, 3, 5]];
    for (block, taken) in (0..).zip(taken) {
        assert_eq!(pair.transput("NEW", 7, 3, block, block).0, 0);
        assert_eq!(slices(&pair, "NEW"), taken);
    }
    assert_eq!(pair.entry("NEW")[7..10], [0, 0, 0]);
}

/// The paper's unit with H = 2, where a layer is a slice, and with key 0 full.
fn with_full_key(fill: &[usize]) -> Pair {
    let length = 2 * fill.len() as u16 - 1;
    let mut pair = with_files(2, 10, &[("FILL", length, fill)]);
    for digit in "0123456789ABCDEF".chars() {
        assert_eq!(pair.create(&format!("A0{digit}"), 0, 0), 0);
    }
    assert_eq!(
        (pair.plain.layers, pair.plain.sys.as_slice()),
        (1, &[1][..])
    );
    pair
}

#[test]
fn sys_takes_first_and_one_by_one() {
    // SYS takes 2, with which the lowest stretch of two would have begun.
    let mut pair = with_full_key(&[4, 6, 10]);
    assert_eq!(pair.create("A0G", 10, 1), 0x1100);
    assert_eq!(pair.create("A0G", 3, 1), 0);
    assert_eq!(
        (pair.plain.sys.as_slice(), slices(&pair, "A0G")),
        (&[1, 2][..], &[7, 8][..])
    );
    // The same by a rename from key 1 with a length.
    let mut pair = with_full_key(&[4, 6, 10]);
    assert_eq!(pair.create("BARD", 0, 1), 0);
    assert_eq!(pair.change("BARD", &record("A0G", KEPT, 3)), 0);
    assert_eq!(
        (pair.plain.sys.as_slice(), slices(&pair, "A0G")),
        (&[1, 2][..], &[7, 8][..])
    );
    // Where 2 and 3 are the only stretch of two, none is left: 01's choice.
    let mut pair = with_full_key(&[4, 6, 8, 9, 10]);
    assert_eq!(pair.create("A0G", 3, 1), 0);
    assert_eq!(
        (pair.plain.sys.as_slice(), slices(&pair, "A0G")),
        (&[1, 2][..], &[3, 5][..])
    );
}

#[test]
fn sys_of_several_slices_does_not_seek_a_stretch() {
    let mut pair = with_files(4, 12, &[("FILL", 3, &[4, 6])]);
    for digit in "0123456789ABCDEF".chars() {
        assert_eq!(pair.create(&format!("A0{digit}"), 0, 0), 0);
    }
    assert_eq!(pair.create("A0G", 1, 1), 0);
    assert_eq!(pair.plain.sys, [1, 2, 3, 5]);
    assert_eq!(slices(&pair, "A0G"), [7]);
}

/// Slices 2 to 256 are free, every second one, and 258 to 400.
#[test]
fn one_stretch_is_never_too_many() {
    let low: Vec<usize> = (3..200).step_by(2).collect();
    let high: Vec<usize> = (201..258).step_by(2).collect();
    let mut pair = with_files(1, 400, &[("FILLA", 0, &low), ("FILLB", 0, &high)]);
    // 128 slices: 01's choice would have 128 stretches.
    assert_eq!(pair.create("NEW", 254, 1), 0);
    assert_eq!(index(&pair, 524), [1, 256, 524]);
    assert_eq!(pair.change("NEW", &record("", KEPT, 0)), 0);
    // 143 slices are the longest stretch.
    assert_eq!(pair.change("NEW", &record("", KEPT, 285)), 0);
    assert_eq!(index(&pair, 524), [1, 286, 524]);
    assert_eq!(pair.change("NEW", &record("", KEPT, 0)), 0);
    for length in [286, 541] {
        assert_eq!(pair.change("NEW", &record("", KEPT, length)), 0x1008);
        assert_eq!(pair.create("OTHER", length, 1), 0x1008);
        assert_eq!(pair.set("OTHER", &record("", 1, length)), 0x1008);
    }
    assert_eq!(pair.create("OTHER", 542, 1), 0x1100);
}
