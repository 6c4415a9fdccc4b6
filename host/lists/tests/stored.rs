//! The stored lists, on both sides.

use lists::stored::{all, first_difference, replay};
use lists::{Proved, Second};

#[test]
fn the_proved_library_does_as_stored() {
    for list in all().unwrap() {
        let mut proved = Proved::default();
        let done = first_difference(&list.text, &mut proved);
        assert_eq!(done, Ok(()), "{}", list.path.display());
    }
}

#[test]
fn the_second_implementation_does_as_stored() {
    for list in all().unwrap() {
        let mut second = Second::default();
        let done = first_difference(&list.text, &mut second);
        assert_eq!(done, Ok(()), "{}", list.path.display());
    }
}

#[test]
fn every_pair_and_question_is_reached() {
    let mut second = Second::default();
    for list in all().unwrap() {
        replay(&list.text, &mut second).unwrap();
    }
    assert_eq!(second.counts.missing(), [""; 0]);
    assert_eq!(second.counts.foreign(), [""; 0]);
}
