//! Wrong outcomes are reported: each test gives the comparison one wrong word.

mod common;

use common::{Otherwise, Put, Shown, Wrong};
use lists::random::Lists;
use lists::state::{state_of, words_of};
use lists::stored::{filled, first_difference};
use lists::{compare, Both, Difference, Second, Seen, Step};
use reference::generate::{Call, RawCall, Unit};
use reference::{Answer, Message, State};

/// Changes what the second implementation shows after a call.
type Fault = fn(&mut Answer, &mut [u16], &mut Shown);

/// A fault that shows from some call on.
struct Late {
    calls_before: u64,
    fault: Fault,
}

impl Otherwise for Late {
    fn show(&self, put: &Put, answer: &mut Answer, lent: &mut [u16], shown: &mut Shown) {
        if put.calls > self.calls_before {
            (self.fault)(answer, lent, shown);
        }
    }
}

fn faulty(calls_before: u64, fault: Fault) -> Wrong<Late> {
    Wrong::new(Late {
        calls_before,
        fault,
    })
}

/// A listing of a fresh unit, put to the faulty side and to the second implementation.
fn listing(fault: Fault) -> Result<(), Difference> {
    let mut both = Both::new(faulty(2, fault));
    both.set(&Unit {
        image: vec![0; 256 * 20],
        state: State::new(0),
    });
    let record = vec![0, 1, 2, 20, 10, 10, 20, 0, 0];
    both.put(&Step::Format { bytes: 18, record })?;
    let call = |message, lent| Step::Call(Call { message, lent });
    both.put(&call(Message::Init { unit: 0 }, vec![]))?;
    both.put(&call(Message::Listing { unit: 0 }, vec![7; 33]))?;
    Ok(())
}

/// The place that is reported.
fn reported(fault: Fault) -> String {
    listing(fault).expect_err("a difference").place
}

#[test]
fn one_wrong_word_is_reported() {
    assert_eq!(listing(|_, _, _| ()), Ok(()));
    assert_eq!(reported(|answer, _, _| answer.result = 1), "result word");
    assert_eq!(reported(|answer, _, _| answer.bytes = 1), "byte count");
    assert_eq!(reported(|answer, _, _| answer.block = 1), "block");
    let entries = reported(|answer, _, _| answer.entries -= 1);
    assert_eq!(entries, "number of entries");
    assert_eq!(reported(|_, lent, _| lent[32] = 8), "lent word 32");
    let image = reported(|_, _, shown| shown.image[256 * 19 + 255] ^= 1);
    assert_eq!(image, "image sector 19 word 255");
    let state = reported(|_, _, shown| shown.state[145] = 1);
    assert_eq!(state, "state area 7 user 2 position");
    let initialized = reported(|_, _, shown| shown.state[1] = 0);
    assert_eq!(initialized, "state initialized");
    let sound = reported(|_, _, shown| shown.sound = false);
    assert_eq!(sound, "soundness after the call");
}

/// A number that no call has, put to a unit whose state has other words for yes.
fn no_call(fault: Fault) -> Result<(), Difference> {
    let mut both = Both::new(faulty(0, fault));
    let mut state = State::new(0);
    state.initialized = true;
    both.set(&Unit {
        image: vec![0; 256 * 2],
        state,
    });
    let (message, lent) = ([11; 12], vec![7; 33]);
    both.put(&Step::Raw(RawCall { message, lent }))?;
    Ok(())
}

#[test]
fn a_number_that_no_call_has_is_compared_too() {
    assert_eq!(no_call(|_, _, _| ()), Ok(()));
    let reported = |fault| no_call(fault).expect_err("a difference").place;
    assert_eq!(reported(|answer, _, _| answer.result = 0), "result word");
    assert_eq!(reported(|_, lent, _| lent[0] = 8), "lent word 0");
    let image = reported(|_, _, shown| shown.image[0] = 1);
    assert_eq!(image, "image sector 0 word 0");
    // Other words for the same state are a difference.
    let rewritten = reported(|_, _, shown| shown.state = words_of(&state_of(&shown.state)));
    assert_eq!(rewritten, "state initialized");
}

#[test]
fn both_values_are_told() {
    let difference = listing(|_, _, shown| shown.image[256 * 8 + 3] = 10).unwrap_err();
    assert_eq!((difference.proved, difference.second), (10, 8));
    let difference = listing(|_, _, shown| shown.image.truncate(5119)).unwrap_err();
    let place = "number of words, from image sector 19 word 255 on";
    assert_eq!(difference.place, place);
    assert_eq!((difference.proved, difference.second), (5119, 5120));
}

#[test]
fn a_listing_has_each_entry_once_in_its_place() {
    let told = |fault| {
        let difference = listing(fault).expect_err("a difference");
        (difference.place, difference.proved, difference.second)
    };
    // MAP comes before SYS.
    let exchanged = told(|_, lent, _| lent[..32].rotate_left(16));
    assert_eq!(exchanged, ("lent word 0".into(), 0x5359, 0x4D41));
    // An entry twice in place of its neighbour.
    let map_twice = told(|_, lent, _| lent.copy_within(..16, 16));
    assert_eq!(map_twice, ("lent word 16".into(), 0x4D41, 0x5359));
    let sys_twice = told(|_, lent, _| lent.copy_within(16..32, 0));
    assert_eq!(sys_twice, ("lent word 0".into(), 0x5359, 0x4D41));
}

/// Exchanges the last two entries of a listing that has some beside SYS's and MAP's.
#[test]
fn random_lists_find_two_entries_exchanged() {
    let fault: Fault = |answer, lent, _| {
        if answer.entries > 2 {
            let end = 16 * answer.entries as usize;
            lent[end - 32..end].rotate_left(16);
        }
    };
    let mut lists = Lists::new(faulty(0, fault), 6);
    let failure = lists.run(100_000).expect_err("a difference").to_string();
    for part in ["the call: listing ", "lent word "] {
        assert!(failure.contains(part), "{failure}");
    }
}

#[test]
fn a_unit_that_becomes_unsound_is_reported() {
    let unit = Unit {
        image: vec![],
        state: State::new(0),
    };
    let seen = Seen {
        answer: Answer::default(),
        lent: &[],
        image: &unit.image,
        state: words_of(&unit.state),
        sound: false,
    };
    assert_eq!(compare(false, &seen, &seen), None);
    let difference = compare(true, &seen, &seen).expect("a difference");
    assert_eq!(
        difference.place,
        "soundness of a unit that was sound before"
    );
}

#[test]
fn random_lists_find_a_fault_and_say_where() {
    let fault: Fault = |answer, _, shown| {
        // Rare, so that some lists pass first.
        if answer.block == 9 {
            shown.image[256 * 9] ^= 1;
        }
    };
    let mut lists = Lists::new(faulty(0, fault), 5);
    let failure = lists.run(100_000).expect_err("a difference").to_string();
    for part in [
        "seed 5, list ",
        ", call ",
        "transput ",
        "image sector 9 word 0",
    ] {
        assert!(failure.contains(part), "{failure}");
    }
    // The list alone shows it again.
    let list: u64 = failure.split("--list ").nth(1).unwrap().parse().unwrap();
    assert_ne!(list, 0, "{failure}");
    let again = Lists::new(faulty(0, fault), 5).run_list(list);
    assert_eq!(again.expect_err("a difference").to_string(), failure);
}

#[test]
fn a_stored_list_that_is_done_otherwise_is_reported() {
    let text = "# A comment.\ndisc 0 1 2 5 10\nlook-up SYS lent 16*9 -> 0000h \
                lent 5359h 5300h 4*0 8010h 1 6 2 6*0\nremove NONE -> 5000h\n";
    let replayed = |text: &str| first_difference(text, &mut Second::default());
    assert_eq!(replayed(text), Ok(()));
    let wrong = replayed(&text.replace("8010h", "8011h")).expect_err("a word is wrong");
    assert!(wrong.starts_with("line 3:\n  stored   look-up"), "{wrong}");
    assert!(replayed(&text.replace("5000h", "5000h image #12345678")).is_err());
    // Storing fills outcomes in and keeps the result words.
    let bare = text.replace(" lent 5359h 5300h 4*0 8010h 1 6 2 6*0", "");
    assert_eq!(filled(&bare), Ok(text.into()));
    assert!(filled(&text.replace("5000h", "0000h")).is_err());
    assert!(filled("create PASS -> 0000h").is_err());
}
