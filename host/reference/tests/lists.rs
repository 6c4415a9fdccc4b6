//! Random lists of calls against the plain unit, and the table of what came up.

mod common;

use common::{check_refusal, run_list, Tally};
use reference::generate::{
    self, aged, crowded, damage, fill_vacant, format_call, formatted, fresh, large_record,
    open_areas, raw, Caller,
};
use reference::pairs::{call_name, FORMAT, NO_CALL};
use reference::random::Random;
use reference::raw::{explain_words, message_of};
use reference::{explain, explain_format, soundness, Answer};

#[test]
fn random_lists_and_the_table_of_pairs() {
    let mut tally = Tally::default();
    let random = &mut Random::new(0x5245_4631);
    for round in 0..140 {
        // Lists that begin with nothing open, as demand 3 has them.
        let mut unit = fresh(random);
        run_list(random, &mut unit, 150, &mut tally);
        let mut unit = aged(random);
        if round % 3 == 0 {
            fill_vacant(random, &mut unit.state);
        }
        run_list(random, &mut unit, 150, &mut tally);
        // And lists that begin with area processes open.
        let mut unit = aged(random);
        open_areas(random, &mut unit);
        run_list(random, &mut unit, 100, &mut tally);
        if round % 6 == 0 {
            let mut unit = crowded(random);
            run_list(random, &mut unit, 50, &mut tally);
            for _ in 0..2 {
                let mut unit = crowded(random);
                open_areas(random, &mut unit);
                run_list(random, &mut unit, 50, &mut tally);
            }
        }
    }
    // Damaged units and states.
    for _ in 0..2_500 {
        let mut unit = generate::unit(random);
        let mut caller = Caller::new(random, &unit.image, &unit.state);
        damage(random, &mut unit);
        for _ in 0..6 {
            let call = caller.call(random, &unit.image, &unit.state);
            let before = unit.clone();
            let mut lent = call.lent.clone();
            let (answer, question) =
                explain(&mut unit.image, &mut unit.state, &call.message, &mut lent);
            match question {
                Some(question) => check_refusal(&before, &unit, &call, &lent, &answer, question),
                None => assert_eq!(answer.result, 0),
            }
            tally
                .counts
                .add(call_name(&call.message), answer.result, question);
        }
    }
    // Format.
    for _ in 0..1_000 {
        let mut call = format_call(random);
        let before = call.unit.clone();
        let (image, state) = (&mut call.unit.image, &mut call.unit.state);
        let outcome = explain_format(image, state, call.bytes, &call.record);
        match outcome {
            Ok(()) => {
                assert!(!state.initialized);
                assert_eq!(soundness(image, state), Ok(1));
                tally.counts.add(FORMAT, 0, None);
            }
            Err(question) => {
                assert!(before == call.unit);
                tally.counts.add(FORMAT, question.word(), Some(question));
            }
        }
    }
    numbers_of_no_call(random, &mut tally);
    tally.print();
    assert_eq!(tally.counts.missing(), [""; 0]);
    assert_eq!(tally.counts.foreign(), [""; 0]);
    for event in EVENTS {
        assert!(tally.events.contains_key(event), "{event} is missing");
    }
}

/// Messages whose number is no call's, among others.
fn numbers_of_no_call(random: &mut Random, tally: &mut Tally) {
    for _ in 0..100 {
        let mut unit = generate::unit(random);
        let mut caller = Caller::new(random, &unit.image, &unit.state);
        for _ in 0..10 {
            let call = caller.call(random, &unit.image, &unit.state);
            let mut call = raw(random, call);
            let before = (unit.clone(), call.lent.clone());
            let (image, state) = (&mut unit.image, &mut unit.state);
            let (answer, question) = explain_words(image, state, &call.message, &mut call.lent);
            match message_of(&call.message) {
                Ok(message) => {
                    let name = call_name(&message);
                    tally.counts.add(name, answer.result, question);
                }
                Err(question) => {
                    let result = 0xFFFF;
                    let expected = Answer {
                        result,
                        ..Answer::default()
                    };
                    assert_eq!(answer, expected);
                    assert!(before == (unit.clone(), call.lent));
                    tally.counts.add(NO_CALL, result, Some(question));
                }
            }
        }
    }
}

/// What accepted calls must have done at least once.
const EVENTS: [&str; 36] = [
    "Change: SYS takes, file gives back",
    "Change: SYS takes, file takes",
    "Change: entry only made ordinary",
    "Change: entry only takes slices",
    "Change: longer, gives back",
    "Change: longer, no slice",
    "Change: longer, takes",
    "Change: of a permanent file",
    "Change: renamed, SYS grows",
    "Change: renamed, in case only",
    "Change: renamed, other key",
    "Change: renamed, same key",
    "Change: same length",
    "Change: shorter, gives back",
    "Change: shorter, no slice",
    "Change: to nothing",
    "Create area: beside one in another case",
    "Create: beside a name in another case",
    "Create: no slices",
    "Create: one slice",
    "Create: one stretch",
    "Create: several stretches",
    "Output: appends, first slice",
    "Output: appends, lowest slice",
    "Output: appends, next slice",
    "Output: appends, no slice",
    "Output: replaces",
    "Remove area: books",
    "Remove area: dummy",
    "Remove area: nothing new",
    "Remove: entry only",
    "SYS grows and takes slices",
    "SYS grows in its slack",
    "Takes: one stretch behind free slices",
    "Takes: one stretch, the lowest slices",
    "Takes: several stretches",
];

/// Many more lists than the gate has time for.
#[test]
#[ignore = "takes minutes"]
fn soak() {
    let mut tally = Tally::default();
    for seed in 0..10_000 {
        let random = &mut Random::new(0x50AC_0000 + seed);
        let mut unit = generate::unit(random);
        run_list(random, &mut unit, 100, &mut tally);
    }
    tally.print();
}

#[test]
fn lists_on_large_units() {
    let mut tally = Tally::default();
    let random = &mut Random::new(77);
    for _ in 0..2 {
        let number = random.below(4) as u16;
        let record = large_record(random, number);
        let mut unit = formatted(random, &record);
        run_list(random, &mut unit, 25, &mut tally);
    }
    assert_eq!(tally.counts.calls, 50);
}
