//! Words of bytes and bytes of words.

use ruzkemp::{bytes_from_words, words_from_bytes, Attributes, ByteOrder, Name, Record, Unit};

/// 'PASS', and words whose bytes are far apart, in both orders.
const WORDS: [u16; 4] = [0x5041, 0x5353, 0xFF00, 0x0180];
const HIGH: [u8; 8] = [0x50, 0x41, 0x53, 0x53, 0xFF, 0x00, 0x01, 0x80];
const LOW: [u8; 8] = [0x41, 0x50, 0x53, 0x53, 0x00, 0xFF, 0x80, 0x01];

#[test]
fn words_have_two_orders_of_bytes() {
    for (order, bytes) in [(ByteOrder::HighFirst, HIGH), (ByteOrder::LowFirst, LOW)] {
        assert_eq!(words_from_bytes(&bytes, order), Some(WORDS.to_vec()));
        assert_eq!(bytes_from_words(&WORDS, order), bytes);
        assert_eq!(words_from_bytes(&[], order), Some(vec![]));
        assert_eq!(bytes_from_words(&[], order), []);
    }
    assert_eq!(ByteOrder::default(), ByteOrder::HighFirst);
}

#[test]
fn an_odd_number_of_bytes_has_no_words() {
    for order in [ByteOrder::HighFirst, ByteOrder::LowFirst] {
        for length in [1, 3, 7] {
            assert_eq!(words_from_bytes(&HIGH[..length], order), None);
        }
    }
}

/// An image goes to a file and comes back; read in the other order it is no sound unit.
#[test]
fn an_image_comes_back_in_the_order_in_which_it_was_stored() {
    let mut unit = Unit::formatted(&Record::new(0, 1, 2, 20, 10)).expect("a legal record");
    unit.init().expect("a sound unit");
    let pass = Name::new("PASS").expect("a legal name");
    let created = unit.create(pass, 2, Attributes::EXTENDABLE);
    created.expect("there is room");
    for (order, other) in [
        (ByteOrder::HighFirst, ByteOrder::LowFirst),
        (ByteOrder::LowFirst, ByteOrder::HighFirst),
    ] {
        let bytes = bytes_from_words(unit.image(), order);
        let words = words_from_bytes(&bytes, order).expect("whole words");
        assert_eq!(words, unit.image());
        let words = words_from_bytes(&bytes, other).expect("whole words");
        assert!(!Unit::new(words, 0).is_sound());
    }
}
