//! Damaged images: each command tells that they are not sound exactly if they are not, names a
//! rule in plain words, and leaves them as they are.

mod common;

use std::collections::BTreeSet;

use common::Folder;
use reference::generate::{aged, damage};
use reference::random::Random;
use reference::{soundness, State};

/// Holds every command against an image that is not sound; the rule that is named.
fn told(folder: &Folder) -> String {
    let done = folder.bad(&["check", "a.img"], 4, "a.img: not a sound unit");
    let lines: Vec<&str> = done.out.lines().collect();
    let rule = lines[1].strip_prefix("  rule ").expect("a rule is named");
    let found = lines[2].strip_prefix("    found: ").expect("what is found");
    let number = rule.split(':').next().expect("its number");
    let words = format!("a.img: not a sound unit: rule {number} (RULES.md): {found} (");
    for command in [&["ls", "a.img"][..], &["create", "a.img", "NEW"]] {
        folder.bad(command, 4, &words);
    }
    rule.to_string()
}

#[test]
fn damaged_images_are_told_from_sound_ones() {
    let folder = Folder::new();
    let random = &mut Random::new(11);
    let mut rules = BTreeSet::new();
    let (mut sound, mut unsound) = (0, 0);
    for _ in 0..150 {
        let mut unit = aged(random);
        // An image file has nothing open: damage to the state is none.
        damage(random, &mut unit);
        if unit.image.is_empty() || !unit.image.len().is_multiple_of(256) {
            continue;
        }
        let words = unit.image.iter();
        let bytes: Vec<u8> = words.flat_map(|word| word.to_be_bytes()).collect();
        folder.write("a.img", &bytes);
        match soundness(&unit.image, &State::new(0)) {
            Ok(_) => {
                sound += 1;
                for command in ["check", "ls", "map"] {
                    folder.good(&[command, "a.img"]);
                }
            }
            Err(_) => {
                unsound += 1;
                rules.insert(told(&folder));
            }
        }
    }
    println!("{sound} sound, {unsound} not sound, {} rules", rules.len());
    assert!(sound > 10 && unsound > 60 && rules.len() > 6);
}
