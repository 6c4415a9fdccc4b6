//! Damage to one word of an image.

use crate::generate::words::{alter, first_word};
use crate::generate::Unit;
use crate::layout::{ENTRY, KIT, MAP_INDEX, MAP_SECTOR, SECTOR, SYS_INDEX};
use crate::random::Random;
use crate::sound::{survey, Survey};

/// Changes one word of the image, most of the time one that a rule speaks of.
pub(super) fn damage_word(random: &mut Random, unit: &mut Unit) -> String {
    let image = &mut unit.image;
    if image.is_empty() {
        return "nothing".into();
    }
    let mut targets = fixed_words(random, image.len());
    if let Ok(survey) = survey(image, &unit.state) {
        let count = image[SYS_INDEX * SECTOR] as usize;
        targets.push(SYS_INDEX * SECTOR + random.below(2 * count + 3));
        targets.extend(words_of_entries(random, &survey));
        targets.extend(words_of_indexes(random, image, &survey));
    }
    targets.retain(|&target| target < image.len());
    let target = random.pick(&targets);
    let old = image[target];
    image[target] = alter(random, old);
    let (sector, word) = (target / SECTOR, target % SECTOR);
    format!("sector {sector} word {word}: {old} to {}", image[target])
}

/// Words that every unit has in the same place, and any word of an image of a length.
fn fixed_words(random: &mut Random, length: usize) -> Vec<usize> {
    vec![
        KIT * SECTOR + random.below(6),
        KIT * SECTOR + random.below(8),
        MAP_SECTOR * SECTOR + random.below(4),
        MAP_SECTOR * SECTOR + random.below(SECTOR),
        SYS_INDEX * SECTOR + random.below(6),
        MAP_INDEX * SECTOR + random.below(4),
        random.below(length),
    ]
}

/// Words of entries or of unused places.
fn words_of_entries(random: &mut Random, survey: &Survey) -> Vec<usize> {
    let mut targets = Vec::new();
    for _ in 0..4 {
        let block = random.below(survey.kit.h * survey.layers);
        let sector = survey.kit.sys_sector(&survey.sys, block);
        targets.push(sector * SECTOR + random.below(SECTOR));
        let entry = &survey.entries[random.below(survey.entries.len())];
        targets.push(first_word(entry) + random.below(ENTRY));
        targets.push(first_word(entry) + random.between(6, 9));
    }
    targets
}

/// Words of the indexes of files.
fn words_of_indexes(random: &mut Random, image: &[u16], survey: &Survey) -> Vec<usize> {
    let mut targets = Vec::new();
    for _ in 0..6 {
        let entry = &survey.entries[random.below(survey.entries.len())];
        if let Some(&first) = entry.slices.first() {
            let sector = survey.kit.first_sector(first);
            let count = image[sector * SECTOR] as usize;
            targets.push(sector * SECTOR + random.below(2 * count + 2));
        }
    }
    targets
}
