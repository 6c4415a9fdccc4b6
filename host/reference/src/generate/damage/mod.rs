//! Damage to images and states.

mod state;
mod together;
mod word;

use super::Unit;
use crate::random::Random;
use crate::sound::survey;

/// Changes a unit in one place, or in two places that belong together, and says what it did.
/// The unit may still be sound afterwards.
pub fn damage(random: &mut Random, unit: &mut Unit) -> String {
    match survey(&unit.image, &unit.state) {
        Ok(survey) if random.chance(25) => {
            together::damage_together(random, &mut unit.image, &survey)
        }
        _ if random.chance(30) => state::damage_state(random, &mut unit.state),
        _ if random.chance(2) => {
            let words = random.below(unit.image.len() + 300);
            unit.image.resize(words, 0);
            format!("the image is made {words} words long")
        }
        _ => word::damage_word(random, unit),
    }
}
