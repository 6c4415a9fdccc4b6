//! Colours and symbols for the files on a map.

/// Red, green, blue.
pub type Colour = (u8, u8, u8);

/// The colour of SYS.
pub const SYS: Colour = (0x3D, 0x4F, 0x66);

/// Colours that are told apart easily; files past these take hues around the circle.
const CHOSEN: [Colour; 12] = [
    (0x4E, 0x79, 0xA7),
    (0xF2, 0x8E, 0x2B),
    (0x59, 0xA1, 0x4F),
    (0xE1, 0x57, 0x59),
    (0xB0, 0x7A, 0xA1),
    (0xED, 0xC9, 0x48),
    (0x76, 0xB7, 0xB2),
    (0xFF, 0x9D, 0xA7),
    (0x9C, 0x75, 0x5F),
    (0x8C, 0xD1, 0x7D),
    (0xD3, 0x72, 0x95),
    (0xA0, 0xCB, 0xE8),
];

/// The colour of a file by its number, SYS not counted.
pub fn colour(number: usize) -> Colour {
    match CHOSEN.get(number) {
        Some(colour) => *colour,
        None => hue(
            (number * 137) % 360,
            if number.is_multiple_of(2) { 200 } else { 165 },
        ),
    }
}

/// A colour around the circle, `light` being its strongest part.
fn hue(degrees: usize, light: usize) -> Colour {
    let low = light / 2;
    let within = degrees % 60;
    let rising = (low + (light - low) * within / 60) as u8;
    let falling = (light - (light - low) * within / 60) as u8;
    let (low, light) = (low as u8, light as u8);
    match degrees / 60 {
        0 => (light, rising, low),
        1 => (falling, light, low),
        2 => (low, light, rising),
        3 => (low, falling, light),
        4 => (rising, low, light),
        _ => (light, low, falling),
    }
}

/// Whether black text is read better on a colour than white text.
pub fn is_light((red, green, blue): Colour) -> bool {
    299 * red as u32 + 587 * green as u32 + 114 * blue as u32 > 140_000
}

/// The colour as `#rrggbb`.
pub fn code((red, green, blue): Colour) -> String {
    format!("#{red:02X}{green:02X}{blue:02X}")
}

/// The nearest of the 216 colours that terminals have.
pub fn terminal((red, green, blue): Colour) -> u8 {
    let step = |part: u8| (part as u16 * 5 + 127) / 255;
    (16 + 36 * step(red) + 6 * step(green) + step(blue)) as u8
}

/// The symbol of a file by its number, SYS not counted; they come round again after 62.
pub fn symbol(number: usize) -> char {
    const SYMBOLS: &[u8] = b"ABCDEFGHIJKLMNOPQRSTUVWXYZabcdefghijklmnopqrstuvwxyz0123456789";
    SYMBOLS[number % SYMBOLS.len()] as char
}

#[cfg(test)]
mod tests {
    use super::*;
    use std::collections::BTreeSet;

    #[test]
    fn the_first_hundred_files_have_colours_of_their_own() {
        let colours: BTreeSet<Colour> = (0..100).map(colour).collect();
        assert_eq!(colours.len(), 100);
    }

    #[test]
    fn the_circle_of_hues_is_closed() {
        assert_eq!(hue(0, 200), (200, 100, 100));
        assert_eq!(hue(60, 200), (200, 200, 100));
        assert_eq!(hue(120, 200), (100, 200, 100));
        assert_eq!(hue(180, 200), (100, 200, 200));
        assert_eq!(hue(240, 200), (100, 100, 200));
        assert_eq!(hue(300, 200), (200, 100, 200));
    }

    #[test]
    fn terminal_colours_lie_in_the_cube() {
        assert_eq!(terminal((0, 0, 0)), 16);
        assert_eq!(terminal((255, 255, 255)), 231);
        assert_eq!(terminal((255, 0, 0)), 196);
    }
}
