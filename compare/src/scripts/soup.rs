//! Token soup: spellings in any order, with random or no separators.

use super::random::Random;
use super::spellings::{
    near_misses, COMMENTS, NAMES, NUMBERS, SIGNS, SPACES, STOPS, STRINGS, WORDS,
};

/// The most spellings in one soup.
const LONGEST: usize = 40;

pub fn soup(random: &mut Random) -> Vec<u8> {
    let mut script = String::new();
    for _ in 0..random.between(1, LONGEST) {
        script += &spelling(random);
        script += separator(random);
    }
    script += ending(random);
    script.into_bytes()
}

fn spelling(random: &mut Random) -> String {
    match random.below(64) {
        0 => random.pick(&STOPS).to_string(),
        1..=20 => random.pick(&SIGNS).to_string(),
        21..=30 => random.pick(&WORDS).to_string(),
        31..=36 => {
            let near = near_misses(random.pick(&WORDS));
            near[random.below(near.len())].clone()
        }
        37..=46 => random.pick(&NAMES).to_string(),
        47..=55 => random.pick(&NUMBERS).to_string(),
        56..=59 => random.pick(&STRINGS).to_string(),
        _ => random.pick(&COMMENTS).to_string(),
    }
}

fn separator(random: &mut Random) -> &'static str {
    match random.below(3) {
        0 => "",
        1 => " ",
        _ => random.pick(&SPACES),
    }
}

/// Most soups end as they come; some in what the script's end cuts off.
fn ending(random: &mut Random) -> &'static str {
    match random.below(4) {
        0 => random.pick(&[
            "//", "// c", "#", "# c", "1.", "23.5", "\"", "\"a", "/", "=", "[", "7", "\n", "\r",
        ]),
        _ => "",
    }
}
