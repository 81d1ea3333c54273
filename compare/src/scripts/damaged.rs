//! Damaged scripts: good ones with bytes deleted, inserted, flipped or cut off.

use super::random::Random;
use super::supplier::{self, Shape};

/// Bytes that open, continue or end a token or comment.
const SPECIAL: &[u8] = b"\"#/.\n=[]& |<>!_1a";

/// A supplier's script of at most `bytes` bytes, damaged in one to four places.
pub fn damaged(random: &mut Random, bytes: usize) -> Vec<u8> {
    let shape = Shape::ALL[random.below(Shape::ALL.len())];
    let mut script = supplier::script(shape, bytes, random.number());
    damage_some(&mut script, random);
    script
}

/// Damages a script in one to four places.
pub fn damage_some(script: &mut Vec<u8>, random: &mut Random) {
    for _ in 0..random.between(1, 4) {
        damage(script, random);
    }
}

fn damage(script: &mut Vec<u8>, random: &mut Random) {
    let at = random.below(script.len() + 1);
    let rest = script.len() - at;
    match random.below(6) {
        0 => drop(script.drain(at..at + rest.min(1))),
        1 => drop(script.drain(at..at + rest.min(random.between(1, 30)))),
        2 => script.insert(at, SPECIAL[random.below(SPECIAL.len())]),
        3 => script.insert(at, random.below(128) as u8),
        4 if rest > 0 => script[at] ^= 1 << flipped_bit(random),
        _ => script.truncate(at),
    }
}

/// The bit to flip. The highest, which makes a byte that is not ASCII, is rare: it hides all else.
fn flipped_bit(random: &mut Random) -> usize {
    if random.once_in(50) {
        return 7;
    }
    random.below(7)
}
