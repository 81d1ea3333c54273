//! Number literals: all short ones, ties and near ties between two doubles at every exponent, long ones, and
//! bytes that are none.

use super::random::Random;
use crate::host;

/// The digits of a double, the leading one counted.
const BITS: u32 = 53;

/// The exponents of two of the doubles that a literal of 19 digits can be near.
pub const EXPONENTS: std::ops::RangeInclusive<i32> = -60..=63;

/// What is written in the place of a digit, so that the bytes are no literal, or are one with a point.
const SIGNS: &[u8] = b"..+-eE_ \0xaf/:";

/// The kind of a number's token.
const VAL_KIND: u32 = 33;

/// The numbers of a script that is lexed without refusal.
pub fn of_script(script: &[u8]) -> Vec<Vec<u8>> {
    let (mut offs, mut words) = (vec![0; script.len() + 1], vec![0; script.len() + 1]);
    host::tokens(script, &mut offs, &mut words);
    let tokens = offs.iter().zip(&words).filter(|(_, word)| **word % 64 == VAL_KIND);
    let part = |off: u32, word: u32| &script[off as usize..(off + word / 64) as usize];
    tokens.map(|(off, word)| part(*off, *word).to_vec()).collect()
}

/// All strings of 1 to `longest` digits, without a point and with one behind each digit.
pub fn every(longest: usize, mut take: impl FnMut(&[u8])) {
    for len in 1..=longest {
        for number in 0..10_usize.pow(len as u32) {
            let digits = format!("{number:0len$}").into_bytes();
            with_points(&digits, &mut take);
        }
    }
}

/// The digits without a point, and with one behind each of them.
fn with_points(digits: &[u8], take: &mut impl FnMut(&[u8])) {
    take(digits);
    (1..=digits.len()).for_each(|at| take(&pointed(digits, at)));
}

/// Digits with a point behind the first `at` of them.
fn pointed(digits: &[u8], at: usize) -> Vec<u8> {
    [&digits[..at], b".", &digits[at..]].concat()
}

/// Three literals for each of `count` neighbouring doubles of each exponent: the number half way between the
/// two, or the last before it that has few enough digits, and the numbers one less and one more in the last
/// digit.
pub fn ties(count: usize, seed: u64, mut take: impl FnMut(&[u8])) {
    let mut random = Random::new(seed);
    for exponent in EXPONENTS {
        for _ in 0..count {
            let leading = random.number() >> (64 - BITS) | 1 << (BITS - 1);
            if let Some((digits, places)) = half_way(leading, exponent) {
                for near in [digits - 1, digits, digits + 1] {
                    take(&written(near, places));
                }
            }
        }
    }
}

/// The digits and places of the number half way behind the double of these 53 digits and this exponent, cut to
/// 19 digits and 18 places; none where it has more than 19 digits before the point.
fn half_way(leading: u64, exponent: i32) -> Option<(u64, usize)> {
    let doubled = u128::from(2 * leading + 1);
    let down = BITS as i32 - exponent;
    (0..=18).rev().find_map(|places| {
        let scaled = doubled * 10_u128.pow(places as u32);
        let digits = if down >= 0 { scaled >> down } else { scaled.checked_shl(-down as u32)? };
        let digits = u64::try_from(digits).ok()?;
        (2..10_u64.pow(19) - 1).contains(&digits).then_some((digits, places))
    })
}

/// Digits with so many of them behind a point, which has one before it at the least.
fn written(digits: u64, places: usize) -> Vec<u8> {
    let digits = format!("{digits:0width$}", width = places + 1).into_bytes();
    match places {
        0 => digits,
        _ => pointed(&digits, digits.len() - places),
    }
}

/// Digits of a random number from `least` to `most`, often with zeros at the front, and mostly with a point.
pub fn long(random: &mut Random, least: usize, most: usize) -> Vec<u8> {
    let len = random.between(least, most);
    let zeros = if random.once_in(3) { random.below(len + 1) } else { 0 };
    let digit = |at: usize, random: &mut Random| match at < zeros {
        true => b'0',
        false => b'0' + random.below(10) as u8,
    };
    let digits: Vec<u8> = (0..len).map(|at| digit(at, random)).collect();
    match random.once_in(4) {
        true => digits,
        false => pointed(&digits, random.between(1, len)),
    }
}

/// A literal with some bytes replaced or cut off: mostly none any more.
pub fn broken(random: &mut Random) -> Vec<u8> {
    let mut bytes = long(random, 1, 24);
    for _ in 0..random.between(1, 3) {
        let at = random.below(bytes.len());
        bytes[at] = SIGNS[random.below(SIGNS.len())];
    }
    if random.once_in(4) {
        bytes.remove(0);
    }
    bytes
}

#[cfg(test)]
mod tests {
    use super::*;

    #[test]
    fn all_of_two_digits() {
        let mut count = 0;
        every(2, |_| count += 1);
        assert_eq!(count, 10 * 2 + 100 * 3);
    }

    #[test]
    fn ties_are_half_way() {
        assert_eq!(half_way(1 << 52, 53), Some((9_007_199_254_740_993_000, 3)));
        assert_eq!(half_way(1 << 52, 52), Some((4_503_599_627_370_496_500, 3)));
        assert_eq!(written(4_503_599_627_370_496_500, 3), b"4503599627370496.500");
        assert_eq!(written(5, 2), b"0.05");
        let mut found = 0;
        ties(2, 1, |literal| found += usize::from(literal.len() <= 20));
        assert!(found > 5 * EXPONENTS.count());
    }
}
