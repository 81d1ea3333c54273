//! Judges the value call: number and value, by what `str::parse::<f64>` says where the bytes are a literal.

use crate::host;
use std::str::from_utf8;

/// The most digits of a literal, leading zeros counted.
pub const MOST_DIGITS: usize = 19;

/// The refusal of bytes that are no literal.
const NO_NUMBER: u32 = 12;

/// Document 02's literals: digits with at most one point behind the first of them, at most 19 digits. Rust's
/// `parse` takes more, as `.5`, `1e5`, `+1` and `inf`.
fn is_literal(bytes: &[u8]) -> bool {
    let digits = bytes.iter().filter(|byte| byte.is_ascii_digit()).count();
    let points = bytes.iter().filter(|&&byte| byte == b'.').count();
    let starts = bytes.first().is_some_and(u8::is_ascii_digit);
    starts && digits + points == bytes.len() && points <= 1 && digits <= MOST_DIGITS
}

/// The number and the bits of the value that a call is to give.
fn wanted(bytes: &[u8]) -> (u32, u64) {
    if !is_literal(bytes) {
        return (NO_NUMBER, 0);
    }
    let value: f64 = from_utf8(bytes).expect("digits and a point").parse().expect("a number");
    (0, value.to_bits())
}

/// Makes the call and judges it: the ending's name, or a difference.
pub fn check(literal: &[u8]) -> Result<&'static str, String> {
    let (number, value) = host::value(literal);
    let (said, asked) = ((number, value.to_bits()), wanted(literal));
    if said != asked {
        let [told, right] = [said, asked].map(|(number, bits)| format!("{number} {bits:016X}"));
        return Err(format!("number and bits are {told}, the Rust's {right}"));
    }
    Ok(if number == 0 { "a value" } else { "no number" })
}

#[cfg(test)]
mod tests {
    use super::*;

    #[test]
    fn the_values_of_document_02() {
        let bits = [
            ("0", 0),
            ("5.", 0x4014_0000_0000_0000),
            ("007.50", 0x401E_0000_0000_0000),
            ("0.1", 0x3FB9_9999_9999_999A),
            ("9007199254740993", 0x4340_0000_0000_0000),
            ("9007199254740993.001", 0x4340_0000_0000_0001),
            ("9007199254740995", 0x4340_0000_0000_0002),
            ("4503599627370497.5", 0x4330_0000_0000_0002),
            ("4503599627370498.5", 0x4330_0000_0000_0002),
            ("9999999999999999999", 0x43E1_58E4_6091_3D00),
            ("0.000000000000000001", 0x3C32_725D_D1D2_43AC),
            ("0000000000000000001", 0x3FF0_0000_0000_0000),
        ];
        for (literal, bits) in bits {
            assert_eq!(wanted(literal.as_bytes()), (0, bits), "{literal}");
            assert_eq!(check(literal.as_bytes()), Ok("a value"), "{literal}");
        }
        let none = ["", ".5", "5..", "1e5", "+1", "1_0", "5 ", "00000000000000000001", "inf"];
        for literal in none {
            assert_eq!(wanted(literal.as_bytes()), (NO_NUMBER, 0), "{literal}");
            assert_eq!(check(literal.as_bytes()), Ok("no number"), "{literal}");
        }
    }
}
