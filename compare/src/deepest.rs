//! Judges the call that gives the deepest script of a length by a second writing of its definition, and the
//! bound that is proved of it by the calls that the traced Rust counts.

use crate::host::{self, Arrays, READING};
use crate::lent::Lent;
use crate::tokens::same;
use reference::{depth, DEPTH_LIMIT};

/// The longest script that the call gives.
pub const LONGEST: usize = 255;

/// Refusal 20.
const NO_LENGTH: u32 = 20;

/// Refusal 6.
const TOO_DEEP: u32 = 6;

/// The definition in plain Rust: the refusal's number and the depth, and what is left in the buffer.
pub fn written(n: usize, script: &mut [u8]) -> (u32, usize) {
    if n == 0 || n > LONGEST || n > script.len() {
        return (NO_LENGTH, 0);
    }
    let (signs, rest) = script.split_at_mut(n);
    signs.fill(b'(');
    rest.fill(0);
    (0, 3 * n + 3)
}

/// Checks the call for a length, with a buffer of this many bytes.
pub fn check_call(n: usize, room: usize) -> Result<&'static str, String> {
    let mut lent: Lent<u8> = Lent::new(room, n as u32);
    let mut wanted = lent.elements().to_vec();
    let answer = host::deepest(n, lent.elements_mut());
    same("answer", answer, written(n, &mut wanted))?;
    same("buffer", lent.elements(), &wanted[..])?;
    lent.guards_kept()?;
    Ok(if answer.0 == 0 { "given" } else { "refused" })
}

/// Checks the bound on a script of ASCII bytes by its length: no more calls are active than that allows, and
/// only opening parentheses reach the number. And by the bytes that nest.
pub fn check_bound(script: &[u8]) -> Result<&'static str, String> {
    let (active, most) = (depth(script), 3 * script.len() + 3);
    if !script.is_empty() && script.iter().all(|&byte| byte == b'(') {
        same("active calls", active, most.min(DEPTH_LIMIT + 1))?;
    } else if active >= most {
        return Err(format!("{active} calls are active, fewer than {most} were wanted"));
    }
    check_signs(script)
}

/// Checks the bound on a script of ASCII bytes by the bytes that nest, and that the reading is too deep where
/// too many calls are active.
pub fn check_signs(script: &[u8]) -> Result<&'static str, String> {
    let signs = script.iter().filter(|byte| b"({[=.!-@".contains(byte)).count();
    let (active, most) = (depth(script), 3 * signs + 3);
    if active > most {
        return Err(format!("{active} calls are active, at most {most} were wanted"));
    }
    let refused = same("too deep", number(script) == TOO_DEEP, active > DEPTH_LIMIT);
    refused.map(|()| if active > DEPTH_LIMIT { "too deep" } else { "not too deep" })
}

/// The number that the reading call answers, with ample arrays.
fn number(script: &[u8]) -> u32 {
    let len = script.len() + 1;
    let mut arrays = [len, len, len, len, 2 * len, len, len].map(|len| vec![0; len]);
    let [offs, words, heads, loads, symbols, places, reasons] =
        arrays.each_mut().map(Vec::as_mut_slice);
    READING(script, Arrays { offs, words, heads, loads, symbols, places, reasons }).number
}

#[cfg(test)]
mod tests {
    use super::*;

    #[test]
    fn a_wrong_buffer_is_found() {
        let mut buffer = [9; 4];
        assert_eq!((written(3, &mut buffer), buffer), ((0, 12), *b"(((\0"));
        assert_eq!((written(5, &mut buffer), buffer), ((NO_LENGTH, 0), *b"(((\0"));
        assert_eq!(check_call(3, 4), Ok("given"));
        assert_eq!(check_call(256, 300), Ok("refused"));
    }

    #[test]
    fn the_bound_is_reached_by_opening_parentheses_alone() {
        reference::run(|| {
            assert_eq!(check_bound(b"(("), Ok("not too deep"));
            assert_eq!(check_bound(b"(a"), Ok("not too deep"));
            assert_eq!(check_bound(&[b'('; 255]), Ok("not too deep"));
            assert_eq!(check_bound(&[b'('; 256]), Ok("too deep"));
        });
    }
}
