//! Every short script over an alphabet.

/// Bytes that reach every arm of `lex`: every sign; quote and both comment signs; a digit; letters of
/// which reserved words can be made (`if`, `in`, `fn`); white space with and without a newline, an
/// odd one among it; an unknown character.
pub const ARMS: &[u8] = b"(){}[];.,+*%-@/=<>!&|\"#1ifn \n\x0b$";

/// Fewer of them, for longer scripts: bytes that open, continue or end a token or comment.
pub const FEWER: &[u8] = b"/.\"#1i; \n$=[";

/// Every ASCII byte.
pub fn ascii() -> Vec<u8> {
    (0..128).collect()
}

/// Every script over an alphabet with lengths from 0 to `longest`.
pub fn every(alphabet: &[u8], longest: usize, mut visit: impl FnMut(&[u8])) {
    for len in 0..=longest {
        every_of_length(alphabet, len, &mut visit);
    }
}

/// Every sequence of up to `longest` words, a space after each, between a beginning and an end.
pub fn every_phrase(
    words: &[&str],
    longest: usize,
    [begin, end]: [&str; 2],
    mut visit: impl FnMut(&[u8]),
) {
    for len in 0..=longest {
        every_choice(words.len(), len, |choice| {
            let phrase = choice.iter().flat_map(|&word| [words[word], " "]);
            let script: String = [begin].into_iter().chain(phrase).chain([end]).collect();
            visit(script.as_bytes());
        });
    }
}

/// Every script of one length, in the order of the alphabet.
fn every_of_length(alphabet: &[u8], len: usize, visit: &mut impl FnMut(&[u8])) {
    every_choice(alphabet.len(), len, |choice| {
        let script: Vec<u8> = choice.iter().map(|&byte| alphabet[byte]).collect();
        visit(&script);
    });
}

/// Every sequence of `len` numbers below `options`, in order.
fn every_choice(options: usize, len: usize, mut visit: impl FnMut(&[usize])) {
    let mut digits = vec![0; len];
    loop {
        visit(&digits);
        let Some(at) = digits.iter().rposition(|&digit| digit + 1 < options) else {
            return;
        };
        digits[at] += 1;
        digits[at + 1..].fill(0);
    }
}

#[cfg(test)]
mod tests {
    use super::*;
    use reference::{tokens, EOF_KIND, VAL_KIND};
    use std::collections::{BTreeSet, HashSet};

    #[test]
    fn every_script_comes_once() {
        let mut seen = HashSet::new();
        let mut visits = 0;
        every(b"abc", 3, |script| {
            visits += 1;
            seen.insert(script.to_vec());
        });
        assert_eq!(visits, 1 + 3 + 9 + 27);
        assert_eq!(seen.len(), visits);
    }

    #[test]
    fn every_arm_is_reached() {
        let mut kinds = BTreeSet::new();
        every(ARMS, 2, |script| kinds.extend(tokens(script).tokens.iter().map(|token| token.kind)));
        let signs_and_literals = (1..=VAL_KIND).chain([EOF_KIND]);
        assert!(kinds.is_superset(&signs_and_literals.collect()), "{kinds:?}");
        assert!(FEWER.iter().all(|byte| ARMS.contains(byte)));
    }
}
