//! The value call.

/// The most digits of a literal.
const MOST_DIGITS: usize = 19;

/// Number and value of a literal; 12 and +0 where the bytes are none.
pub fn value(literal: &[u8]) -> (u32, f64) {
    parsed(literal).map_or((12, 0.0), |value| (0, value))
}

fn parsed(literal: &[u8]) -> Option<f64> {
    let text = std::str::from_utf8(literal).ok()?;
    let (whole, fraction) = text.split_once('.').unwrap_or((text, ""));
    let digits = [whole, fraction].map(str::as_bytes).concat();
    let fine =
        !whole.is_empty() && digits.len() <= MOST_DIGITS && digits.iter().all(u8::is_ascii_digit);
    fine.then(|| text.parse().ok())?
}
