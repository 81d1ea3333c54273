//! Scripts as suppliers of bond schedules write them: tables, arrays, functions, branches, loops,
//! comments and strings.

use super::random::Random;

/// What a script is mostly made of.
#[derive(Clone, Copy, Debug)]
pub enum Shape {
    Schedules,
    CallDates,
    StepLadders,
}

impl Shape {
    pub const ALL: [Shape; 3] = [Shape::Schedules, Shape::CallDates, Shape::StepLadders];
}

const ISSUERS: [&str; 5] = [
    "Harbour Water plc",
    "Kestrel Rail Finance",
    "Town of Ashby #2",
    "Norden Kraft AB // series 4",
    "Mill & Lane\nHolding",
];

const CURRENCIES: [&str; 4] = ["EUR", "GBP", "USD", "SEK"];

/// A script of at most `bytes` bytes that the Rust reads without error: as many whole parts as fit.
/// The shortest answer is a heading of a few bytes.
pub fn script(shape: Shape, bytes: usize, seed: u64) -> Vec<u8> {
    let mut random = Random::new(seed);
    let mut text = String::from("# drop\n");
    for number in 1.. {
        let part = match shape {
            Shape::Schedules => schedule(number, &mut random),
            Shape::CallDates => call_dates(number, &mut random),
            Shape::StepLadders => step_ladder(number, &mut random),
        };
        if text.len() + part.len() > bytes {
            break;
        }
        text += &part;
    }
    text.into_bytes()
}

/// A table of terms, and what follows from them.
fn schedule(number: usize, random: &mut Random) -> String {
    let (issuer, currency) = (random.pick(&ISSUERS), random.pick(&CURRENCIES));
    let (coupon, first) = (rate(random), date(random));
    let nominal = random.between(1, 900) * 1_000_000;
    let callable = random.pick(&["true", "false"]);
    format!(
        "# Schedule {number}: fixed coupon, 30/360\n\
         var schedule{number} = [[\n    issuer => \"{issuer}\",\n    currency => \"{currency}\",\n\
         \x20   nominal => {nominal},\n    coupon => {coupon},\n    first => {first},\n\
         \x20   callable => {callable},\n]];\n\
         var accrued{number} = {nominal} * {coupon} / 100 * (181 % 360) / 360;\n\
         schedule{number}.issuer;\n\n"
    )
}

/// An array of dates, and a function that looks one up.
fn call_dates(number: usize, random: &mut Random) -> String {
    let dates: Vec<String> = (0..random.between(3, 14)).map(|_| date(random)).collect();
    let dates = dates.join(", ");
    let price = rate(random);
    format!(
        "// Call dates {number}, at par from the last one on\n\
         var calls{number} = [{dates}];\n\
         fn price{number}(day) {{\n    for i, call in calls{number} {{\n\
         \x20       if call == day && !(i < 0) {{\n            return 100 + {price} - i * 0.25;\n        }}\n    }}\n\
         \x20   return 100.0; // par\n}}\n\n"
    )
}

/// A function of steps, an array of what it gives, and their sum.
fn step_ladder(number: usize, random: &mut Random) -> String {
    let year = random.between(2024, 2030);
    let (early, middle, late) = (rate(random), rate(random), rate(random));
    let years: Vec<String> =
        (year..year + random.between(2, 9)).map(|y| format!("step{number}({y})")).collect();
    let ladder = years.join(",\n    ");
    format!(
        "fn step{number}(year) {{\n    if year <= {year} {{\n        return {early};\n\
         \x20   }} elif year > {year} && year != 2031 || false {{\n        return {middle};\n\
         \x20   }} else {{\n        return {late};\n    }}\n}}\n\
         var ladder{number} = [\n    {ladder},\n];\n\
         var due{number} = -1;\n\
         for i, step in ladder{number} {{\n    due{number} = due{number} + step; # in percent\n}}\n\
         @print(\"due {number}\", due{number}, ladder{number}[0]);\n\n"
    )
}

/// A date as a number of eight digits.
fn date(random: &mut Random) -> String {
    format!("20{}{:02}{:02}", random.between(24, 54), random.between(1, 12), random.between(1, 28))
}

/// A rate in percent with up to three decimals.
fn rate(random: &mut Random) -> String {
    format!("{}.{}", random.below(12), random.pick(&["0", "25", "5", "125", "875"]))
}

#[cfg(test)]
mod tests {
    use super::*;
    use reference::lex::Lexer;
    use reference::parser::Parser;
    use reference::symtab::SymTab;

    #[test]
    fn the_rust_reads_every_shape_without_error() {
        for shape in Shape::ALL {
            let text = script(shape, 8_192, 1);
            assert!(text.len() > 7_000, "{shape:?}");
            let mut lexer = Lexer::new(&text[..]);
            let mut symbols = SymTab::new();
            let result = Parser::new(&mut lexer, &mut symbols).parse();
            assert!(!result.has_err && result.errors.is_empty(), "{shape:?}: {:?}", result.errors);
            assert!(lexer.curr.is_none(), "{shape:?}: not read to its end");
        }
    }
}
