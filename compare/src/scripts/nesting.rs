//! Scripts that nest as deep as is read, and a little deeper.

use super::random::Random;
use reference::DEPTH_LIMIT;

/// What opens a level, what closes it, and how many counted calls it adds.
const LEVELS: [(&str, &str, usize); 16] = [
    ("{", "}", 1),
    ("fn f(){", "}", 1),
    ("if 1{", "}", 1),
    ("if 1{}elif 1{", "}", 1),
    ("if 1{}else{", "}", 1),
    ("for i,j in 1{", "}", 1),
    ("-", "", 1),
    ("!", "", 1),
    ("@", "", 1),
    ("a=", "", 1),
    ("(", ")", 3),
    ("a.", "", 3),
    ("a[", "]", 3),
    ("print(", ")", 3),
    ("1+(", ")", 3),
    ("-(", ")", 4),
];

/// What stands inside: nothing, expressions and declarations, also such that fail.
const INSIDE: [&str; 12] = [
    "",
    "1",
    "1;",
    "-1;",
    "a(1);",
    "(1);",
    "@print(1);",
    "var a=1;",
    "fn f() 5",
    "q;",
    "if 1{}",
    "return 1;",
];

/// Visits nestings of each level, from a little under the limit to a little over it, closed and open.
/// `few` leaves out most of what can stand inside.
pub fn around_limit(few: bool, mut visit: impl FnMut(&[u8])) {
    let inside = if few { &INSIDE[1..3] } else { &INSIDE[..] };
    for (open, close, cost) in LEVELS {
        let about = DEPTH_LIMIT / cost;
        for (count, inside) in
            (about - 4..=about + 2).flat_map(|n| inside.iter().map(move |i| (n, i)))
        {
            let opened = format!("var a;{}{inside}", open.repeat(count));
            visit(opened.as_bytes());
            visit(format!("{opened}{};", close.repeat(count)).as_bytes());
        }
    }
}

/// Visits scripts of so many bytes that nest in each way from the first byte on.
pub fn in_bytes(len: usize, mut visit: impl FnMut(&[u8])) {
    for (open, _, _) in LEVELS {
        visit(&open.repeat(len).as_bytes()[..len]);
    }
}

/// Visits scripts that nest far too deep.
pub fn far_too_deep(mut visit: impl FnMut(&[u8])) {
    for (open, _, _) in LEVELS {
        visit(format!("var a;{}", open.repeat(60_000 / open.len())).as_bytes());
    }
}

/// The first levels are blocks.
const BLOCKS: usize = 6;

/// Levels of expressions that nest in any order.
const MIXED: [(&str, &str, usize); 8] = [
    ("-", "", 1),
    ("!", "", 1),
    ("(", ")", 3),
    ("a.", "", 3),
    ("a[", "]", 3),
    ("print(1,", ")", 3),
    ("@(", ")", 4),
    ("(a=", ")", 4),
];

/// A script of mixed levels, blocks outside and expressions inside, of about the limit's depth.
pub fn mixed(random: &mut Random) -> Vec<u8> {
    let wanted = random.between(DEPTH_LIMIT - 10, DEPTH_LIMIT + 2);
    let blocks = random.below(wanted);
    let (mut script, mut closing, mut depth) = (String::from("var a;"), Vec::new(), 0);
    while depth < wanted {
        let levels = if depth < blocks { &LEVELS[..BLOCKS] } else { &MIXED[..] };
        let (open, close, cost) = levels[random.below(levels.len())];
        script += open;
        closing.push(if depth < blocks { "; }" } else { close });
        depth += cost;
    }
    script += random.pick(&INSIDE);
    if random.once_in(2) {
        script.extend(closing.into_iter().rev());
    }
    script.into_bytes()
}

/// Visits scripts whose canonical texts nest deeper than they do, from texts that are read to texts that
/// are not: a table access that is an operand gets parentheses.
pub fn deeper_texts(mut visit: impl FnMut(&[u8])) {
    for (unit, cost) in [("-a.", 4), ("!-a.", 5), ("1+a.", 3)] {
        let most = DEPTH_LIMIT / cost - 1;
        for count in (1..=most).rev().step_by(7).chain(DEPTH_LIMIT / (cost + 3) - 3..=most.min(200))
        {
            visit(format!("var a;{}1;", unit.repeat(count)).as_bytes());
        }
    }
}

/// A script of mixed levels that is read with the flag down unless it is too deep: blocks, and in them
/// expressions, all closed.
pub fn sound(random: &mut Random) -> Vec<u8> {
    let wanted = random.between(DEPTH_LIMIT / 4, DEPTH_LIMIT + 1);
    let blocks = random.below(wanted);
    let (mut script, mut closing, mut depth) = (String::from("var a;"), Vec::new(), 0);
    while depth < blocks {
        script += LEVELS[random.below(BLOCKS)].0;
        closing.push("}");
        depth += 1;
    }
    closing.push(";");
    while depth + 4 < wanted {
        let (open, close, cost) = MIXED[random.below(MIXED.len())];
        script += open;
        closing.extend([close, " "]);
        depth += cost;
    }
    script += "1";
    script.extend(closing.into_iter().rev());
    script.into_bytes()
}
