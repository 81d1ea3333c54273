//! Shapes that a reader can be slow at: many errors, names, levels, operands or nestings.

use super::random::Random;
use super::spellings::WORDS;
use std::borrow::Cow;

/// A shape's name, what scripts of it begin with, and what they repeat.
struct Shape {
    name: &'static str,
    begin: String,
    unit: Cow<'static, str>,
    end: &'static str,
}

/// A script of each shape, of at most `bytes` bytes, under its name.
pub fn all(bytes: usize) -> Vec<(&'static str, Vec<u8>)> {
    let repeated = shapes(bytes).into_iter().map(|shape| {
        let count = bytes.saturating_sub(shape.begin.len() + shape.end.len()) / shape.unit.len();
        let script = shape.begin + &shape.unit.repeat(count) + shape.end;
        (shape.name, script.into_bytes())
    });
    let made = [
        ("many names", many_names(bytes)),
        ("many parameters, looked up", many_params(bytes)),
        ("a name on raised levels, looked up", raised_name(bytes)),
        ("one long string", long_string(bytes)),
    ];
    repeated.chain(made).collect()
}

fn shapes(bytes: usize) -> Vec<Shape> {
    let shape = |name, begin: &str, unit: &'static str, end| Shape {
        name,
        begin: begin.to_string(),
        unit: unit.into(),
        end,
    };
    let spine = format!("var a=1{};", "+1".repeat(bytes / 4));
    let spread = format!("{}{}", "{var a;".repeat(700), "}".repeat(700));
    let long_name = "n".repeat(bytes / 2);
    vec![
        shape("errors", "", ";", ""),
        shape("errors, a line each", "", ";\n", ""),
        shape("missing names", "", "var 1;", ""),
        shape("left operands", "1", "+1", ";"),
        shape("operators of all levels", "1", "||1&&1==1<1+1*1%-1", ";"),
        shape("raised levels", "var a;", "{a;;", ""),
        shape("names on raised levels", "", "{var a;a;;", ""),
        shape("unknown names on raised levels", "", "{;q;", ""),
        shape("one name on many levels", &spread, "a;", ""),
        shape("large value, looked up", &spine, "a;", ""),
        shape("arguments", "fn f(a){}", "f(f(1));", ""),
        shape("array elements", "var a;", "a[0]=a[1]=1;", ""),
        shape("a large value for elements", &format!("var a;{}1", "a[0]=".repeat(250)), "+a", ";"),
        shape("table items", "var t=[[", "k=>1,", "]];"),
        shape("branches", "if 1{}", "elif 1{}else{}", ""),
        shape("declared again", "", "fn f(x){}var f;", ""),
        Shape {
            name: "a long name",
            begin: format!("var {long_name};"),
            unit: "n;".into(),
            end: "",
        },
        shape("one long array", "var a=[", "1,", "];"),
        shape("comments", "", "# a comment, and no more\n", ""),
    ]
    .into_iter()
    .chain(nests(0))
    .collect()
}

/// Declarations that nest as deep as is read, or more levels than that.
fn nests(more: usize) -> impl Iterator<Item = Shape> {
    let named = [
        ("round nests", (255, "(", "1", ")", ";")),
        ("curly nests", (768, "{", "", "}", "")),
        ("square nests", (255, "a[", "0", " ]", ";")),
        ("element chains", (763, "a[0]=", "1", "", ";")),
        ("unary chains", (765, "-", "1", "", ";")),
    ];
    named.into_iter().map(move |(name, (deepest, open, inside, close, end))| {
        let count = deepest + more;
        let unit = [&open.repeat(count), inside, &close.repeat(count), end].concat();
        Shape { name, begin: "var a;".to_string(), unit: unit.into(), end: "" }
    })
}

/// A third of the script declares names, the rest looks them up.
fn many_names(bytes: usize) -> Vec<u8> {
    let mut random = Random::new(8);
    let (mut text, mut names) = (String::new(), Vec::new());
    while text.len() + 12 < bytes / 3 {
        names.push(name(names.len()));
        text += &format!("var {};", names[names.len() - 1]);
    }
    while text.len() + 6 < bytes && !names.is_empty() {
        text += &names[random.below(names.len())];
        text += ";";
    }
    text.into_bytes()
}

/// The most parameters of a function.
const MAX_PARAMS: usize = 64;

/// As many names as fit beside more than twice as many lookups: the parameters of functions, which all stand on
/// level 1, and a block that looks up those of one letter, which lie anywhere among them.
fn many_params(bytes: usize) -> Vec<u8> {
    let mut random = Random::new(9);
    let is_name = |name: &String| !WORDS.contains(&name.as_str());
    let mut names: Vec<String> = (0..bytes / 9).map(name).filter(is_name).collect();
    let short: Vec<String> = (b'a'..=b'z').map(|letter| char::from(letter).to_string()).collect();
    for one in &short {
        let at = random.below(names.len() + 1);
        names.insert(at, one.clone());
    }
    let functions = names.chunks(MAX_PARAMS).map(|names| format!("fn f({}){{}}", names.join(",")));
    let mut text: String = functions.collect();
    text += "{a";
    while text.len() + 4 < bytes {
        text += "+";
        text += &short[random.below(short.len())];
    }
    (text + ";}").into_bytes()
}

/// A name that is declared on as many raised levels as half of the script has, and then looked up.
fn raised_name(bytes: usize) -> Vec<u8> {
    let declared = "{var a;;".repeat(bytes / 16);
    let looked_up = "a;".repeat(bytes.saturating_sub(declared.len()) / 2);
    (declared + &looked_up).into_bytes()
}

fn long_string(bytes: usize) -> Vec<u8> {
    format!("\"{}\";", "s".repeat(bytes.saturating_sub(3))).into_bytes()
}

/// A name of three letters.
fn name(number: usize) -> String {
    let letter = |digit: usize| (b'a' + (digit % 26) as u8) as char;
    [letter(number / 676), letter(number / 26), letter(number)].iter().collect()
}

#[cfg(test)]
mod tests {
    use super::*;
    use reference::{reading, run, tokens, End};

    fn end(script: &[u8]) -> End {
        run(|| reading(script, &tokens(script)).end)
    }

    #[test]
    fn the_nests_are_as_deep_as_is_read() {
        for (more, wanted) in [(0, "flag down"), (1, "too deep")] {
            for Shape { name, begin, unit, .. } in nests(more) {
                let told = match end(format!("{begin}{unit}{unit}").as_bytes()) {
                    End::Read(read) if !read.flag => "flag down",
                    End::TooDeep => "too deep",
                    _ => "neither",
                };
                assert_eq!(told, wanted, "{name}");
            }
        }
    }

    #[test]
    fn all_parameters_are_names() {
        let read = end(&many_params(65_535));
        assert!(matches!(read, End::Read(read) if !read.flag));
    }

    #[test]
    fn no_script_is_longer_than_it_may_be() {
        for (name, script) in all(65_535) {
            assert!((32_000..=65_535).contains(&script.len()), "{name}: {}", script.len());
        }
    }
}
