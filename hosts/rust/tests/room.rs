//! The arrays are enough: long scripts of shapes that need the most of one of them.

use sif::{Refusal, MAX_SCRIPT};

/// As many of a part as a script holds, behind a beginning.
fn filled(begin: &str, part: impl Fn(usize) -> String) -> String {
    let mut script = begin.to_string();
    for count in 0.. {
        let part = part(count);
        if script.len() + part.len() > MAX_SCRIPT {
            break;
        }
        script += &part;
    }
    script
}

fn shapes() -> Vec<String> {
    let same = |begin, part: &str| filled(begin, |_| part.to_string());
    let params =
        (0..64).map(|n| char::from(b'a' + n % 26).to_string()).collect::<Vec<_>>().join(",");
    vec![
        // Tokens and errors: a token for each byte, and an error for each token.
        same("", ";"),
        // Nodes: a chain of operands, and statements.
        same("1", "+1"),
        same("", "1;"),
        same("", "{}"),
        // Symbols: names on levels that stay raised, and parameters.
        filled("", |n| format!("{{var {};;", char::from(b'a' + (n % 26) as u8))),
        same("", &format!("{{fn f({params}){{;")),
        // The text: inserted returns, and parentheses round table accesses.
        same("", "fn f(){}"),
        same("var a;", &format!("{}1;", "-a.".repeat(100))),
        same("var a;", &format!("1{};", "+a.1".repeat(100))),
    ]
}

#[test]
fn the_longest_scripts_have_room() {
    for script in shapes() {
        let shown = &script[..script.len().min(40)];
        let reading =
            sif::read(script.as_bytes()).unwrap_or_else(|refusal| panic!("{shown}: {refusal}"));
        match sif::text(script.as_bytes()) {
            Ok(text) => assert!(!reading.failed() && text.len() <= 4 * script.len(), "{shown}"),
            Err(refusal) => {
                assert!(reading.failed() && refusal == Refusal::Flagged, "{shown}: {refusal}")
            }
        }
    }
}

#[test]
fn the_shortest_scripts_have_room() {
    for script in ["", ";", "a", "1;", "fn f(){}", "var a;-a.1;", "{", "\""] {
        assert!(sif::tokens(script.as_bytes()).is_ok(), "{script}");
        assert!(sif::read(script.as_bytes()).is_ok(), "{script}");
        let text = sif::text(script.as_bytes());
        assert!(matches!(text, Ok(_) | Err(Refusal::Flagged)), "{script}");
    }
}

#[test]
fn one_byte_more_is_refused() {
    let script = vec![b' '; MAX_SCRIPT + 1];
    assert_eq!(sif::tokens(&script).unwrap_err(), Refusal::LongScript);
    assert_eq!(sif::read(&script).unwrap_err(), Refusal::LongScript);
    assert_eq!(sif::text(&script).unwrap_err(), Refusal::LongScript);
    assert_eq!(sif::read(&script[1..]).unwrap().nodes().len(), 1);
}
