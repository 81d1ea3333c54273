//! Scripts made by the grammar, of few names, so that names meet: scopes, functions, calls, tables,
//! arrays, branches, loops, dots and `@`. And such scripts with words changed, and sound ones, which are
//! read with the flag down.

use super::random::Random;
use super::spellings::{SIGNS, SPACES, WORDS};

/// The names; some are functions in one place and variables in another.
const NAMES: [&str; 9] = ["a", "b", "c", "f", "g", "t", "x", "print", "range"];

const LITERALS: [&str; 8] = ["1", "2.50", "007", "\"s\"", "\"f\"", "\"a\nb\"", "true", "false"];

const OPERATORS: [&str; 13] =
    ["||", "&&", "==", "!=", "<", "<=", ">", ">=", "+", "-", "*", "/", "%"];

/// The names that are variables, and the functions with their numbers of parameters, after a prelude.
const VARIABLES: [&str; 4] = ["a", "b", "c", "x"];
const FUNCTIONS: [(&str, usize); 4] = [("f", 2), ("g", 0), ("print", 3), ("range", 1)];

/// What most scripts begin with, so that all names are known.
const PRELUDE: &str = "var a = 1 ; var b = [ 1 , a ] ; var c ; var x = a ; \
    var t = [[ k => 1 ]] ; fn f ( x , c ) { return x ; } fn g ( ) { }";

/// What every sound script begins with: its variables and functions, which nothing else is named after.
const SOUND_PRELUDE: &str = "var a ; var b ; var c ; var x ; fn f ( p , q ) { } fn g ( ) { }";

/// The names of functions, parameters and loops in sound scripts. They are neither called nor assigned to.
const SOUND_FUNCTIONS: [&str; 2] = ["h", "k"];
const SOUND_PARAMS: [&str; 2] = ["p", "q"];
const SOUND_LOOPS: [&str; 2] = ["i", "j"];

/// A script as its words.
struct Maker<'r> {
    random: &'r mut Random,
    words: Vec<&'static str>,
    /// Whether every name is declared and every call and assignment is right.
    is_sound: bool,
}

/// A script of a few declarations.
pub fn script(random: &mut Random) -> Vec<u8> {
    let words = words(random);
    joined(&words, random)
}

/// A script of a few declarations that is read with the flag down.
pub fn sound(random: &mut Random) -> Vec<u8> {
    let words = SOUND_PRELUDE.split_whitespace().collect();
    let mut maker = Maker { random, words, is_sound: true };
    let count = maker.random.between(1, 5);
    maker.decls(count, 3);
    let words = maker.words;
    joined(&words, random)
}

/// A script with one to three words deleted, put in, put in another's place or swapped, or cut off.
pub fn mutated(random: &mut Random) -> Vec<u8> {
    let mut words = words(random);
    for _ in 0..random.between(1, 3) {
        mutate(&mut words, random);
    }
    joined(&words, random)
}

fn mutate(words: &mut Vec<&'static str>, random: &mut Random) {
    if words.is_empty() {
        return;
    }
    let (at, next) = (random.below(words.len()), random.below(words.len()));
    match random.below(12) {
        0..=2 => drop(words.remove(at)),
        3..=5 => words.insert(at, any_word(random)),
        6..=8 => words[at] = any_word(random),
        9 | 10 => words.swap(at, next),
        _ => words.truncate(at),
    }
}

fn any_word(random: &mut Random) -> &'static str {
    match random.below(8) {
        0..=2 => random.pick(&SIGNS),
        3 | 4 => random.pick(&WORDS),
        5 => random.pick(&NAMES),
        6 => random.pick(&LITERALS),
        _ => random.pick(&["$", "\"", "// c", "1.", "q", "&", "|", "("]),
    }
}

/// The words with space between them, now and then a newline or a comment.
fn joined(words: &[&str], random: &mut Random) -> Vec<u8> {
    let mut text = String::new();
    for word in words {
        text += word;
        text += match random.below(24) {
            0 => random.pick(&SPACES),
            1 => " # c\n",
            2 => " // c\n",
            _ => " ",
        };
    }
    text.into_bytes()
}

fn words(random: &mut Random) -> Vec<&'static str> {
    let prelude = if random.once_in(5) { "" } else { PRELUDE };
    let words = prelude.split_whitespace().collect();
    let mut maker = Maker { random, words, is_sound: false };
    let count = maker.random.between(1, 5);
    maker.decls(count, 3);
    maker.words
}

impl Maker<'_> {
    fn add(&mut self, words: &[&'static str]) {
        self.words.extend(words);
    }

    fn name(&mut self) {
        self.name_of(&VARIABLES);
    }

    /// Any name; in a sound script one of these.
    fn name_of(&mut self, sound: &[&'static str]) {
        let name = self.random.pick(if self.is_sound { sound } else { &NAMES });
        self.add(&[name]);
    }

    fn decls(&mut self, count: usize, depth: usize) {
        (0..count).for_each(|_| self.decl(depth));
    }

    fn decl(&mut self, depth: usize) {
        match self.random.below(if depth == 0 { 6 } else { 14 }) {
            0 | 1 => self.var_decl(),
            2..=4 => {
                self.expr(3);
                self.add(&[";"]);
            }
            5 => self.ret_stmt(),
            6 | 7 => self.fn_decl(depth - 1),
            8..=10 => self.if_stmt(depth - 1),
            11 | 12 => self.for_stmt(depth - 1),
            _ => self.block(depth - 1),
        }
    }

    fn var_decl(&mut self) {
        self.add(&["var"]);
        self.name();
        match self.random.below(6) {
            0 => (),
            1 => self.list("[", "]", false),
            2 => self.list("[[", "]]", true),
            _ => {
                self.add(&["="]);
                self.expr(3);
            }
        }
        self.add(&[";"]);
    }

    /// An array or a table.
    fn list(&mut self, open: &'static str, close: &'static str, has_keys: bool) {
        self.add(&["=", open]);
        for _ in 0..self.random.below(4) {
            if has_keys {
                self.name();
                self.add(&["=>"]);
            }
            self.expr(2);
            self.add(&[","]);
        }
        if self.words.last() == Some(&",") && self.random.once_in(2) {
            self.words.pop();
        }
        self.add(&[close]);
    }

    fn ret_stmt(&mut self) {
        self.add(&["return"]);
        if !self.random.once_in(3) {
            self.expr(2);
        }
        self.add(&[";"]);
    }

    fn fn_decl(&mut self, depth: usize) {
        self.add(&["fn"]);
        self.name_of(&SOUND_FUNCTIONS);
        self.add(&["("]);
        self.items(|maker| maker.name_of(&SOUND_PARAMS));
        self.add(&[")"]);
        self.block(depth);
    }

    /// Up to three items with commas between them, now and then one more comma.
    fn items(&mut self, item: impl Fn(&mut Self)) {
        for _ in 0..self.random.below(4) {
            item(self);
            self.add(&[","]);
        }
        if self.words.last() == Some(&",") && !self.random.once_in(5) {
            self.words.pop();
        }
    }

    fn if_stmt(&mut self, depth: usize) {
        self.add(&["if"]);
        self.expr(2);
        self.block(depth);
        while self.random.once_in(2) {
            if self.random.once_in(2) {
                self.add(&["else"]);
            } else {
                self.add(&["elif"]);
                self.expr(1);
            }
            self.block(depth);
        }
    }

    fn for_stmt(&mut self, depth: usize) {
        self.add(&["for"]);
        self.name_of(&SOUND_LOOPS);
        self.add(&[","]);
        self.name_of(&SOUND_LOOPS);
        self.add(&["in"]);
        self.expr(1);
        self.block(depth);
    }

    fn block(&mut self, depth: usize) {
        self.add(&["{"]);
        let count = self.random.below(4);
        self.decls(count, depth);
        self.add(&["}"]);
    }

    /// An expression of at most so many expressions inside one another.
    fn expr(&mut self, depth: usize) {
        match self.random.below(if depth == 0 { 4 } else { 10 }) {
            0..=3 => self.operand(depth),
            4..=6 => self.binary(depth - 1),
            7 | 8 => self.assign(depth - 1),
            _ => self.suffixed(depth - 1),
        }
    }

    /// What an operator may have on either side.
    fn operand(&mut self, depth: usize) {
        match self.random.below(if depth == 0 { 4 } else { 8 }) {
            0 => {
                let literal = self.random.pick(&LITERALS);
                self.add(&[literal]);
            }
            1 => self.name(),
            2 | 3 => self.variable(),
            4 => {
                let sign = self.random.pick(&["-", "!"]);
                self.add(&[sign]);
                self.operand(depth - 1);
            }
            5 => self.group(depth - 1),
            _ => self.suffixed(depth - 1),
        }
    }

    fn variable(&mut self) {
        let variable = self.random.pick(&VARIABLES);
        self.add(&[variable]);
    }

    fn binary(&mut self, depth: usize) {
        self.operand(depth);
        let operator = self.random.pick(&OPERATORS);
        self.add(&[operator]);
        self.operand(depth);
    }

    fn group(&mut self, depth: usize) {
        self.add(&["("]);
        self.expr(depth);
        self.add(&[")"]);
    }

    fn assign(&mut self, depth: usize) {
        match self.random.below(12) {
            0 if !self.is_sound => self.operand(depth),
            1 => self.name(),
            2 | 3 => self.index(depth),
            _ => self.variable(),
        }
        self.add(&["="]);
        self.expr(depth);
    }

    fn index(&mut self, depth: usize) {
        self.variable();
        self.add(&["["]);
        self.expr(depth);
        self.add(&["]"]);
    }

    /// A call, an index or a dot.
    fn suffixed(&mut self, depth: usize) {
        if self.random.once_in(5) {
            self.add(&["@"]);
        }
        match self.random.below(16) {
            0 if !self.is_sound => self.any_suffixed(depth),
            1..=3 => self.index(depth),
            4..=6 => {
                self.variable();
                self.add(&["."]);
                self.expr(depth);
            }
            _ => self.call(depth),
        }
    }

    /// A call of a known function, most times with the right number of arguments; in a sound script always.
    fn call(&mut self, depth: usize) {
        let (name, params) = FUNCTIONS[self.random.below(FUNCTIONS.len())];
        let any_count = self.random.once_in(12) && !self.is_sound;
        let count = if any_count { self.random.below(4) } else { params };
        self.add(&[name, "("]);
        for at in 0..count {
            self.expr(depth);
            if at + 1 < count || self.random.once_in(8) {
                self.add(&[","]);
            }
        }
        self.add(&[")"]);
    }

    /// A name, a string or a group with any suffix.
    fn any_suffixed(&mut self, depth: usize) {
        match self.random.below(3) {
            0 => self.group(depth),
            1 => self.add(&["\"f\""]),
            _ => self.name(),
        }
        match self.random.below(3) {
            0 => self.add(&[".", "k"]),
            1 => self.add(&["[", "0", "]"]),
            _ => self.add(&["(", "1", ",", "a", ")"]),
        }
    }
}

#[cfg(test)]
mod tests {
    use super::*;
    use reference::{reading, tokens, End};

    #[test]
    fn sound_scripts_are_read_with_the_flag_down() {
        let mut random = Random::new(3);
        for _ in 0..200 {
            let script = sound(&mut random);
            match reading(&script, &tokens(&script)).end {
                End::Read(read) if !read.flag => (),
                other => panic!("{}: {other:?}", script.escape_ascii()),
            }
        }
    }
}
