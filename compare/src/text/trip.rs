//! Demand 3 on each script that is read with the flag down: its text, the reading of the text, the text of
//! the text; and over all scripts, that texts are equal exactly when trees are the same. The text is the
//! bytes that the call wrote, whatever the printer in `oracle` says of them.

use super::oracle::{has_token, Spellings};
use super::{called, TextRooms};
use crate::host::{ReadingCall, TextCall};
use crate::lent::Lent;
use crate::reading::{Case, Needs, Rooms};
use crate::tokens::{same, MAX_SCRIPT};
use reference::{End, Node, Read};
use std::collections::HashMap;
use std::hash::{DefaultHasher, Hash, Hasher};

/// The kind of node whose payload is its scope.
const BLOCK: u32 = 2;

/// The calls that demand 3 is about.
#[derive(Clone, Copy)]
pub struct Calls {
    pub reading: ReadingCall,
    pub text: TextCall,
}

/// What is compared of a node: its first word, its scope if it is a Block, and the bytes of its token if it
/// has one.
#[derive(Debug, Hash, PartialEq)]
struct Label<'a> {
    head: u32,
    scope: usize,
    text: &'a [u8],
}

/// The trees of all scripts so far and their texts, by hashes.
#[derive(Default)]
pub struct Pairs {
    text_of: HashMap<u64, u64>,
    tree_of: HashMap<u64, u64>,
    scripts: u64,
}

impl Pairs {
    /// Adds the tree and the text of a script. The same tree must have had this text, and the same text
    /// this tree.
    fn add(&mut self, tree: &[Label], text: &[u8]) -> Result<(), String> {
        let (tree, text) = (hash(&tree), hash(&text));
        self.scripts += 1;
        if *self.text_of.entry(tree).or_insert(text) != text {
            return Err("another script has the same tree and another text".to_string());
        }
        if *self.tree_of.entry(text).or_insert(tree) != tree {
            return Err("another script has the same text and another tree".to_string());
        }
        Ok(())
    }

    /// The scripts that were added, and how many trees they have.
    pub fn told(&self) -> String {
        let (trees, texts) = (self.text_of.len(), self.tree_of.len());
        format!("{} scripts with the flag down: {trees} trees, {texts} texts", self.scripts)
    }
}

fn hash(value: &impl Hash) -> u64 {
    let mut hasher = DefaultHasher::new();
    value.hash(&mut hasher);
    hasher.finish()
}

/// Goes from a script that is read with the flag down to its text, and on. Answers the name of the
/// ending: a text may be too long or too deep to be read, which the premise of demand 3 leaves out.
pub fn check(
    calls: Calls,
    case: &Case,
    read: &Read,
    pairs: &mut Pairs,
) -> Result<&'static str, String> {
    let script = case.script();
    let first = called(calls.text, script, rooms(case, script.len(), 3));
    let text = first.written()?;
    let tree = labels(script, &first.arrays);
    same("tree", &tree, &rust_labels(case, read))?;
    pairs.add(&tree, text)?;
    let text_case = Case::new(text);
    let full = Rooms::for_needs(text_case.needs(), 0);
    text_case.check(calls.reading, full).map_err(|difference| format!("text: {difference}"))?;
    match text_case.end() {
        _ if text.len() > MAX_SCRIPT => {
            refused_again(calls, &text_case, full)?;
            Ok("flag down, text too long")
        }
        End::TooDeep => {
            refused_again(calls, &text_case, full)?;
            Ok("flag down, text too deep")
        }
        End::Read(again) => {
            same("flag of the text's reading", again.flag, false)?;
            same("the Rust's tree of the text", &rust_labels(&text_case, again), &tree)?;
            read_again(calls, &text_case, &tree)?;
            Ok("flag down")
        }
        other => Err(format!("the Rust does not read the text: {other:?}")),
    }
}

/// The reading of a text gives the same tree, and its text is itself.
fn read_again(calls: Calls, case: &Case, tree: &[Label]) -> Result<(), String> {
    let text = case.script();
    let ample = rooms(case, text.len(), 5);
    let (answer, arrays) = case.called(calls.reading, ample.arrays);
    same("refusal of the text's reading", answer.number, 0)?;
    same("tree of the text", &labels(text, &arrays)[..], tree)?;
    let exact = TextRooms { arrays: Rooms::for_needs(case.needs(), 2), text: text.len() };
    for rooms in [ample, exact] {
        let second = called(calls.text, text, rooms);
        same("text of the text", second.written()?, text)?;
        same("tree of the text's text call", &labels(text, &second.arrays)[..], tree)?;
    }
    Ok(())
}

/// The text call refuses a text as its reading does.
fn refused_again(calls: Calls, case: &Case, arrays: Rooms) -> Result<(), String> {
    let rooms = TextRooms { arrays, text: case.script().len() };
    super::Case::new(case).check(calls.text, rooms)
}

/// Ample arrays, and a buffer that is longer than any text of a script of so many bytes.
fn rooms(case: &Case, bytes: usize, more: usize) -> TextRooms {
    let Needs { tokens, nodes, symbols, errors } = case.needs();
    let arrays = Needs {
        tokens: tokens + more,
        nodes: nodes + 2 * more,
        symbols: symbols + more,
        errors: errors + 1,
    };
    TextRooms { arrays: Rooms::for_needs(arrays, more % 4), text: 4 * bytes + more }
}

/// The labels of the tree that a call left in the arrays.
fn labels<'a>(script: &'a [u8], arrays: &[Lent; 7]) -> Vec<Label<'a>> {
    let [offs, words, heads, loads, ..] = arrays.each_ref().map(Lent::elements);
    let text = |token: usize| {
        let (at, len) = (offs[token] as usize, words[token] as usize / 64);
        script.get(at..at + len).unwrap_or(b"outside of the script")
    };
    let nodes = heads.iter().zip(loads).take_while(|(&head, _)| head != 0);
    nodes.map(|(&head, &load)| label(head, load as usize, text)).collect()
}

/// The labels of the tree that the Rust built.
fn rust_labels<'a>(case: &'a Case, read: &Read) -> Vec<Label<'a>> {
    let spellings = Spellings::new(case.script(), &case.lexed().tokens);
    let head = |node: &Node| node.kind + 32 * u32::from(node.mark) + 64 * node.children as u32;
    let label = |node: &Node| label(head(node), node.load, |token| spellings.of(token));
    read.nodes.iter().map(label).collect()
}

fn label<'a>(head: u32, load: usize, text: impl Fn(usize) -> &'a [u8]) -> Label<'a> {
    let kind = head % 32;
    let scope = if kind == BLOCK { load } else { 0 };
    let text = if has_token(kind) { text(load) } else { b"" };
    Label { head, scope, text }
}

#[cfg(test)]
mod tests {
    use super::*;

    #[test]
    fn one_tree_has_one_text_and_one_text_one_tree() {
        let tree = |text| [Label { head: 24, scope: 0, text }];
        let mut pairs = Pairs::default();
        assert!(pairs.add(&tree(b"1"), b"1 ;").is_ok());
        assert!(pairs.add(&tree(b"1"), b"1 ;").is_ok());
        assert!(pairs.add(&tree(b"2"), b"2 ;").is_ok());
        assert!(pairs.add(&tree(b"2"), b"( 2 ) ;").is_err());
        assert!(pairs.add(&tree(b"3"), b"1 ;").is_err());
        assert_eq!(pairs.told(), "5 scripts with the flag down: 3 trees, 2 texts");
    }
}
