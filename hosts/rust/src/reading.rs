//! A script that is read: its tokens, its tree and its errors.

use crate::call::{Arrays, Summary};
use crate::error::{ParseError, Reason};
use crate::place::Lines;
use crate::token::{Stop, Token, Tokens};
use crate::tree::Node;

/// What a reading gives. It borrows the script.
#[derive(Clone, Debug, PartialEq)]
pub struct Reading<'s> {
    tokens: Tokens<'s>,
    pub(crate) heads: Vec<u32>,
    pub(crate) loads: Vec<u32>,
    places: Vec<u32>,
    reasons: Vec<u32>,
    failed: bool,
    ended: Option<ParseError<'s>>,
    /// The children of all nodes, those of one node in order and together.
    pub(crate) children: Vec<u32>,
    /// Where the children of each node begin.
    pub(crate) first_child: Vec<u32>,
    /// The first node of the subtree of each node; the subtree ends with the node itself.
    pub(crate) first: Vec<u32>,
}

/// The words and numbers of a reading as the library gives them (include/sif.h), for who wants document 01's numbers.
#[derive(Clone, Copy, Debug, PartialEq)]
pub struct Raw<'r> {
    pub offs: &'r [u32],
    pub words: &'r [u32],
    pub heads: &'r [u32],
    pub loads: &'r [u32],
    pub places: &'r [u32],
    pub reasons: &'r [u32],
    pub flag: bool,
}

impl<'s> Reading<'s> {
    pub(crate) fn new(script: &'s [u8], mut arrays: Arrays, summary: Summary) -> Reading<'s> {
        arrays.keep(summary.tokens, summary.nodes, summary.errors);
        let Arrays { offs, words, heads, loads, places, reasons, .. } = arrays;
        let tokens = Tokens::new(script, offs, words);
        let ended = ParseError::of_early(summary.early, &tokens);
        let mut reading = Reading {
            tokens,
            heads,
            loads,
            places,
            reasons,
            failed: summary.flag != 0,
            ended,
            children: Vec::new(),
            first_child: Vec::new(),
            first: Vec::new(),
        };
        reading.link();
        reading
    }

    /// Finds the children of each node: nodes stand children first, and each takes the last that are not taken yet.
    fn link(&mut self) {
        let mut untaken: Vec<u32> = Vec::new();
        for (index, head) in self.heads.iter().enumerate() {
            let from = untaken.len() - *head as usize / 64;
            self.first_child.push(self.children.len() as u32);
            self.first
                .push(untaken.get(from).map_or(index as u32, |child| self.first[*child as usize]));
            self.children.extend(untaken.drain(from..));
            untaken.push(index as u32);
        }
    }

    /// The script.
    pub fn script(&self) -> &'s str {
        self.tokens.script()
    }

    /// The lines of the script.
    pub fn lines(&self) -> Lines {
        Lines::new(self.script().as_bytes())
    }

    pub fn tokens(&self) -> &Tokens<'s> {
        &self.tokens
    }

    /// Why the tokens end. Where it is not [`Stop::End`], a part of the script was not read.
    pub fn stop(&self) -> Stop {
        self.tokens.stop()
    }

    /// The Program, which has all other nodes below it.
    pub fn root(&self) -> Node<'_> {
        Node::new(self, self.heads.len() - 1)
    }

    /// All nodes, children before their parents; the last is the Program.
    pub fn nodes(&self) -> impl DoubleEndedIterator<Item = Node<'_>> + ExactSizeIterator {
        (0..self.heads.len()).map(|index| Node::new(self, index))
    }

    /// Whether the script did not read without failure (has_err). A script that failed has no canonical text.
    pub fn failed(&self) -> bool {
        self.failed
    }

    /// The listed errors, in their order.
    pub fn errors(
        &self,
    ) -> impl DoubleEndedIterator<Item = ParseError<'s>> + ExactSizeIterator + '_ {
        let words = self.places.iter().zip(&self.reasons);
        words.map(|(place, reason)| ParseError::of_words(*place, *reason, &self.tokens))
    }

    /// The error that ended the reading before the script's end, if one did.
    pub fn ended(&self) -> Option<ParseError<'s>> {
        self.ended
    }

    /// The listed errors, and behind them the one that ended the reading where it is not listed itself.
    pub fn problems(&self) -> impl Iterator<Item = ParseError<'s>> + '_ {
        let unlisted = |error: &ParseError| matches!(error.reason, Reason::TknMismatch { .. });
        self.errors().chain(self.ended.filter(unlisted))
    }

    /// Whether the trees are the same as document 01 has it: node by node kind, mark and number of
    /// children, the scope of blocks, and the text of carried tokens.
    pub fn same_tree(&self, other: &Reading<'_>) -> bool {
        fn payload<'r>(node: &Node<'r>) -> (Option<&'r str>, Option<usize>) {
            (node.token().map(|token: Token<'r>| token.text), node.scope())
        }
        let same = |(left, right): (Node, Node)| payload(&left) == payload(&right);
        self.heads == other.heads && self.nodes().zip(other.nodes()).all(same)
    }

    /// The words as the library gives them.
    pub fn raw(&self) -> Raw<'_> {
        let (offs, words) = self.tokens.arrays();
        let Reading { heads, loads, places, reasons, failed, .. } = self;
        Raw { offs, words, heads, loads, places, reasons, flag: *failed }
    }
}
