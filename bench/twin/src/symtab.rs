//! The symbol table, in four words for each symbol.
//!
//! The words of entry number i, and at the same time of bucket number i:
//! 0. the bucket's first name + 65,536 * the next name of this name's bucket;
//! 1. this name's entry that was found last + 65,536 * the entry of this one's next lower level;
//! 2. the token under which it was stored last + 65,536 * the entry of the next higher level;
//! 3. its level + 65,536 * what it is.
//!
//! A link is an entry's number + 1, or 0. The entry that a name got first stands for the name. A
//! lookup goes through the levels of its name from the one that was found last, so that it takes no
//! more steps than the level has changed since.

use crate::parse_err::Refusal;
use crate::token::Tokens;

const WORDS: usize = 4;

/// What a name was declared as. A function has its number of parameters.
#[derive(Clone, Copy, PartialEq)]
pub enum What {
    Placeholder,
    Function(usize),
    Variable { is_global: bool },
    Other,
}

/// A symbol that was found: the token under which it was stored last, and what it is.
#[derive(Clone, Copy)]
pub struct Symbol {
    pub token: usize,
    pub what: What,
}

impl What {
    fn number(self) -> usize {
        match self {
            What::Placeholder => 0,
            What::Other => 1,
            What::Variable { is_global } => 2 + usize::from(is_global),
            What::Function(count) => 4 + count,
        }
    }

    fn of(number: usize) -> What {
        match number {
            0 => What::Placeholder,
            1 => What::Other,
            2 | 3 => What::Variable { is_global: number == 3 },
            _ => What::Function(number - 4),
        }
    }
}

/// A field: a word, and whether it is the upper half of it.
#[derive(Clone, Copy)]
struct Field(usize, bool);

const FIRST_NAME: Field = Field(0, false);
const NEXT_NAME: Field = Field(0, true);
const FOUND_LAST: Field = Field(1, false);
const LOWER: Field = Field(1, true);
const TOKEN: Field = Field(2, false);
const HIGHER: Field = Field(2, true);
const LEVEL: Field = Field(3, false);
const WHAT: Field = Field(3, true);

pub struct SymTab<'a> {
    tokens: Tokens<'a>,
    words: &'a mut [u32],
    count: usize,
    pub level: usize,
}

impl<'a> SymTab<'a> {
    /// An empty table, in words that are all 0.
    pub fn new(tokens: Tokens<'a>, words: &'a mut [u32]) -> SymTab<'a> {
        SymTab { tokens, words, count: 0, level: 0 }
    }

    pub fn is_global(&self) -> bool {
        self.level == 0
    }

    /// Stores a token's name at the current level.
    pub fn store(&mut self, token: usize, what: What) -> Result<(), Refusal> {
        let name = self.tokens.name(token);
        let found = self.name_entry(name);
        let (higher, lower) = found.map_or((None, None), |entry| self.around_level(entry));
        let entry = match lower {
            Some(entry) if self.get(entry, LEVEL) == self.level => entry,
            _ => self.add(higher, lower)?,
        };
        self.set(entry, TOKEN, token);
        self.set(entry, WHAT, what.number());
        match found {
            Some(name_entry) => self.set_link(name_entry, FOUND_LAST, Some(entry)),
            None => self.add_name(name, entry),
        }
        Ok(())
    }

    /// Finds a name at the current level or the next one below that has it.
    pub fn retrieve(&mut self, name: &[u8]) -> Option<Symbol> {
        let name_entry = self.name_entry(name)?;
        let found = self.around_level(name_entry).1?;
        Some(Symbol { token: self.get(found, TOKEN), what: What::of(self.get(found, WHAT)) })
    }

    /// The entry that stands for a name.
    fn name_entry(&self, name: &[u8]) -> Option<usize> {
        if self.count == 0 {
            return None;
        }
        let mut link = self.link(self.bucket(name), FIRST_NAME);
        while let Some(entry) = link {
            if self.tokens.name(self.get(entry, TOKEN)) == name {
                break;
            }
            link = self.link(entry, NEXT_NAME);
        }
        link
    }

    /// Of a name's entries, the lowest one above the current level, and the highest one of the rest.
    fn around_level(&mut self, name_entry: usize) -> (Option<usize>, Option<usize>) {
        let mut lower = self.link(name_entry, FOUND_LAST);
        let mut higher = lower.and_then(|entry| self.link(entry, HIGHER));
        while let Some(entry) = lower.filter(|&entry| self.get(entry, LEVEL) > self.level) {
            (higher, lower) = (lower, self.link(entry, LOWER));
        }
        while let Some(entry) = higher.filter(|&entry| self.get(entry, LEVEL) <= self.level) {
            (lower, higher) = (higher, self.link(entry, HIGHER));
        }
        self.set_link(name_entry, FOUND_LAST, lower.or(higher));
        (higher, lower)
    }

    /// A new entry at the current level, between those of the levels around it.
    fn add(&mut self, higher: Option<usize>, lower: Option<usize>) -> Result<usize, Refusal> {
        let entry = self.count;
        if entry == self.words.len() / WORDS {
            return Err(Refusal::plain(8));
        }
        self.count += 1;
        self.set(entry, LEVEL, self.level);
        self.set_link(entry, HIGHER, higher);
        self.set_link(entry, LOWER, lower);
        if let Some(higher) = higher {
            self.set_link(higher, LOWER, Some(entry));
        }
        if let Some(lower) = lower {
            self.set_link(lower, HIGHER, Some(entry));
        }
        Ok(entry)
    }

    /// Makes an entry stand for its name.
    fn add_name(&mut self, name: &[u8], entry: usize) {
        let bucket = self.bucket(name);
        self.set_link(entry, FOUND_LAST, Some(entry));
        self.set_link(entry, NEXT_NAME, self.link(bucket, FIRST_NAME));
        self.set_link(bucket, FIRST_NAME, Some(entry));
    }

    /// The bucket of a name; there is one for each entry.
    fn bucket(&self, name: &[u8]) -> usize {
        let hash = name.iter().fold(0, |hash: u32, &byte| {
            (hash.rotate_left(5) ^ u32::from(byte)).wrapping_mul(0x9E37_79B9)
        });
        (hash ^ hash >> 15) as usize % (self.words.len() / WORDS)
    }

    fn link(&self, entry: usize, field: Field) -> Option<usize> {
        self.get(entry, field).checked_sub(1)
    }

    fn set_link(&mut self, entry: usize, field: Field, link: Option<usize>) {
        self.set(entry, field, link.map_or(0, |entry| entry + 1));
    }

    fn get(&self, entry: usize, Field(word, is_upper): Field) -> usize {
        let word = self.words[WORDS * entry + word] as usize;
        if is_upper {
            return word / 65_536;
        }
        word % 65_536
    }

    fn set(&mut self, entry: usize, Field(word, is_upper): Field, value: usize) {
        let word = &mut self.words[WORDS * entry + word];
        let value = value as u32;
        *word = if is_upper {
            *word % 65_536 + 65_536 * value
        } else {
            *word / 65_536 * 65_536 + value
        };
    }
}
