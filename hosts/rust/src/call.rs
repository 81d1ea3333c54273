//! The library's calls as safe functions: the one module with unsafe code. include/sif.h says what the
//! calls promise; they are proved for any bytes and any arrays, so there is nothing for a caller to meet
//! but what references and slices say already.

/// How many elements the arrays have.
#[derive(Clone, Copy, Debug, PartialEq)]
pub struct Rooms {
    pub tokens: usize,
    pub nodes: usize,
    /// Words, four for each symbol.
    pub symbols: usize,
    pub errors: usize,
}

impl Rooms {
    /// Enough for any script of `len` bytes: a token takes a byte, but for the last; there are at most as
    /// many nodes as tokens at any moment; a name takes two bytes; an error takes a byte.
    pub fn ample(len: usize) -> Rooms {
        Rooms { tokens: len + 1, nodes: len + 1, symbols: 2 * len, errors: len }
    }
}

/// Bytes that are enough for the canonical text of a script of `len` bytes. A token is written with one
/// byte behind it: two bytes at most for each of its own. An inserted `return ;` is 9 bytes; its function
/// has 8 or more of its own in the script, which are written as 13. A pair of parentheses that the script
/// lacks is 4 bytes; it stands round a table access whose operator, target and period are 3 bytes of its
/// own, written as 6. So 4 bytes for each are enough.
pub fn text_room(len: usize) -> usize {
    4 * len
}

/// The arrays of a call: lent to it, and afterwards full of what it says.
#[derive(Clone, Debug, Default, PartialEq)]
pub struct Arrays {
    pub offs: Vec<u32>,
    pub words: Vec<u32>,
    pub heads: Vec<u32>,
    pub loads: Vec<u32>,
    pub symbols: Vec<u32>,
    pub places: Vec<u32>,
    pub reasons: Vec<u32>,
}

impl Arrays {
    pub fn new(rooms: Rooms) -> Arrays {
        let words = |count| vec![0; count];
        Arrays {
            offs: words(rooms.tokens),
            words: words(rooms.tokens),
            heads: words(rooms.nodes),
            loads: words(rooms.nodes),
            symbols: words(rooms.symbols),
            places: words(rooms.errors),
            reasons: words(rooms.errors),
        }
    }

    /// Keeps the used parts and gives the other memory back.
    pub fn keep(&mut self, tokens: usize, nodes: usize, errors: usize) {
        let parts = [
            (&mut self.offs, tokens),
            (&mut self.words, tokens),
            (&mut self.heads, nodes),
            (&mut self.loads, nodes),
            (&mut self.symbols, 0),
            (&mut self.places, errors),
            (&mut self.reasons, errors),
        ];
        for (part, used) in parts {
            part.truncate(used);
            part.shrink_to_fit();
        }
    }
}

/// Number, kind and offset of a refusal; number 0 where there is none.
#[derive(Clone, Copy, Debug, Default, PartialEq)]
pub struct Said {
    pub number: u32,
    pub kind: u32,
    pub offset: usize,
}

/// What a reading answers beside the arrays.
#[derive(Clone, Copy, Debug, Default, PartialEq)]
pub struct Summary {
    pub tokens: usize,
    pub nodes: usize,
    pub errors: usize,
    pub flag: u32,
    pub early: Early,
}

/// The error that ended a reading; number 0 where none did.
#[derive(Clone, Copy, Debug, Default, PartialEq)]
pub struct Early {
    pub line: usize,
    pub pos: usize,
    pub number: u32,
    pub offset: usize,
    pub value: usize,
}

extern "C" {
    fn sif_tokens(
        script: *const u8,
        script_len: usize,
        offs: *mut u32,
        offs_len: usize,
        words: *mut u32,
        words_len: usize,
        count: *mut u32,
        kind: *mut u32,
        offset: *mut u32,
    ) -> u32;

    fn sif_reading(
        script: *const u8,
        script_len: usize,
        offs: *mut u32,
        offs_len: usize,
        words: *mut u32,
        words_len: usize,
        heads: *mut u32,
        heads_len: usize,
        loads: *mut u32,
        loads_len: usize,
        symbols: *mut u32,
        symbols_len: usize,
        places: *mut u32,
        places_len: usize,
        reasons: *mut u32,
        reasons_len: usize,
        tokens: *mut usize,
        nodes: *mut usize,
        errors: *mut usize,
        flag: *mut u32,
        early_line: *mut usize,
        early_pos: *mut usize,
        early_number: *mut u32,
        early_offset: *mut usize,
        early_value: *mut usize,
        kind: *mut u32,
        offset: *mut usize,
    ) -> u32;

    fn sif_text(
        script: *const u8,
        script_len: usize,
        offs: *mut u32,
        offs_len: usize,
        words: *mut u32,
        words_len: usize,
        heads: *mut u32,
        heads_len: usize,
        loads: *mut u32,
        loads_len: usize,
        symbols: *mut u32,
        symbols_len: usize,
        places: *mut u32,
        places_len: usize,
        reasons: *mut u32,
        reasons_len: usize,
        text: *mut u8,
        text_len: usize,
        count: *mut usize,
        kind: *mut u32,
        offset: *mut usize,
    ) -> u32;

    fn sif_deepest(n: usize, script: *mut u8, script_len: usize, depth: *mut usize) -> u32;
    fn sif_value(literal: *const u8, literal_len: usize, value: *mut f64) -> u32;
}

/// The tokens call: the refusal and the number of tokens.
pub fn tokens(script: &[u8], offs: &mut [u32], words: &mut [u32]) -> (Said, usize) {
    let (mut count, mut kind, mut offset) = (0, 0, 0);
    // SAFETY: each pointer comes from a slice or reference that lives through the call, with that slice's
    // length; `&mut` says that they do not overlap; an empty slice's pointer is not null.
    let number = unsafe {
        sif_tokens(
            script.as_ptr(),
            script.len(),
            offs.as_mut_ptr(),
            offs.len(),
            words.as_mut_ptr(),
            words.len(),
            &mut count,
            &mut kind,
            &mut offset,
        )
    };
    (Said { number, kind, offset: offset as usize }, count as usize)
}

/// The reading call.
pub fn reading(script: &[u8], arrays: &mut Arrays) -> (Said, Summary) {
    let Arrays { offs, words, heads, loads, symbols, places, reasons } = arrays;
    let (mut said, mut summary) = (Said::default(), Summary::default());
    let Summary { tokens, nodes, errors, flag, early } = &mut summary;
    // SAFETY: each pointer comes from a slice or reference that lives through the call, with that slice's
    // length; the vectors and numbers are distinct, so nothing overlaps; an empty vector's pointer is not
    // null. The stack is `stack::with_room`'s matter.
    said.number = unsafe {
        sif_reading(
            script.as_ptr(),
            script.len(),
            offs.as_mut_ptr(),
            offs.len(),
            words.as_mut_ptr(),
            words.len(),
            heads.as_mut_ptr(),
            heads.len(),
            loads.as_mut_ptr(),
            loads.len(),
            symbols.as_mut_ptr(),
            symbols.len(),
            places.as_mut_ptr(),
            places.len(),
            reasons.as_mut_ptr(),
            reasons.len(),
            tokens,
            nodes,
            errors,
            flag,
            &mut early.line,
            &mut early.pos,
            &mut early.number,
            &mut early.offset,
            &mut early.value,
            &mut said.kind,
            &mut said.offset,
        )
    };
    (said, summary)
}

/// The text call: the refusal and the number of bytes.
pub fn text(script: &[u8], arrays: &mut Arrays, text: &mut [u8]) -> (Said, usize) {
    let Arrays { offs, words, heads, loads, symbols, places, reasons } = arrays;
    let (mut said, mut count) = (Said::default(), 0);
    // SAFETY: as for `reading`; `text` is a slice of the caller's, apart from the vectors.
    said.number = unsafe {
        sif_text(
            script.as_ptr(),
            script.len(),
            offs.as_mut_ptr(),
            offs.len(),
            words.as_mut_ptr(),
            words.len(),
            heads.as_mut_ptr(),
            heads.len(),
            loads.as_mut_ptr(),
            loads.len(),
            symbols.as_mut_ptr(),
            symbols.len(),
            places.as_mut_ptr(),
            places.len(),
            reasons.as_mut_ptr(),
            reasons.len(),
            text.as_mut_ptr(),
            text.len(),
            &mut count,
            &mut said.kind,
            &mut said.offset,
        )
    };
    (said, count)
}

/// The deepest script of a length: the refusal and the number of calls.
pub fn deepest(n: usize, script: &mut [u8]) -> (Said, usize) {
    let (mut said, mut depth) = (Said::default(), 0);
    // SAFETY: the pointers come from a slice, with its length, and from a number of this function.
    said.number = unsafe { sif_deepest(n, script.as_mut_ptr(), script.len(), &mut depth) };
    (said, depth)
}

/// The value call: the value of a literal, if it is one of at most 19 digits.
pub fn value(literal: &[u8]) -> Option<f64> {
    let mut value = 0.0;
    // SAFETY: as for `tokens`.
    let number = unsafe { sif_value(literal.as_ptr(), literal.len(), &mut value) };
    (number == 0).then_some(value)
}
