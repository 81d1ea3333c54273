//! An array as it is lent to a call: full of junk, between guard words that no call may touch.

/// The guard words on each side.
const GUARD: usize = 8;

#[derive(Clone)]
pub struct Lent<T = u32> {
    whole: Vec<T>,
    salt: u32,
}

/// An element of a lent array.
pub trait Element: Copy + PartialEq + Default {
    /// What stands at an index beforehand: never 0, so that a cleared element differs from an untouched one.
    fn junk(at: usize, salt: u32) -> Self;
}

impl Element for u32 {
    fn junk(at: usize, salt: u32) -> u32 {
        (at as u32).wrapping_mul(0x9E37_79B9).wrapping_add(salt) | 1
    }
}

impl Element for u8 {
    fn junk(at: usize, salt: u32) -> u8 {
        (u32::junk(at, salt) >> 24) as u8 | 1
    }
}

impl<T: Element> Lent<T> {
    /// An array of `len` elements; the salt varies the junk.
    pub fn new(len: usize, salt: u32) -> Lent<T> {
        let whole = (0..len + 2 * GUARD).map(|at| T::junk(at, salt)).collect();
        Lent { whole, salt }
    }

    pub fn len(&self) -> usize {
        self.whole.len() - 2 * GUARD
    }

    pub fn elements(&self) -> &[T] {
        &self.whole[GUARD..GUARD + self.len()]
    }

    pub fn elements_mut(&mut self) -> &mut [T] {
        let len = self.len();
        &mut self.whole[GUARD..GUARD + len]
    }

    /// Guards and elements, for a test that alters one of them.
    #[cfg(test)]
    pub fn whole(&self) -> &[T] {
        &self.whole
    }

    #[cfg(test)]
    pub fn whole_mut(&mut self) -> &mut [T] {
        &mut self.whole
    }

    /// The guard words are as they were.
    pub fn guards_kept(&self) -> Result<(), String> {
        let end = GUARD + self.len();
        self.kept(0..GUARD).and(self.kept(end..end + GUARD))
    }

    /// Every element is as it was.
    pub fn untouched(&self) -> Result<(), String> {
        self.kept(GUARD..GUARD + self.len())
    }

    /// Every element from an index on is 0.
    pub fn zero_from(&self, from: usize) -> Result<(), String> {
        match self.elements()[from..].iter().position(|&element| element != T::default()) {
            Some(at) => Err(format!("element {} is not 0", from + at)),
            None => Ok(()),
        }
    }

    fn kept(&self, mut part: std::ops::Range<usize>) -> Result<(), String> {
        match part.find(|&at| self.whole[at] != T::junk(at, self.salt)) {
            Some(at) => Err(format!("element {} was touched", at as isize - GUARD as isize)),
            None => Ok(()),
        }
    }
}

/// Values of which none is the word, for a test that alters it.
#[cfg(test)]
pub fn altered(word: u32) -> impl Iterator<Item = u32> {
    let others = [word ^ 1, word.wrapping_add(64), word ^ (1 << 31), 0];
    others.into_iter().filter(move |&other| other != word)
}
