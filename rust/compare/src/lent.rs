//! A word as it is lent to the proved side: between guard bytes, and looked at again after the calls.

use std::fmt::{self, Display, Formatter};

const GUARD: usize = 32;

/// A copy of a word between guard bytes.
pub struct Lent {
    word: Vec<u8>,
    guarded: Vec<u8>,
    before: u8,
    after: u8,
}

impl Lent {
    /// With a lead byte before the word and a continuation byte after it: a step or a check that
    /// reads on past either end finds what it was looking for, and gives another answer.
    pub fn new(word: &[u8]) -> Lent {
        Lent::between(0xEE, 0xAE, word)
    }

    /// With vowels on both sides, for the stages and for plain runs, to the same end.
    pub fn among_vowels(word: &[u8]) -> Lent {
        Lent::between(b'a', b'a', word)
    }

    fn between(before: u8, after: u8, word: &[u8]) -> Lent {
        let mut lent = Lent {
            word: Vec::new(),
            guarded: vec![before; GUARD],
            before,
            after,
        };
        lent.set(word);
        lent
    }

    /// Takes another word in place of the one before.
    pub fn set(&mut self, word: &[u8]) {
        self.word.clear();
        self.word.extend_from_slice(word);
        self.guarded.truncate(GUARD);
        self.guarded.extend_from_slice(word);
        self.guarded.extend_from_slice(&[self.after; GUARD]);
    }

    /// The word as it was before any call.
    pub fn word(&self) -> &[u8] {
        &self.word
    }

    /// The slice for a call. The pointer comes from a unique reference, so that a write through it
    /// would be seen afterwards and not assumed away.
    pub fn slice(&mut self) -> (*const u8, usize) {
        (self.guarded[GUARD..].as_mut_ptr(), self.word.len())
    }

    /// Whether the word and the guard bytes are as `set` left them.
    pub fn is_untouched(&self) -> bool {
        let (before, rest) = self.guarded.split_at(GUARD);
        let (word, after) = rest.split_at(self.word.len());
        before == [self.before; GUARD] && word == self.word && after == [self.after; GUARD]
    }
}

impl Display for Lent {
    fn fmt(&self, f: &mut Formatter) -> fmt::Result {
        write!(f, "{:?}", String::from_utf8_lossy(&self.word))
    }
}
