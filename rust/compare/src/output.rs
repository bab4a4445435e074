//! An output as it is lent to the proved side: between guard bytes, and filled beforehand with a
//! pattern that is another one for each call.

use crate::words::random::Random;

const GUARD: usize = 32;

/// A lent output between guard bytes.
pub struct Output {
    room: usize,
    before: Vec<u8>,
    guarded: Vec<u8>,
    random: Random,
}

impl Output {
    pub fn new(room: usize) -> Output {
        let mut output = Output {
            room: 0,
            before: Vec::new(),
            guarded: Vec::new(),
            random: Random::new(0, 0),
        };
        output.set(room);
        output
    }

    /// Begins the patterns for a word, which depend on the word alone.
    pub fn begin(&mut self, word: &[u8]) {
        let add = |seed: u64, b: &u8| seed.wrapping_mul(257).wrapping_add(u64::from(*b));
        self.random = Random::new(word.iter().fold(0, add), word.len() as u64);
    }

    /// An output of `room` bytes, filled, as the guard bytes are, with the next pattern.
    pub fn set(&mut self, room: usize) {
        let [first, step, ..] = self.random.draw().to_le_bytes();
        let step = step | 1;
        self.room = room;
        self.before.clear();
        self.before.extend(
            (0..GUARD + room + GUARD).map(|i| first.wrapping_add(step.wrapping_mul(i as u8))),
        );
        self.guarded.clone_from(&self.before);
    }

    /// The slice for a call.
    pub fn slice(&mut self) -> (*mut u8, usize) {
        (self.guarded[GUARD..].as_mut_ptr(), self.room)
    }

    /// The answer's text; none where the output is shorter.
    pub fn text(&self, length: usize) -> Option<&[u8]> {
        self.guarded[GUARD..][..self.room].get(..length)
    }

    /// Whether every byte but the answer's is as `set` left it.
    pub fn stays_past(&self, length: usize) -> bool {
        let (before, rest) = self.guarded.split_at(GUARD);
        let (before_then, rest_then) = self.before.split_at(GUARD);
        length <= self.room && before == before_then && rest[length..] == rest_then[length..]
    }

    /// The places of the bytes changed outside the answer, counted from the output's start.
    pub fn changes_past(&self, length: usize) -> Vec<isize> {
        let pairs = self.guarded.iter().zip(&self.before).enumerate();
        pairs
            .filter(|(_, (now, then))| now != then)
            .map(|(i, _)| i as isize - GUARD as isize)
            .filter(|&place| place < 0 || place >= length as isize)
            .collect()
    }
}

#[cfg(test)]
mod tests {
    use super::*;

    fn changed(at: isize) -> Output {
        let mut output = Output::new(0);
        output.begin(b"ev");
        output.set(4);
        output.guarded[(GUARD as isize + at) as usize] ^= 1;
        output
    }

    #[test]
    fn a_change_is_seen_everywhere_but_in_the_answer() {
        for at in [0, 1] {
            assert!(changed(at).stays_past(2));
        }
        for at in [-32, -1, 2, 3, 4, 35] {
            assert!(!changed(at).stays_past(2), "{at}");
        }
        assert!(!changed(0).stays_past(0));
        assert!(!changed(0).stays_past(5));
        assert_eq!(changed(-1).changes_past(2), [-1]);
        assert_eq!(changed(1).changes_past(2), []);
    }

    #[test]
    fn patterns_depend_on_the_word_and_differ_from_call_to_call() {
        let mut output = Output::new(0);
        output.begin(b"ev");
        output.set(8);
        let first = output.before.clone();
        output.set(8);
        assert_ne!(output.before, first);
        output.begin(b"ev");
        output.set(8);
        assert_eq!(output.before, first);
    }

    #[test]
    fn a_text_lies_in_the_output() {
        let output = changed(0);
        assert_eq!(output.text(4).map(<[u8]>::len), Some(4));
        assert_eq!(output.text(5), None);
    }
}
