//! Random numbers from a seed, and random text over all planes of Unicode.

use super::endings::endings;
use super::letters::alphabet;
use super::Visit;

/// The generator SplitMix64.
pub struct Random {
    state: u64,
}

impl Random {
    /// `source` parts the generators that share a seed.
    pub fn new(seed: u64, source: u64) -> Random {
        let mut random = Random { state: seed };
        random.state = random.draw() ^ source;
        random
    }

    pub fn draw(&mut self) -> u64 {
        self.state = self.state.wrapping_add(0x9E37_79B9_7F4A_7C15);
        let mut z = self.state;
        z = (z ^ (z >> 30)).wrapping_mul(0xBF58_476D_1CE4_E5B9);
        z = (z ^ (z >> 27)).wrapping_mul(0x94D0_49BB_1331_11EB);
        z ^ (z >> 31)
    }

    /// A number below `bound`, which is not 0.
    pub fn below(&mut self, bound: usize) -> usize {
        (self.draw() % bound as u64) as usize
    }

    /// One of these.
    pub fn pick<'a, T>(&mut self, from: &'a [T]) -> &'a T {
        &from[self.below(from.len())]
    }
}

// The first and the last code point of each width, and those beside the surrogates.
const EDGE_POINTS: [char; 10] = [
    '\0',
    '\u{7F}',
    '\u{80}',
    '\u{7FF}',
    '\u{800}',
    '\u{D7FF}',
    '\u{E000}',
    '\u{FFFF}',
    '\u{10000}',
    '\u{10FFFF}',
];

/// `count` random words, some of which end as the stages expect.
pub fn each<E>(count: usize, mut random: Random, visit: Visit<E>) -> Result<(), E> {
    let letters = alphabet();
    let endings = endings();
    each_drawn(count, visit, |word| {
        for _ in 0..random.below(20) {
            word.push(character(&mut random, &letters));
        }
        for _ in 0..random.below(3) {
            word.push_str(random.pick(&endings).as_str());
        }
    })
}

/// Visits `count` words, each of which `draw` puts into an empty string.
pub fn each_drawn<E>(
    count: usize,
    visit: Visit<E>,
    mut draw: impl FnMut(&mut String),
) -> Result<(), E> {
    let mut word = String::new();
    for _ in 0..count {
        word.clear();
        draw(&mut word);
        visit(&word)?;
    }
    Ok(())
}

/// A letter of the stages half the time, else a character of any width.
pub fn character(random: &mut Random, letters: &[char]) -> char {
    match random.below(10) {
        0 => *random.pick(&EDGE_POINTS),
        1 => within(random, 0x00, 0x7F),
        2 => within(random, 0x80, 0x7FF),
        3 => within(random, 0x800, 0xFFFF),
        4 => within(random, 0x1_0000, 0x10_FFFF),
        _ => *random.pick(letters),
    }
}

// A scalar value between these; a surrogate is drawn again.
fn within(random: &mut Random, first: u32, last: u32) -> char {
    loop {
        let point = first + random.below((last - first + 1) as usize) as u32;
        if let Some(ch) = char::from_u32(point) {
            return ch;
        }
    }
}

#[cfg(test)]
mod tests {
    use super::*;

    fn words(seed: u64) -> Vec<String> {
        let mut words = Vec::new();
        let _: Result<(), ()> = each(200, Random::new(seed, 2), &mut |word| {
            words.push(word.to_string());
            Ok(())
        });
        words
    }

    #[test]
    fn a_seed_gives_the_same_words_again() {
        assert_eq!(words(7), words(7));
        assert_ne!(words(7), words(8));
    }

    #[test]
    fn characters_of_every_width_occur() {
        let text = words(1).concat();
        for width in 1..=4 {
            assert!(text.chars().any(|ch| ch.len_utf8() == width));
        }
    }
}
