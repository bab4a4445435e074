//! Tails for the batch, of 16 characters or a few more: chains of endings behind consonants, so that the
//! front decides, and behind vowels; piles of endings; and random characters.

use super::chains;
use super::letters::{alphabet, VOWELS};
use super::piles;
use super::random::{character, Random};
use fannavy::TAIL_LEAST;

// More characters than a tail needs, at most.
const MORE: usize = 6;

/// Every chain that a branch can take behind consonants alone.
pub fn bare() -> Vec<String> {
    let chains = chains::all();
    chains.iter().map(|chain| behind("", "", chain)).collect()
}

/// The same with a vowel right before the chain, before the consonant there, and at the tail's start.
pub fn voiced() -> Vec<String> {
    let mut tails = Vec::new();
    for chain in chains::all() {
        for vowel in VOWELS.chars().map(String::from) {
            tails.push(behind("", &vowel, &chain));
            tails.push(behind("", &format!("{vowel}b"), &chain));
            tails.push(behind(&vowel, "", &chain));
        }
    }
    tails
}

// A chain behind these two texts, with as many consonants between them as make it a tail.
fn behind(first: &str, last: &str, chain: &str) -> String {
    let characters = [first, last, chain].map(|text| text.chars().count());
    let consonants = TAIL_LEAST.saturating_sub(characters.iter().sum());
    [first, &"b".repeat(consonants), last, chain].concat()
}

/// What random tails are made of.
pub struct Pieces {
    pub letters: Vec<char>,
    forms: Vec<String>,
    chains: Vec<String>,
}

impl Pieces {
    pub fn all() -> Pieces {
        Pieces {
            letters: alphabet(),
            forms: piles::forms(),
            chains: chains::all(),
        }
    }

    /// A random tail without a line feed: a chain behind consonants or letters, a pile of endings, or, where
    /// it may be long, characters of any width and an ending.
    pub fn random(&self, random: &mut Random, long: bool) -> String {
        let least = TAIL_LEAST + random.below(MORE) * random.below(2);
        let end = match random.below(3) {
            0 => self.pile(least, random),
            _ => random.pick(&self.chains).clone(),
        };
        let missing = least.saturating_sub(end.chars().count());
        let plain = random.below(2) == 0;
        let mut tail: String = (0..missing)
            .map(|_| match (long, plain) {
                (true, _) => character(random, &self.letters),
                (_, true) => *random.pick(&['b', 'y', 'ş']),
                _ => *random.pick(&self.letters),
            })
            .map(|ch| if ch == '\n' { 'b' } else { ch })
            .collect();
        tail.push_str(&end);
        tail
    }

    // Endings one behind the other until there are enough characters.
    fn pile(&self, least: usize, random: &mut Random) -> String {
        let mut pile = String::new();
        while pile.chars().count() < least {
            pile.push_str(random.pick(&self.forms).as_str());
        }
        pile
    }
}

#[cfg(test)]
mod tests {
    use super::*;
    use fannavy::LIMIT;

    #[test]
    fn tails_have_their_characters() {
        for tail in bare().iter().chain(&voiced()) {
            let characters = tail.chars().count();
            assert!((TAIL_LEAST..TAIL_LEAST + 2).contains(&characters), "{tail}");
        }
    }

    #[test]
    fn random_tails_are_tails() {
        let pieces = Pieces::all();
        let mut random = Random::new(1, 13);
        let mut least = 0;
        for number in 0..10_000 {
            let tail = pieces.random(&mut random, number % 4 == 0);
            let characters = tail.chars().count();
            assert!(characters >= TAIL_LEAST && tail.len() <= LIMIT, "{tail}");
            assert!(!tail.contains('\n'));
            least += usize::from(characters == TAIL_LEAST);
        }
        assert!(least > 2000, "{least}");
    }
}
