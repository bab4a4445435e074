//! Fronts of many words: without a vowel, with vowels near and far back, of every set of vowels, and of
//! characters of every width.

use super::filled::filled;
use super::letters::VOWELS;
use super::nouns;
use super::random::{character, Random};

// Bytes behind vowels that are far back.
const FAR: usize = 60;
// No vowels: of one byte each, and of every width.
const CONSONANTS: [&str; 3] = ["b", "bcçdfgğ", "ß乡\u{20061}"];
// About so many characters stand between two vowels of a random front.
const GAPS: [usize; 4] = [0, 1, 4, 30];

/// Short fronts, fronts without a vowel, with one or two far back, and with a line feed.
pub fn fixed() -> Vec<String> {
    let mut fronts: Vec<String> = nouns::fronts().into_iter().map(str::to_string).collect();
    fronts.extend(VOWELS.chars().map(String::from));
    for consonants in CONSONANTS {
        let far = filled(consonants, FAR);
        fronts.push(far.clone());
        fronts.extend(["a", "i", "uö"].map(|vowels| [vowels, &far].concat()));
    }
    fronts.extend(["a\nb", "ı\n", "\n"].map(str::to_string));
    fronts
}

/// A front for every set of vowels and every last vowel behind these; the vowels stand in many orders.
pub fn sets() -> impl Iterator<Item = String> {
    let vowels: Vec<char> = VOWELS.chars().collect();
    let each = vowels.len() << vowels.len();
    (0..each).map(move |number| {
        let (set, last) = (number / vowels.len(), number % vowels.len());
        let mut order = vowels.clone();
        order.rotate_left(set % vowels.len());
        let before = order
            .iter()
            .filter(|&&vowel| has(set, vowel, &vowels))
            .flat_map(|&vowel| [vowel, 'b']);
        before.chain([vowels[last], 'b']).collect()
    })
}

// Whether a set, which has a bit for each vowel, has this one.
fn has(set: usize, vowel: char, vowels: &[char]) -> bool {
    let place = vowels.iter().position(|&other| other == vowel);
    place.is_some_and(|place| set >> place & 1 == 1)
}

/// A random front of up to `most` bytes, and often of as many: vowels at a distance that is drawn once,
/// or none at all, and between them consonants or these letters and characters of any width.
pub fn random(random: &mut Random, letters: &[char], most: usize) -> String {
    let vowels: Vec<char> = VOWELS.chars().collect();
    let length = match random.below(4) {
        0 => most,
        _ => random.below(most + 1),
    };
    let gap = *random.pick(&GAPS);
    let wide = random.below(3) == 0;
    let mut left = random.below(5) * vowels.len();
    let mut front = String::new();
    while front.len() < length {
        let ch = match random.below(gap + 1) {
            0 if left > 0 => {
                left -= 1;
                *random.pick(&vowels)
            }
            _ if wide => character(random, letters),
            _ => *random.pick(&['b', 'k', 'ğ', 'ş']),
        };
        let fits = front.len() + ch.len_utf8() <= length;
        front.push(if fits { ch } else { 'b' });
    }
    front
}

#[cfg(test)]
mod tests {
    use super::super::letters::alphabet;
    use super::*;
    use std::collections::BTreeSet;

    #[test]
    fn sets_are_all_there() {
        let told = |front: String| {
            let mut vowels: Vec<char> = front.chars().filter(|ch| VOWELS.contains(*ch)).collect();
            let last = vowels.pop();
            vowels.sort_unstable();
            (vowels, last)
        };
        let told: BTreeSet<_> = sets().map(told).collect();
        assert_eq!(told.len(), 256 * 8);
    }

    #[test]
    fn random_fronts_are_of_every_kind() {
        let mut source = Random::new(1, 13);
        let letters = alphabet();
        let mut front = || random(&mut source, &letters, 80);
        let fronts: Vec<String> = (0..1000).map(|_| front()).collect();
        let vowels = |front: &String| front.chars().filter(|ch| VOWELS.contains(*ch)).count();
        assert!(fronts.iter().all(|front| front.len() <= 80));
        assert!(fronts.iter().filter(|front| front.len() == 80).count() > 100);
        for few in 0..3 {
            let far = |front: &&String| front.len() > 40 && vowels(front) == few;
            assert!(fronts.iter().filter(far).count() > 5, "{few}");
        }
        assert!(fronts.iter().filter(|front| vowels(front) > 10).count() > 50);
    }
}
