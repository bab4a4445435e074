//! Endings of the noun stage on short fronts: each by itself, piles of them, and piles below the endings
//! of a nominal verb.

use super::chains;
use super::endings::{noun_endings, spellings};
use super::letters;
use super::odometer;
use super::piles::FRONTS;
use super::random::{each_drawn, Random};
use super::Visit;

// What the noun stage takes besides the keys of its own tables.
const OTHERS: [&str; 3] = ["lAr", "U", "ki"];
// What may join an ending, or stand where that does.
const JOINTS: [&str; 8] = ["", "y", "n", "s", "ı", "i", "u", "ü"];
// The marks of the noun stage, those that join with a letter with it and without.
const MARKS: [&str; 27] = [
    "m", "Um", "n", "Un", "mUz", "UmUz", "nUz", "UnUz", "U", "sU", "lArI", "yU", "nU", "nUn", "A",
    "yA", "nA", "DA", "ndA", "DAn", "ndAn", "lA", "ylA", "ki", "cA", "ncA", "lAr",
];
/// Fronts with which every ending harmonises.
pub const EVERY_VOWEL: [&str; 2] = ["aeıioöuüb", "aeıioöuüba"];

/// Every ending after every joint, on every front of up to two letters.
pub fn each<E>(visit: Visit<E>) -> Result<(), E> {
    let mut endings = noun_endings();
    endings.extend(OTHERS.into_iter().flat_map(spellings));
    let mut word = String::new();
    letters::each(2, &mut |front| {
        for joint in JOINTS {
            for ending in &endings {
                word.clear();
                word.extend([front, joint, ending]);
                visit(&word)?;
            }
        }
        Ok(())
    })
}

/// Every pile of one and of two marks on every front.
pub fn each_pile<E>(visit: Visit<E>) -> Result<(), E> {
    let marks = marks();
    for front in fronts() {
        for height in 1..=2 {
            each_of(front, &marks, height, visit)?;
        }
    }
    Ok(())
}

/// `count` piles of three or four marks.
pub fn each_random_pile<E>(count: usize, mut random: Random, visit: Visit<E>) -> Result<(), E> {
    let marks = marks();
    let fronts = fronts();
    each_drawn(count, visit, |word| {
        let height = 3 + random.below(2);
        word.push_str(fronts[random.below(fronts.len())]);
        word.extend((0..height).map(|_| random.pick(&marks).as_str()));
    })
}

/// Every mark below every chain of a nominal verb, on fronts of every vowel.
pub fn each_below_verb<E>(visit: Visit<E>) -> Result<(), E> {
    let chains = chains::all();
    for front in EVERY_VOWEL {
        for mark in marks() {
            each_of(&format!("{front}{mark}"), &chains, 1, visit)?;
        }
    }
    Ok(())
}

/// `count` piles of up to three marks below such a chain.
pub fn each_random_below_verb<E>(
    count: usize,
    mut random: Random,
    visit: Visit<E>,
) -> Result<(), E> {
    let marks = marks();
    let fronts = fronts();
    let chains = chains::all();
    each_drawn(count, visit, |word| {
        let height = 1 + random.below(3);
        word.push_str(fronts[random.below(fronts.len())]);
        word.extend((0..height).map(|_| random.pick(&marks).as_str()));
        word.push_str(random.pick(&chains).as_str());
    })
}

/// Every row of so many of these texts on a front.
pub fn each_of<E>(front: &str, texts: &[String], count: usize, visit: Visit<E>) -> Result<(), E> {
    let mut word = String::new();
    odometer::each(texts.len(), count, &mut |digits| {
        word.clear();
        word.push_str(front);
        word.extend(digits.iter().map(|&digit| texts[digit].as_str()));
        visit(&word)
    })
}

/// The marks in every spelling.
pub fn marks() -> Vec<String> {
    MARKS.into_iter().flat_map(spellings).collect()
}

/// The fronts of piles, and those of every vowel.
pub fn fronts() -> Vec<&'static str> {
    FRONTS.into_iter().chain(EVERY_VOWEL).collect()
}

#[cfg(test)]
mod tests {
    use super::*;

    #[test]
    fn marks_are_all_there() {
        let marks = marks();
        for mark in ["ümüz", "sı", "ları", "nün", "tan", "nde", "yle", "ki"] {
            assert!(marks.contains(&mark.to_string()), "{mark}");
        }
        assert_eq!(marks.len(), 77);
    }

    #[cfg(feature = "oracle")]
    #[test]
    fn every_mark_is_in_a_pile_that_is_taken_whole() {
        let none = [String::new()];
        let marks = marks();
        let mut taken = Vec::new();
        for front in EVERY_VOWEL {
            for one in &marks {
                for other in marks.iter().chain(&none) {
                    let word = format!("{front}{one}{other}");
                    if oracle::stem_noun_suffixes(&word).text == front {
                        taken.extend([one, other]);
                    }
                }
            }
        }
        for mark in MARKS {
            let taken = |spelling| taken.contains(&spelling);
            assert!(spellings(mark).iter().any(taken), "{mark}");
        }
    }
}
