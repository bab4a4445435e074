//! Chains of up to five links before the word's end or before one more ending, where a link is what the
//! noun stage takes with a `ki` behind it.

use super::endings::spellings;
use super::nouns::{each_of, fronts, marks, EVERY_VOWEL};
use super::odometer;
use super::random::{each_drawn, Random};
use super::Visit;

// What may stand before a ki, in turkish.sbl's notation: at the front, and where the chain goes on
// before it.
const FIRST: [&str; 20] = [
    "ki",
    "DAki",
    "lArDAki",
    "mDAki",
    "UmDAki",
    "UnUzDAki",
    "lArUmDAki",
    "Unki",
    "nUnki",
    "lArUnki",
    "lArInUnki",
    "UmUnki",
    "sUnUnki",
    "lArUmUnki",
    "ndAki",
    "UndAki",
    "sUndAki",
    "lArUndAki",
    "lArIndAki",
    "lArlArDAki",
];
const FURTHER: [&str; 8] = [
    "DAki",
    "lArDAki",
    "lArUmDAki",
    "lArUnUzDAki",
    "Unki",
    "lArUmUnki",
    "lArUndAki",
    "lArIndAki",
];
// Links of a chain at most.
const MOST: usize = 5;

/// Every chain in one harmony on a front of every vowel; every chain of one and of two links on every
/// front, and of one before every mark.
pub fn each<E>(visit: Visit<E>) -> Result<(), E> {
    each_in_harmony(EVERY_VOWEL[0], visit)?;
    let further = spelled(&FURTHER);
    let marks = marks();
    for front in fronts() {
        for link in spelled(&FIRST) {
            let front = format!("{front}{link}");
            visit(&front)?;
            each_of(&front, &further, 1, visit)?;
            each_of(&front, &marks, 1, visit)?;
        }
    }
    Ok(())
}

/// `count` chains of up to five links, half of them before a mark.
pub fn each_random<E>(count: usize, mut random: Random, visit: Visit<E>) -> Result<(), E> {
    let first = spelled(&FIRST);
    let further = spelled(&FURTHER);
    let marks = marks();
    let fronts = fronts();
    each_drawn(count, visit, |word| {
        word.push_str(fronts[random.below(fronts.len())]);
        word.push_str(random.pick(&first).as_str());
        for _ in 0..random.below(MOST) {
            word.push_str(random.pick(&further).as_str());
        }
        if random.below(2) == 0 {
            word.push_str(random.pick(&marks).as_str());
        }
    })
}

fn spelled(links: &[&str]) -> Vec<String> {
    links.iter().flat_map(|link| spellings(link)).collect()
}

fn each_in_harmony<E>(front: &str, visit: Visit<E>) -> Result<(), E> {
    for length in 0..MOST {
        odometer::each(FURTHER.len(), length, &mut |digits| {
            let further: String = digits.iter().map(|&digit| FURTHER[digit]).collect();
            for first in FIRST {
                for chain in spellings(&format!("{first}{further}")) {
                    visit(&format!("{front}{chain}"))?;
                }
            }
            Ok(())
        })?;
    }
    Ok(())
}

#[cfg(all(test, feature = "oracle"))]
mod tests {
    use super::*;

    #[test]
    fn chains_of_five_are_taken_whole() {
        let mut whole = [0; MOST + 1];
        let _: Result<(), ()> = each_random(200_000, Random::new(1, 10), &mut |word| {
            let left = oracle::stem_noun_suffixes(word).text;
            if fronts().contains(&&*left) && word.ends_with("ki") {
                whole[word.matches("ki").count().min(MOST)] += 1;
            }
            Ok(())
        });
        assert!(whole[1..].iter().all(|&count| count > 20), "{whole:?}");
    }
}
