//! Piles of up to four endings on short fronts, each ending with or without a y before it.

use super::endings::endings;
use super::odometer;
use super::random::{each_drawn, Random};
use super::Visit;

/// No vowel, one, or several that harmonise or do not; vowels and consonants at the end; the two
/// reserved words.
pub const FRONTS: [&str; 16] = [
    "",
    "a",
    "e",
    "ö",
    "b",
    "bb",
    "ev",
    "ab",
    "ay",
    "köy",
    "ad",
    "soyad",
    "araba",
    "kalem",
    "ısı",
    "oğuß乡",
];

/// Every pile of one and of two endings on every front, then `count` piles of three.
pub fn each<E>(count: usize, mut random: Random, visit: Visit<E>) -> Result<(), E> {
    let forms = forms();
    let mut word = String::new();
    for front in FRONTS {
        for height in 1..=2 {
            odometer::each(forms.len(), height, &mut |digits| {
                word.clear();
                word.push_str(front);
                word.extend(digits.iter().map(|&digit| forms[digit].as_str()));
                visit(&word)
            })?;
        }
    }
    each_drawn(count, visit, |word| {
        let pile = [(); 3].map(|()| random.pick(&forms).as_str());
        word.push_str(FRONTS[random.below(FRONTS.len())]);
        word.extend(pile);
    })
}

/// `count` piles of four endings.
pub fn each_of_four<E>(count: usize, mut random: Random, visit: Visit<E>) -> Result<(), E> {
    let forms = forms();
    each_drawn(count, visit, |word| {
        word.push_str(FRONTS[random.below(FRONTS.len())]);
        word.extend((0..4).map(|_| random.pick(&forms).as_str()));
    })
}

/// The endings, and the endings after a y.
pub fn forms() -> Vec<String> {
    let endings = endings();
    let joined = endings.iter().map(|ending| format!("y{ending}"));
    endings.iter().cloned().chain(joined).collect()
}
