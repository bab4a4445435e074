//! Headings: words of capitals and small letters, and of characters that share a byte with İ or Ğ; I and
//! İ at every place of a word; and one letter over and over.

use super::odometer;
use super::random::{self, Random};
use super::Visit;
use fannavy::LIMIT;

// Letters that fold, and most of their small ones; neighbours in ASCII and of İ; a dot above as a
// character of its own; and characters of each width that end in İ's second byte or in that of Ğ
// and Ş.
const LETTERS: &str = "IİıiAZazHJ@[`{ÇçĞğÖŞşÜÂÄ0\u{307}\u{9E}\u{F0}\u{12F}\u{170}\u{430}\u{49E}\
                       \u{1130}\u{4130}\u{10130}";

/// A word as a Turkish heading has it.
pub fn capitals(word: &str) -> String {
    word.replace('i', "İ").replace('ı', "I").to_uppercase()
}

/// Every word of up to three of these letters, and I and İ at every place of a word.
pub fn each<E>(visit: Visit<E>) -> Result<(), E> {
    let letters: Vec<char> = LETTERS.chars().collect();
    let mut word = String::new();
    for length in 0..=3 {
        odometer::each(letters.len(), length, &mut |digits| {
            word.clear();
            word.extend(digits.iter().map(|&digit| letters[digit]));
            visit(&word)
        })?;
    }
    at_every_place(visit)
}

/// `count` random words of these letters.
pub fn each_random<E>(count: usize, mut random: Random, visit: Visit<E>) -> Result<(), E> {
    let letters: Vec<char> = LETTERS.chars().collect();
    random::each_drawn(count, visit, |word| {
        for _ in 0..random.below(40) {
            word.push(*random.pick(&letters));
        }
    })
}

// Each of these after and before characters, up to as many as the limit lets stand beside it and one
// more: words of ASCII may be folded many bytes in one step, and others not.
fn at_every_place<E>(visit: Visit<E>) -> Result<(), E> {
    for filler in ["A", "z", "I", "Ğ", "İ", "乡"] {
        let most = (LIMIT - "İ".len()) / filler.len();
        for (before, after) in (0..=most).flat_map(|n| [(n, 0), (n, 1), (n, most - n)]) {
            for middle in ["", "I", "İ", "Z", "Ş", "\u{430}"] {
                visit(&[&filler.repeat(before), middle, &filler.repeat(after)].concat())?;
            }
        }
    }
    Ok(())
}

/// One letter over and over, of every length up to the limit and a letter past it: the longest and
/// the shortest folds.
pub fn each_run<E>(visit: Visit<E>) -> Result<(), E> {
    for letter in ["I", "İ", "A"] {
        for count in 0..=LIMIT / letter.len() + 1 {
            visit(&letter.repeat(count))?;
        }
    }
    Ok(())
}

#[cfg(test)]
mod tests {
    use super::capitals;
    use crate::folded::folded;

    #[test]
    fn a_word_in_capitals_folds_to_itself() {
        for word in ["ışık", "istanbul", "çalıştırılmış", "ğüşöç"] {
            assert_ne!(capitals(word), word);
            assert_eq!(folded(&capitals(word)), word);
        }
    }
}
