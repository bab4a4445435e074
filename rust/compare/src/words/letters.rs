//! Every short word over the letters that the stages tell apart.

use super::endings::endings;
use super::odometer;
use super::Visit;

/// The vowels of Turkish.
pub const VOWELS: &str = "aeıioöuü";
// y and g, which the stages test by themselves; then characters of 2, 3 and 4 bytes that are no
// letters of Turkish. The last byte of ß is that of ğ and ş; the low byte of the other two code
// points is that of a.
const OTHERS: &str = "ygß乡\u{20061}";

/// The letters of the endings, the vowels and the others, each once.
pub fn alphabet() -> Vec<char> {
    let mut alphabet: Vec<char> = endings().concat().chars().collect();
    alphabet.extend(VOWELS.chars());
    alphabet.extend(OTHERS.chars());
    alphabet.sort_unstable();
    alphabet.dedup();
    alphabet
}

/// Every word of up to `most` characters.
pub fn each<E>(most: usize, visit: Visit<E>) -> Result<(), E> {
    let alphabet = alphabet();
    let mut word = String::new();
    for length in 0..=most {
        odometer::each(alphabet.len(), length, &mut |digits| {
            word.clear();
            word.extend(digits.iter().map(|&digit| alphabet[digit]));
            visit(&word)
        })?;
    }
    Ok(())
}

#[cfg(test)]
mod tests {
    use super::*;

    #[test]
    fn alphabet_has_characters_of_every_width() {
        let alphabet = alphabet();
        for width in 1..=4 {
            assert!(alphabet.iter().any(|ch| ch.len_utf8() == width));
        }
        assert_eq!(alphabet.len(), 26);
    }

    #[test]
    fn words_of_two_letters_are_all_there() {
        let mut count = 0;
        let _: Result<(), ()> = each(2, &mut |_| {
            count += 1;
            Ok(())
        });
        assert_eq!(count, 1 + 26 + 26 * 26);
    }
}
