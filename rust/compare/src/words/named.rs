//! The words that the documents name, and every word one letter away from one of them.

use super::letters::alphabet;
use super::Visit;
use shared::named::{NAMED, NOUNS};

/// Document 01's words and their neighbours.
pub fn each<E>(visit: Visit<E>) -> Result<(), E> {
    each_near(&NAMED, visit)
}

/// The nouns and their neighbours.
pub fn each_noun<E>(visit: Visit<E>) -> Result<(), E> {
    each_near(&NOUNS, visit)
}

// Each word, and at each of its characters the word without it, with another letter for it, and
// with one more letter before it or at the end.
fn each_near<E>(words: &[&str], visit: Visit<E>) -> Result<(), E> {
    let letters = alphabet();
    for word in words {
        visit(word)?;
        let ends = word.char_indices().map(|(place, _)| place);
        for place in ends.chain([word.len()]) {
            let (front, rest) = word.split_at(place);
            let mut after = rest.chars();
            after.next();
            let after = after.as_str();
            visit(&format!("{front}{after}"))?;
            for letter in &letters {
                visit(&format!("{front}{letter}{after}"))?;
                visit(&format!("{front}{letter}{rest}"))?;
            }
        }
    }
    Ok(())
}

#[cfg(test)]
mod tests {
    use super::each;

    #[test]
    fn named_words_and_their_neighbours_are_there() {
        let mut words = Vec::new();
        let _: Result<(), ()> = each(&mut |word| {
            words.push(word.to_string());
            Ok(())
        });
        for word in [
            "soyad", "soyadı", "soyat", "oyad", "bsoyad", "ayağı", "ay乡ğ",
        ] {
            assert!(words.contains(&word.to_string()), "{word}");
        }
    }
}
