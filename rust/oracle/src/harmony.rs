//! The vowels that the harmony test finds, which the crate does not tell: its walk once more, over its
//! own groupings. That the walk ends as the test itself does is tried at every text that is walked.

use super::{at_end, Piece};
use snowball::algorithms::turkish::{harmony_stands, Grouping, MARKS, PARTNERS, VOWELS};

/// Where the last vowel and its nearest partner before it start, in bytes, and whether a vowel stands
/// between them.
#[derive(Clone, Copy, Debug, PartialEq)]
pub struct Harmony {
    pub last: usize,
    pub partner: usize,
    pub loan: bool,
}

/// What the first of a word's pieces finds whose mark tests harmony, entered at the piece's end; none
/// where no mark does. The pieces stand in the order of running, as `pieces` gives them.
pub fn harmony(word: &str, pieces: &[Piece]) -> Option<Harmony> {
    let mut pieces = pieces.iter();
    let piece = pieces.find(|piece| MARKS[piece.kind - 1].harmony)?;
    let text = &word[..=piece.last];
    let found = found(text);
    assert!(agrees(text, found), "harmony by its parts: {}", text);
    found
}

// What the harmony test finds that is entered at a text's end; none where it says no.
fn found(text: &str) -> Option<Harmony> {
    let last = nearest(text, &VOWELS)?;
    let (text, rest) = text.split_at(last);
    let mut partners = PARTNERS.iter();
    let partners = partners.find(|&&(vowel, _)| rest.starts_with(vowel));
    let partner = nearest(text, &partners.expect("a vowel").1)?;
    Some(Harmony {
        last,
        partner,
        loan: nearest(text, &VOWELS) > Some(partner),
    })
}

// Where the last character of a grouping in a text starts.
fn nearest(text: &str, grouping: &Grouping) -> Option<usize> {
    let mut env = at_end(text);
    while env.cursor > 0 {
        if grouping.stands(&mut env) {
            return Some(env.cursor);
        }
        env.previous_char();
    }
    None
}

// Whether the crate's test says no, or says yes with limit_backward at the partner and no with it one
// character later.
fn agrees(text: &str, found: Option<Harmony>) -> bool {
    let stands_from = |place: usize| {
        let mut env = at_end(text);
        env.limit_backward = place;
        harmony_stands(&mut env)
    };
    match found {
        Some(Harmony { partner, .. }) => {
            let width = text[partner..].chars().next().map_or(0, char::len_utf8);
            stands_from(partner) && !stands_from(partner + width)
        }
        None => !stands_from(0),
    }
}

#[cfg(test)]
mod tests {
    use super::*;
    use pieces;

    const VOWEL_LETTERS: &str = "ae\u{131}io\u{f6}u\u{fc}";

    // The vowels that a word's pieces find: last, partner, and whether one stands between.
    type Told = Option<(usize, usize, bool)>;

    fn all_tell(words: &[(&str, Told)]) {
        for &(word, told) in words {
            let found = harmony(word, &pieces(word).list);
            let found = found.map(|found| (found.last, found.partner, found.loan));
            assert_eq!(found, told, "{}", word);
        }
    }

    #[test]
    fn no_vowels_are_told_where_no_mark_tests_harmony() {
        all_tell(&[
            ("", None),
            ("ev", None),
            ("lar", None),
            ("saatler", None),
            ("evcesine", None),
            // sUnUz; yken; ysA.
            ("siniz", None),
            ("doktorsunuz", None),
            ("arabayken", None),
            ("evse", None),
        ]);
    }

    #[test]
    fn the_nearest_partner_is_told() {
        all_tell(&[
            ("evler", Some((3, 0, false))),
            ("kalemlar", Some((6, 1, true))),
            ("kanadd\u{131}r", Some((6, 3, false))),
            ("arabay\u{131}m", Some((6, 4, false))),
            ("evim", Some((2, 0, false))),
            ("kitabdik", Some((6, 1, true))),
            // Farther partners; others between; characters of two, three and four bytes.
            ("araba\u{f6}lar", Some((8, 4, true))),
            ("g\u{f6}zl\u{fc}kt\u{fc}r", Some((9, 5, false))),
            ("\u{f6}\u{4e61}ad\u{fc}r", Some((7, 0, true))),
            ("\u{20061}e\u{131}odir", Some((9, 4, true))),
        ]);
    }

    #[test]
    fn the_first_mark_that_tests_harmony_is_told() {
        let after = |front: &str, told: Told| {
            let word = [front, "s\u{131}n\u{131}zcas\u{131}na"].concat();
            all_tell(&[(&word, told)]);
        };
        all_tell(&[
            // DUr, lAr, ymUs_.
            ("evmi\u{15f}lerdir", Some((10, 7, false))),
            // lAr, ymUs_; the second alone would be past a vowel.
            ("kalemm\u{131}\u{15f}lar", Some((11, 6, false))),
            // nUz, ysA.
            ("evseniz", Some((5, 3, false))),
            // sUnUz, ymUs_.
            ("evmi\u{15f}siniz", Some((3, 0, false))),
            // cAsInA and ymUs_, with nothing between, and with sUn.
            ("evmi\u{15f}cesine", Some((3, 0, false))),
            ("evmi\u{15f}sincesine", Some((7, 3, false))),
        ]);
        // cAsInA, sUnUz, ymUs_.
        after("aym\u{131}\u{15f}", Some((3, 0, false)));
        after("kalemm\u{131}\u{15f}", Some((6, 1, true)));
    }

    // Visits every text of up to so many of these letters.
    fn each(most: usize, letters: &[char], text: &mut String, visit: &mut dyn FnMut(&str)) {
        visit(text);
        if most > 0 {
            for &letter in letters {
                text.push(letter);
                each(most - 1, letters, text, visit);
                text.pop();
            }
        }
    }

    fn is_vowel(ch: char) -> bool {
        VOWEL_LETTERS.contains(ch)
    }

    #[test]
    fn the_walk_ends_as_the_crates_test_does() {
        let letters: Vec<char> = VOWEL_LETTERS.chars().chain("b\u{4e61}".chars()).collect();
        let (mut yes, mut loans) = (0, 0);
        each(4, &letters, &mut String::new(), &mut |text| {
            let found = found(text);
            assert!(agrees(text, found), "{}", text);
            if let Some(found) = found {
                let past_first = |text: &str| text.chars().skip(1).any(is_vowel);
                assert!(!past_first(&text[found.last..]), "{}", text);
                let between = past_first(&text[found.partner..found.last]);
                assert_eq!(found.loan, between, "{}", text);
                yes += 1;
                loans += usize::from(between);
            }
        });
        assert!(0 < loans && loans < yes, "{} of {}", loans, yes);
    }
}
