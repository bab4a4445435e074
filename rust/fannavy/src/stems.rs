//! The calls on text, for a host that has no output to lend.

#[cfg(doc)]
use crate::Pass;
use crate::{fold, fold_room, pass, pass_room, whole, Refusal, Text, LIMIT};

/// A stem; mending may make it two bytes longer than the word.
pub type Stem = Text<{ pass_room(LIMIT) }>;

/// A word in small letters, which may have twice as many bytes as it had.
pub type Folded = Text<{ fold_room(LIMIT) }>;

/// The word's stem, by the whole run: as [`whole`] gives it. The word is in small letters; [`folded`] makes
/// it so. A stem may be empty.
///
/// ```
/// assert_eq!(fannavy::stem("kitabımızdan")?, "kitap");
/// assert_eq!(fannavy::stem("siniz")?, "");
///
/// let heading = fannavy::folded("KİTABIMIZDAN")?;
/// assert_eq!(fannavy::stem(&heading)?, "kitap");
///
/// let long = "a".repeat(fannavy::LIMIT + 1);
/// assert_eq!(fannavy::stem(&long), Err(fannavy::Refusal::OverLimit));
/// # Ok::<(), fannavy::Refusal>(())
/// ```
///
/// # Errors
///
/// Number 1, [`Refusal::OverLimit`], and no other.
///
/// # Panics
///
/// Only where libfannavy.a is of another edition than this crate.
pub fn stem(word: &str) -> Result<Stem, Refusal> {
    let mut out = [0; pass_room(LIMIT)];
    whole(word.as_bytes(), &mut out).map(Text::new)
}

/// The word's stem by the word pass, on which the endings of a noun stay: [`Pass::text`] of [`pass`].
///
/// ```
/// assert_eq!(fannavy::pass_stem("kitabımızdandır")?, "kitabımızdan");
/// assert_eq!(fannavy::stem("kitabımızdandır")?, "kitap");
/// # Ok::<(), fannavy::Refusal>(())
/// ```
///
/// # Errors
///
/// Number 1, [`Refusal::OverLimit`], and no other.
///
/// # Panics
///
/// Only where libfannavy.a is of another edition than this crate.
pub fn pass_stem(word: &str) -> Result<Stem, Refusal> {
    let mut out = [0; pass_room(LIMIT)];
    pass(word.as_bytes(), &mut out).map(|pass| Text::new(pass.text))
}

/// The word in small letters, as [`fold`] writes it. It may be over [`LIMIT`] bytes, where the word is not.
///
/// ```
/// assert_eq!(fannavy::folded("IŞIK")?, "ışık");
/// assert_eq!(fannavy::folded("İZLER")?, "izler");
/// # Ok::<(), fannavy::Refusal>(())
/// ```
///
/// # Errors
///
/// Number 1, [`Refusal::OverLimit`], and no other.
///
/// # Panics
///
/// Only where libfannavy.a is of another edition than this crate.
pub fn folded(word: &str) -> Result<Folded, Refusal> {
    let mut out = [0; fold_room(LIMIT)];
    fold(word.as_bytes(), &mut out).map(Text::new)
}

#[cfg(test)]
mod tests {
    use super::*;

    #[test]
    fn stems_are_those_of_the_slice_calls() {
        let mut out = [0; fold_room(LIMIT)];
        for word in [
            "",
            "siniz",
            "EVLER",
            "evler",
            "kanaddır",
            "kitabımızdan",
            "乡村小学𠁡",
        ] {
            let bytes = word.as_bytes();
            let expected = whole(bytes, &mut out).expect("a word");
            assert_eq!(stem(word).expect("a word"), expected);
            let expected = pass(bytes, &mut out).expect("a word").text;
            assert_eq!(pass_stem(word).expect("a word"), expected);
            let expected = fold(bytes, &mut out).expect("a word");
            assert_eq!(folded(word).expect("a word"), expected);
        }
    }

    #[test]
    fn words_of_the_readme_have_these_stems() {
        for (word, expected) in [
            ("kitaplar", "kitap"),
            ("kitabı", "kitap"),
            ("filtresini", "filtre"),
            ("filtresi", "filtres"),
            ("siniz", ""),
        ] {
            assert_eq!(stem(word).expect("a word"), expected);
        }
        assert_eq!(pass_stem("kitaplardandır").expect("a word"), "kitaplardan");
    }

    // The longest texts: d that gains ı behind a word as long as may be, and a letter that doubles.
    #[test]
    fn every_text_has_room() {
        let mut word = [b'b'; LIMIT];
        word[0] = b'a';
        word[LIMIT - 2..].copy_from_slice(b"ad");
        let word = str::from_utf8(&word).expect("letters");
        for stem in [stem(word), pass_stem(word)] {
            let stem = stem.expect("a word");
            assert_eq!(stem.strip_prefix(word), Some("ı"));
            assert_eq!(stem.len(), pass_room(LIMIT));
        }
        let capitals = [b'I'; LIMIT];
        let capitals = str::from_utf8(&capitals).expect("letters");
        let small = folded(capitals).expect("a word");
        assert_eq!(small.len(), fold_room(LIMIT));
        assert!(small.chars().all(|ch| ch == 'ı'));
        assert_eq!(stem(&small), Err(Refusal::OverLimit));
    }

    #[test]
    fn only_a_word_over_the_limit_is_refused() {
        let long = [b'a'; LIMIT + 1];
        let long = str::from_utf8(&long).expect("letters");
        assert_eq!(stem(long), Err(Refusal::OverLimit));
        assert_eq!(pass_stem(long), Err(Refusal::OverLimit));
        assert_eq!(folded(long), Err(Refusal::OverLimit));
        assert!(stem(&long[1..]).is_ok());
    }
}
