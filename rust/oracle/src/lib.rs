//! The Turkish module of rust-stemmers 1.2.0 as an oracle: four of its stages by themselves, its whole
//! run, the word pass composed of three stages, the pieces that the suffix stage removes, by its marks
//! one by one, and the vowels that their harmony tests find, by its groupings. The crate's files are
//! read at build time and are not part of this repository.

include!(concat!(env!("OUT_DIR"), "/snowball.rs"));

mod harmony;
mod pieces;

use snowball::algorithms::turkish;
use std::borrow::Cow;

pub use harmony::{harmony, Harmony};
pub use pieces::{pieces, Joined, Piece, Pieces};
pub use snowball::algorithms::turkish::{keys, noun_keys};
pub use snowball::SnowballEnv;

/// What the suffix stage leaves: the text, whether an ending was removed, and whether noun
/// suffixes may follow.
#[derive(Clone, Debug, PartialEq)]
pub struct Stage<'a> {
    pub text: Cow<'a, str>,
    pub yes: bool,
    pub flag: bool,
}

/// What the noun stage leaves: the text, and whether one of its branches was taken.
#[derive(Clone, Debug, PartialEq)]
pub struct Noun<'a> {
    pub text: Cow<'a, str>,
    pub yes: bool,
}

/// What the postlude leaves: the text, and no for a reserved word only.
#[derive(Clone, Debug, PartialEq)]
pub struct Postlude<'a> {
    pub text: Cow<'a, str>,
    pub yes: bool,
}

/// What the word pass leaves: the text, and what the stages said on the way.
#[derive(Clone, Debug, PartialEq)]
pub struct Pass<'a> {
    pub text: Cow<'a, str>,
    pub syllable: bool,
    pub yes: bool,
    pub flag: bool,
}

/// The suffix stage, entered at the word's end with nothing removed before it.
pub fn stem_nominal_verb_suffixes(word: &str) -> Stage<'_> {
    let mut env = at_end(word);
    let (yes, flag) = turkish::enter_stem_nominal_verb_suffixes(&mut env);
    Stage {
        text: env.get_current(),
        yes,
        flag,
    }
}

/// The noun stage, entered as the suffix stage is.
pub fn stem_noun_suffixes(word: &str) -> Noun<'_> {
    let mut env = at_end(word);
    let yes = turkish::enter_stem_noun_suffixes(&mut env);
    Noun {
        text: env.get_current(),
        yes,
    }
}

/// The whole run: the text that it leaves, whatever it answers.
pub fn stem(word: &str) -> Cow<'_, str> {
    let mut env = SnowballEnv::create(word);
    turkish::stem(&mut env);
    env.get_current()
}

// A word as the suffix stage is entered: what `backwards` does at the word's start.
fn at_end(word: &str) -> SnowballEnv<'_> {
    let mut env = SnowballEnv::create(word);
    env.limit_backward = env.cursor;
    env.cursor = env.limit;
    env
}

/// The syllable check, entered at the word's start.
pub fn more_than_one_syllable_word(word: &str) -> bool {
    turkish::enter_more_than_one_syllable_word(&mut SnowballEnv::create(word))
}

/// The postlude, entered at the word's start; it goes to the end by itself.
pub fn postlude(word: &str) -> Postlude<'_> {
    let mut env = SnowballEnv::create(word);
    let yes = turkish::enter_postlude(&mut env);
    Postlude {
        text: env.get_current(),
        yes,
    }
}

/// The word pass, which the crate does not have, composed of its stages: a word of one syllable
/// stays; else the suffix stage, and the postlude of what it keeps unless the flag is false.
pub fn pass(word: &str) -> Pass<'_> {
    if !more_than_one_syllable_word(word) {
        return Pass {
            text: Cow::from(word),
            syllable: false,
            yes: false,
            flag: true,
        };
    }
    let stage = stem_nominal_verb_suffixes(word);
    Pass {
        syllable: true,
        yes: stage.yes,
        flag: stage.flag,
        text: after_stage(stage),
    }
}

/// The word pass's text after the suffix stage: the postlude's, unless the flag is false.
pub fn after_stage(stage: Stage<'_>) -> Cow<'_, str> {
    if stage.flag {
        mended(stage.text)
    } else {
        stage.text
    }
}

// The postlude's text; one that it leaves alone is not copied.
fn mended(text: Cow<str>) -> Cow<str> {
    let changed = match postlude(&text).text {
        Cow::Owned(changed) => Some(changed),
        Cow::Borrowed(_) => None,
    };
    changed.map_or(text, Cow::Owned)
}

#[cfg(test)]
mod tests {
    use super::*;

    fn stage(word: &str) -> (String, bool, bool) {
        let s = stem_nominal_verb_suffixes(word);
        (s.text.into_owned(), s.yes, s.flag)
    }

    fn kept(text: &str, yes: bool, flag: bool) -> (String, bool, bool) {
        (text.to_string(), yes, flag)
    }

    #[test]
    fn stage_gives_text_yes_and_flag() {
        assert_eq!(stage(""), kept("", false, true));
        assert_eq!(stage("siniz"), kept("", true, true));
        assert_eq!(stage("sinizdir"), kept("siniz", true, true));
        assert_eq!(stage("evler"), kept("ev", true, false));
        assert_eq!(stage("lar"), kept("lar", false, true));
        assert_eq!(stage("kalemlar"), kept("kalem", true, false));
        assert_eq!(stage("saatler"), kept("saatler", false, true));
        assert_eq!(stage("arabayken"), kept("araba", true, true));
        assert_eq!(stage("evyken"), kept("evyken", false, true));
        assert_eq!(stage("abken"), kept("ab", true, true));
        assert_eq!(stage("aken"), kept("aken", false, true));
        assert_eq!(stage("doktorsunuz"), kept("doktor", true, true));
        assert_eq!(stage("evcesine"), kept("evcesine", false, true));
    }

    #[test]
    fn noun_stage_gives_text_and_yes() {
        for &(word, text, yes) in &[
            ("", "", false),
            ("ev", "ev", false),
            ("evler", "ev", true),
            ("evlerle", "ev", true),
            ("evimlerle", "ev", true),
            ("evlerinde", "ev", true),
            ("evdekilerdekilerdeki", "ev", true),
            // Cut before a mark that stays, line 380.
            ("adakina", "ana", true),
            ("adakinda", "anda", true),
            ("saatler", "saatler", false),
        ] {
            let noun = stem_noun_suffixes(word);
            assert_eq!((&*noun.text, noun.yes), (text, yes), "{}", word);
        }
    }

    #[test]
    fn whole_run_ends_early_or_goes_on_to_the_postlude() {
        for &(word, text) in &[
            ("", ""),
            // One syllable; no more than the plural; a reserved word.
            ("lar", "lar"),
            ("kitablar", "kitab"),
            ("ad\u{131}md\u{131}", "ad"),
            ("siniz", ""),
            ("evler", "ev"),
            ("kitab\u{131}m\u{131}zdan", "kitap"),
            ("kanad\u{131}ndaym\u{131}\u{15f}", "kanad\u{131}"),
            ("evdekilerdekilerdeki", "ev"),
            ("adakina", "ana"),
        ] {
            assert_eq!(stem(word), text, "{}", word);
        }
    }

    #[test]
    fn syllable_check_asks_for_two_vowels() {
        assert!(!more_than_one_syllable_word(""));
        assert!(!more_than_one_syllable_word("lar"));
        assert!(more_than_one_syllable_word("evler"));
    }

    #[test]
    fn postlude_mends_the_last_consonant() {
        for &(word, text, yes) in &[
            ("", "", true),
            ("ad", "ad", false),
            ("soyad", "soyad", false),
            ("kanad", "kanad\u{131}", true),
            ("bd", "bt", true),
            ("bg", "bg", true),
            ("aya\u{11f}", "ayak", true),
            ("a\u{11f}ac", "a\u{11f}a\u{e7}", true),
        ] {
            let p = postlude(word);
            assert_eq!((&*p.text, p.yes), (text, yes), "{}", word);
        }
    }

    #[test]
    fn pass_composes_the_stages() {
        for &(word, text, syllable, yes, flag) in &[
            ("", "", false, false, true),
            ("lar", "lar", false, false, true),
            ("siniz", "", true, true, true),
            ("kanadd\u{131}r", "kanad\u{131}", true, true, true),
            ("evler", "ev", true, true, false),
            ("kanadlar", "kanad", true, true, false),
            ("saatler", "saatler", true, false, true),
            (
                "adm\u{131}\u{15f}s\u{131}n\u{131}zcas\u{131}na",
                "ad",
                true,
                true,
                true,
            ),
        ] {
            let p = pass(word);
            let told = (p.syllable, p.yes, p.flag);
            assert_eq!((&*p.text, told), (text, (syllable, yes, flag)));
        }
    }

    #[test]
    fn stage_says_no_where_the_syllable_check_does() {
        for word in &["", "b", "lar", "b\u{131}m", "d\u{131}r", "ken", "mu\u{15f}"] {
            assert!(!more_than_one_syllable_word(word));
            assert_eq!(stage(word), kept(word, false, true));
        }
    }

    #[test]
    fn twelve_tables_have_eighty_keys_and_twelve_have_forty() {
        for &(ref tables, count) in &[(keys(), 80), (noun_keys(), 40)] {
            assert_eq!(tables.len(), 12);
            assert_eq!(tables.concat().len(), count);
        }
    }
}
