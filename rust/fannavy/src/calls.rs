//! The calls on a word of bytes, and what they answer.

use crate::ffi;
use crate::pieces::{self, Pieces};
#[cfg(doc)]
use crate::{fold_room, noun_room, pass_room, Kind, PIECES_TEXT_ROOM};
use crate::{Refusal, PIECES_ROOM};

/// What the suffix stage answers.
#[derive(Clone, Copy, Debug, PartialEq, Eq)]
#[must_use]
pub struct Stage<'a> {
    /// What is kept: the front part of the word, possibly empty, whole characters.
    pub kept: &'a str,
    /// Whether an ending was removed.
    pub yes: bool,
    /// Whether stemming may go on: false only where the plural was removed from the very end.
    pub flag: bool,
    /// Where two vowels of the word start, in bytes from the word's start, `(last, partner)`: the last
    /// vowel up to the end of the ending's first piece, from the word's end inward, that tests vowel
    /// harmony, and the nearest before it that is in harmony with it. `None` where no piece tests
    /// harmony, so always where `yes` is false; every kind tests it but `SUnUz`, `CAsInA`, `YsA` and
    /// `Yken` of [`Kind`].
    pub harmony: Option<(usize, usize)>,
    /// Whether the word is a loan candidate: some vowel stands between these two. False where `harmony`
    /// is `None`.
    pub loan: bool,
}

/// What the postlude answers.
#[derive(Clone, Copy, Debug, PartialEq, Eq)]
#[must_use]
pub struct Postlude<'a> {
    /// The text written, at the output's start.
    pub text: &'a str,
    /// False for the words `ad` and `soyad` alone.
    pub yes: bool,
}

/// What the word pass answers.
#[derive(Clone, Copy, Debug, PartialEq, Eq)]
#[must_use]
pub struct Pass<'a> {
    /// The text written, at the output's start; possibly empty.
    pub text: &'a str,
    /// The answer of [`syllable`].
    pub syllable: bool,
    /// Whether an ending was removed; false where `syllable` is.
    pub yes: bool,
    /// As [`Stage::flag`]; true where `syllable` is false.
    pub flag: bool,
}

/// What the noun stage answers.
#[derive(Clone, Copy, Debug, PartialEq, Eq)]
#[must_use]
pub struct Noun<'a> {
    /// The text written, at the output's start; possibly empty.
    pub text: &'a str,
    /// Whether an ending was removed.
    pub yes: bool,
}

/// Whether the bytes are UTF-8. Takes any bytes, of any length, and never refuses.
///
/// ```
/// assert!(fannavy::is_utf8("ağaç".as_bytes()));
/// assert!(!fannavy::is_utf8(b"a\xC4"));
/// ```
#[must_use]
pub fn is_utf8(bytes: &[u8]) -> bool {
    ffi::is_utf8(bytes)
}

/// Whether the word has two vowels or more.
///
/// ```
/// assert_eq!(fannavy::syllable("evler".as_bytes()), Ok(true));
/// assert_eq!(fannavy::syllable("lar".as_bytes()), Ok(false));
/// assert_eq!(fannavy::syllable(b"\xFF"), Err(fannavy::Refusal::NotUtf8));
/// ```
///
/// # Errors
///
/// Number 1, [`Refusal::OverLimit`]; 2, [`Refusal::NotUtf8`].
///
/// # Panics
///
/// Only where libfannavy.a is of another edition than this crate.
pub fn syllable(word: &[u8]) -> Result<bool, Refusal> {
    let (_, answer) = ffi::syllable(word)?;
    Ok(answer.yes)
}

/// The suffix stage: removes the endings of a nominal verb from the word's end.
///
/// ```
/// let stage = fannavy::stage("arabayken".as_bytes())?;
/// assert_eq!(stage.kept, "araba");
/// assert!(stage.yes && stage.flag);
///
/// let stage = fannavy::stage("evler".as_bytes())?;
/// assert_eq!(stage.kept, "ev");
/// assert!(stage.yes && !stage.flag);
///
/// let stage = fannavy::stage("kalemlar".as_bytes())?;
/// assert_eq!(stage.harmony, Some((6, 1)));
/// assert!(stage.loan);
///
/// let stage = fannavy::stage("saatler".as_bytes())?;
/// assert_eq!(stage.kept, "saatler");
/// assert!(!stage.yes && stage.flag);
///
/// let long = [b'a'; fannavy::LIMIT + 1];
/// assert_eq!(fannavy::stage(&long), Err(fannavy::Refusal::OverLimit));
/// # Ok::<(), fannavy::Refusal>(())
/// ```
///
/// # Errors
///
/// Number 1, [`Refusal::OverLimit`]; 2, [`Refusal::NotUtf8`].
///
/// # Panics
///
/// Only where libfannavy.a is of another edition than this crate.
pub fn stage(word: &[u8]) -> Result<Stage<'_>, Refusal> {
    let (word, answer) = ffi::stage(word)?;
    Ok(Stage {
        kept: &word[..answer.length],
        yes: answer.yes,
        flag: answer.flag,
        harmony: answer.harmonic.then_some((answer.last, answer.partner)),
        loan: answer.loan,
    })
}

/// The postlude: mends the last consonant of a text from which an ending was removed. The output
/// has [`pass_room`] bytes or more.
///
/// ```
/// let mut out = [0; 8];
/// assert_eq!(fannavy::postlude("kanad".as_bytes(), &mut out)?.text, "kanadı");
/// assert_eq!(fannavy::postlude("ayağ".as_bytes(), &mut out)?.text, "ayak");
/// assert!(!fannavy::postlude(b"soyad", &mut out)?.yes);
///
/// let refusal = fannavy::postlude(b"soyad", &mut out[..6]);
/// assert_eq!(refusal, Err(fannavy::Refusal::OutputTooShort));
/// # Ok::<(), fannavy::Refusal>(())
/// ```
///
/// # Errors
///
/// Number 1, [`Refusal::OverLimit`]; 2, [`Refusal::NotUtf8`]; 3, [`Refusal::OutputTooShort`].
///
/// # Panics
///
/// Only where libfannavy.a is of another edition than this crate.
pub fn postlude<'a>(word: &[u8], out: &'a mut [u8]) -> Result<Postlude<'a>, Refusal> {
    let (text, answer) = ffi::postlude(word, out)?;
    Ok(Postlude {
        text,
        yes: answer.yes,
    })
}

/// The word in small letters: I becomes ı and İ becomes i, the other letters of A to Z become a to z,
/// and Ç Ğ Ö Ş Ü become ç ğ ö ş ü; every other character is copied. The text may be longer or shorter
/// than the word. An output as long as the text is enough; [`fold_room`] always is.
///
/// ```
/// let mut out = [0; fannavy::fold_room(5)];
/// assert_eq!(fannavy::fold("IŞIK".as_bytes(), &mut out)?, "ışık");
/// assert_eq!(fannavy::fold("İZLER".as_bytes(), &mut out)?, "izler");
///
/// let refusal = fannavy::fold("IŞIK".as_bytes(), &mut out[..6]);
/// assert_eq!(refusal, Err(fannavy::Refusal::OutputTooShort));
/// # Ok::<(), fannavy::Refusal>(())
/// ```
///
/// # Errors
///
/// Number 1, [`Refusal::OverLimit`]; 2, [`Refusal::NotUtf8`]; 3, [`Refusal::OutputTooShort`].
///
/// # Panics
///
/// Only where libfannavy.a is of another edition than this crate.
pub fn fold<'a>(word: &[u8], out: &'a mut [u8]) -> Result<&'a str, Refusal> {
    let (text, _) = ffi::fold(word, out)?;
    Ok(text)
}

/// The word pass: the suffix stage of a word that has two vowels or more, and the postlude of what
/// it keeps, unless the flag is false; any other word is copied. The output has [`pass_room`] bytes
/// or more.
///
/// ```
/// let mut out = [0; 32];
/// assert_eq!(fannavy::pass("kanaddır".as_bytes(), &mut out)?.text, "kanadı");
/// assert_eq!(fannavy::pass(b"siniz", &mut out)?.text, "");
/// assert_eq!(fannavy::pass(b"lar", &mut out)?.text, "lar");
/// # Ok::<(), fannavy::Refusal>(())
/// ```
///
/// # Errors
///
/// Number 1, [`Refusal::OverLimit`]; 2, [`Refusal::NotUtf8`]; 3, [`Refusal::OutputTooShort`].
///
/// # Panics
///
/// Only where libfannavy.a is of another edition than this crate.
pub fn pass<'a>(word: &[u8], out: &'a mut [u8]) -> Result<Pass<'a>, Refusal> {
    let (text, answer) = ffi::pass(word, out)?;
    Ok(Pass {
        text,
        syllable: answer.syllable,
        yes: answer.yes,
        flag: answer.flag,
    })
}

/// The noun stage: removes the endings of a noun from the word's end, the plural, possessives, cases and
/// -ki with the case before it, however often it comes. Mostly a front part of the word is left; but
/// where na, ne, nda or nde follows such a -ki, these letters may stay and the part before them is cut
/// out. Takes a word of any number of syllables. The output has [`noun_room`] bytes or more.
///
/// ```
/// let mut out = [0; 20];
/// assert_eq!(fannavy::noun(b"evlerle", &mut out)?.text, "ev");
/// assert_eq!(fannavy::noun(b"evdekilerdekilerdeki", &mut out)?.text, "ev");
/// assert_eq!(fannavy::noun(b"evinkinde", &mut out)?.text, "evnde");
/// assert!(!fannavy::noun(b"saatler", &mut out)?.yes);
///
/// let refusal = fannavy::noun(b"evlerle", &mut out[..6]);
/// assert_eq!(refusal, Err(fannavy::Refusal::OutputTooShort));
/// # Ok::<(), fannavy::Refusal>(())
/// ```
///
/// # Errors
///
/// Number 1, [`Refusal::OverLimit`]; 2, [`Refusal::NotUtf8`]; 3, [`Refusal::OutputTooShort`].
///
/// # Panics
///
/// Only where libfannavy.a is of another edition than this crate.
pub fn noun<'a>(word: &[u8], out: &'a mut [u8]) -> Result<Noun<'a>, Refusal> {
    let (text, answer) = ffi::noun(word, out)?;
    Ok(Noun {
        text,
        yes: answer.yes,
    })
}

/// The whole run, proved to give what turkish.sbl's commands give, and compared with the stems of
/// rust-stemmers 1.2.0 and of Snowball: the suffix stage of a
/// word that has two vowels or more and, unless the flag is false, the noun stage of what it keeps and the
/// postlude of what that leaves; any other word is copied. The output has [`pass_room`] bytes or more.
///
/// ```
/// let mut out = [0; 32];
/// assert_eq!(fannavy::whole("kitabımızdan".as_bytes(), &mut out)?, "kitap");
/// assert_eq!(fannavy::whole(b"kitablar", &mut out)?, "kitab");
/// assert_eq!(fannavy::whole(b"siniz", &mut out)?, "");
/// assert_eq!(fannavy::whole(b"lar", &mut out)?, "lar");
/// # Ok::<(), fannavy::Refusal>(())
/// ```
///
/// # Errors
///
/// Number 1, [`Refusal::OverLimit`]; 2, [`Refusal::NotUtf8`]; 3, [`Refusal::OutputTooShort`].
///
/// # Panics
///
/// Only where libfannavy.a is of another edition than this crate.
pub fn whole<'a>(word: &[u8], out: &'a mut [u8]) -> Result<&'a str, Refusal> {
    let (text, _) = ffi::whole(word, out)?;
    Ok(text)
}

/// What the suffix stage removed, in pieces: one for each mark that it kept.
///
/// ```
/// use fannavy::{Joining, Kind};
///
/// let word = "evmişlerdir";
/// let pieces = fannavy::pieces(word.as_bytes())?;
/// let letters = |piece: fannavy::Piece| (piece.kind, &word[piece.first..=piece.last]);
/// let told: Vec<_> = pieces.iter().map(letters).collect();
/// let past = Kind::YmUs(Joining::AfterVowel);
/// assert_eq!(told, [(Kind::DUr, "dir"), (Kind::LAr, "ler"), (past, "miş")]);
/// assert_eq!(pieces.kept, "ev");
///
/// let pieces = fannavy::pieces(b"saatler")?;
/// assert_eq!((pieces.kept, pieces.iter().count()), ("saatler", 0));
/// # Ok::<(), fannavy::Refusal>(())
/// ```
///
/// # Errors
///
/// Number 1, [`Refusal::OverLimit`]; 2, [`Refusal::NotUtf8`].
///
/// # Panics
///
/// Only where libfannavy.a is of another edition than this crate.
pub fn pieces(word: &[u8]) -> Result<Pieces<'_>, Refusal> {
    let mut buffer = [0; PIECES_ROOM];
    let (word, answer) = ffi::pieces(word, &mut buffer)?;
    Ok(pieces::read(word, answer.length, &buffer, answer.count))
}

/// The same pieces as text, a line each: the kind's name, a tab, the piece's letters with a y that
/// joined it, LF. In which order the lines stand is open. The output has [`PIECES_TEXT_ROOM`] bytes
/// or more.
///
/// ```
/// let mut out = [0; fannavy::PIECES_TEXT_ROOM];
/// assert_eq!(fannavy::pieces_text(b"arabayken", &mut out)?, "yken\tyken\n");
/// assert_eq!(fannavy::pieces_text(b"saatler", &mut out)?, "");
///
/// let refusal = fannavy::pieces_text(b"arabayken", &mut out[1..]);
/// assert_eq!(refusal, Err(fannavy::Refusal::BufferTooShort));
/// # Ok::<(), fannavy::Refusal>(())
/// ```
///
/// # Errors
///
/// Number 1, [`Refusal::OverLimit`]; 2, [`Refusal::NotUtf8`]; 5, [`Refusal::BufferTooShort`].
///
/// # Panics
///
/// Only where libfannavy.a is of another edition than this crate.
pub fn pieces_text<'a>(word: &[u8], out: &'a mut [u8]) -> Result<&'a str, Refusal> {
    let (text, _) = ffi::pieces_text(word, out)?;
    Ok(text)
}

#[cfg(test)]
mod tests {
    use super::*;
    use crate::{fold_room, noun_room, pass_room, stem, Joining, Kind, Piece};
    use crate::{LIMIT, PIECES_TEXT_ROOM};
    use std::prelude::rust_2021::*;
    use std::{format, vec};

    #[test]
    fn a_stage_tells_its_harmony() {
        for (word, harmony, loan) in [
            ("", None, false),
            ("saatler", None, false),
            ("arabayken", None, false),
            ("siniz", None, false),
            ("evler", Some((3, 0)), false),
            ("kalemlar", Some((6, 1)), true),
            ("kanaddır", Some((6, 3)), false),
            // Both pieces test harmony; of three only the innermost does.
            ("kalemmışlar", Some((11, 6)), false),
            ("kalemmışsınızcasına", Some((6, 1)), true),
        ] {
            let stage = stage(word.as_bytes()).expect("a word");
            assert_eq!((stage.harmony, stage.loan), (harmony, loan), "{word}");
        }
        assert_eq!(stage(b"kalemlar\xFF"), Err(Refusal::NotUtf8));
    }

    #[test]
    fn a_fold_needs_as_much_as_its_text() {
        for (word, text) in [
            ("", ""),
            ("I", "ı"),
            ("İ", "i"),
            ("ISIRGAN", "ısırgan"),
            ("DİYARBAKIR", "diyarbakır"),
            ("I\u{307}", "ı\u{307}"),
        ] {
            let word = word.as_bytes();
            assert!(text.len() <= fold_room(word.len()));
            let mut out = vec![0; text.len()];
            assert_eq!(fold(word, &mut out), Ok(text));
            if let Some(short) = text.len().checked_sub(1) {
                assert_eq!(fold(word, &mut out[..short]), Err(Refusal::OutputTooShort));
            }
        }
        let capitals = [b'I'; LIMIT];
        let mut out = [0; fold_room(LIMIT)];
        assert_eq!(fold(&capitals, &mut out).map(str::len), Ok(2 * LIMIT));
        assert_eq!(fold(&capitals, &mut out[1..]), Err(Refusal::OutputTooShort));
    }

    #[test]
    fn a_noun_and_a_whole_run_fit_the_least_output() {
        for word in ["", "ad", "evlerle", "kanadındaymış", "adakina"] {
            let n = word.len();
            let mut out = vec![0; pass_room(n)];
            let text = whole(word.as_bytes(), &mut out).expect("a word");
            assert_eq!(stem(word).expect("a word"), text);
            let noun = noun(word.as_bytes(), &mut out[..noun_room(n)]).expect("a word");
            assert_eq!(noun.yes, noun.text != word);
        }
        let mut out = [0; pass_room(2)];
        assert_eq!(whole(b"ev", &mut out[1..]), Err(Refusal::OutputTooShort));
        assert_eq!(noun(b"ev", &mut out[..1]), Err(Refusal::OutputTooShort));
        assert_eq!(whole(b"\xFF", &mut []), Err(Refusal::NotUtf8));
        assert_eq!(noun(b"\xFF", &mut []), Err(Refusal::NotUtf8));
        let long = [0xFF; LIMIT + 1];
        assert_eq!(whole(&long, &mut []), Err(Refusal::OverLimit));
        assert_eq!(noun(&long, &mut []), Err(Refusal::OverLimit));
    }

    #[test]
    fn texts_are_the_bytes_written() {
        // Mended, copied, cut, and cut in between; with characters of one to four bytes.
        for word in [
            "kanaddır",
            "ayağ",
            "乡村小学",
            "ev𠁡lerdir",
            "evinkinde",
            "ağcı",
            "ığ",
        ] {
            let mut out = [0; 64];
            let text = pass(word.as_bytes(), &mut out)
                .expect("a word")
                .text
                .to_string();
            assert_eq!(&out[..text.len()], text.as_bytes());
            assert!(out[text.len()..].iter().all(|&byte| byte == 0));
            let kept = stage(word.as_bytes()).expect("a word").kept;
            assert!(word.starts_with(kept));
        }
    }

    // The lines of a word's text form, sorted.
    fn lines(word: &str) -> Vec<String> {
        let mut out = [0; PIECES_TEXT_ROOM];
        let text = pieces_text(word.as_bytes(), &mut out).expect("a word");
        let mut lines: Vec<String> = text.lines().map(str::to_string).collect();
        lines.sort();
        lines
    }

    #[test]
    fn text_and_pieces_tell_the_same() {
        for (word, count) in [
            ("", 0),
            ("saatler", 0),
            ("siniz", 1),
            ("abken", 1),
            ("arabayken", 1),
            ("evlerdir", 1),
            ("geldiniz", 2),
            ("evmişlerdir", 3),
            ("aymışsınızcasına", 3),
        ] {
            let pieces = pieces(word.as_bytes()).expect("a word");
            let line = |p: Piece| format!("{}\t{}", p.kind.name(), &word[p.first..=p.last]);
            let mut told: Vec<String> = pieces.iter().map(line).collect();
            told.sort();
            assert_eq!(told, lines(word), "{word}");
            assert_eq!(told.len(), count, "{word}");
        }
    }

    #[test]
    fn a_joint_is_told() {
        let kinds = |word: &str| -> Vec<Kind> {
            let pieces = pieces(word.as_bytes()).expect("a word");
            pieces.iter().map(|piece| piece.kind).collect()
        };
        assert_eq!(kinds("arabayken"), [Kind::Yken(Joining::WithY)]);
        assert_eq!(kinds("abken"), [Kind::Yken(Joining::AfterVowel)]);
        let three = [Kind::CAsInA, Kind::SUnUz, Kind::YmUs(Joining::WithY)];
        assert_eq!(kinds("aymışsınızcasına"), three);
    }

    #[test]
    fn a_word_is_refused_before_a_buffer() {
        let long = [b'a'; LIMIT + 1];
        for (word, refusal) in [
            (&long[..], Refusal::OverLimit),
            (b"\xFF", Refusal::NotUtf8),
            (b"evler", Refusal::BufferTooShort),
        ] {
            let mut out = [0; PIECES_TEXT_ROOM - 1];
            assert_eq!(pieces_text(word, &mut out), Err(refusal));
        }
        assert_eq!(pieces(&long), Err(Refusal::OverLimit));
        assert_eq!(pieces(b"\xFF"), Err(Refusal::NotUtf8));
    }
}
