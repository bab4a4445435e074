//! The exports as safe calls: slices in, and out the answer or the refusal, with the word as text.
//!
//! The header asks of a caller, under "Lent memory", that no pointer is null, that as many bytes are
//! behind each as its length says, and that nothing written overlaps anything else that is lent. Slices
//! are so by themselves: an empty one is not null either, and an exclusive one overlaps no other.

use crate::exports::*;
use crate::refusal::{refused, Refusal};

/// What a call answers of a word that it took: the word, which then is text, and the answer.
type Taken<'a, A> = Result<(&'a str, A), Refusal>;

// The calls that are lent a word alone.
macro_rules! on_word {
    ($($call:ident: $export:ident -> $answer:ty;)+) => {$(
        pub(crate) fn $call(w: &[u8]) -> Taken<'_, $answer> {
            // SAFETY: a slice, as the header asks.
            let answer = unsafe { $export(w.as_ptr(), w.len()) };
            refused(answer.refusal)?;
            // SAFETY: the call took the word.
            Ok((unsafe { taken(w) }, answer))
        }
    )+};
}

on_word! {
    syllable: fannavy_syllable -> FannavySyllable;
    stage: fannavy_stage -> FannavyStage;
}

// The calls that write a text: the text, and the answer.
macro_rules! into_text {
    ($($call:ident: $export:ident -> $answer:ty;)+) => {$(
        pub(crate) fn $call<'a>(w: &[u8], out: &'a mut [u8]) -> Result<(&'a str, $answer), Refusal> {
            // SAFETY: slices, as the header asks; the one that is written is exclusive.
            let answer = unsafe { $export(w.as_ptr(), w.len(), out.as_mut_ptr(), out.len()) };
            refused(answer.refusal)?;
            // SAFETY: the call took the word, and so many bytes are what it wrote.
            Ok((unsafe { written(&out[..answer.length]) }, answer))
        }
    )+};
}

into_text! {
    postlude: fannavy_postlude -> FannavyPostlude;
    fold: fannavy_fold -> FannavyFold;
    pass: fannavy_pass -> FannavyPass;
    noun: fannavy_noun -> FannavyNoun;
    whole: fannavy_whole -> FannavyWhole;
    pieces_text: fannavy_pieces_text -> FannavyPiecesText;
}

pub(crate) fn pieces<'a>(w: &'a [u8], out: &mut [u8]) -> Taken<'a, FannavyPieces> {
    // SAFETY: slices, as the header asks; the one that is written is exclusive.
    let answer = unsafe { fannavy_pieces(w.as_ptr(), w.len(), out.as_mut_ptr(), out.len()) };
    refused(answer.refusal)?;
    // SAFETY: the call took the word.
    Ok((unsafe { taken(w) }, answer))
}

pub(crate) fn is_utf8(w: &[u8]) -> bool {
    // SAFETY: a slice, as the header asks.
    unsafe { fannavy_is_utf8(w.as_ptr(), w.len()) }
}

pub(crate) fn batch(
    front: &[u8],
    tails: &[u8],
    lengths: &mut [u8],
    answers: &mut [u8],
    flags: &mut [u8],
) -> Result<FannavyBatch, Refusal> {
    // SAFETY: slices, as the header asks; the three that are written are exclusive.
    let answer = unsafe {
        fannavy_batch(
            front.as_ptr(),
            front.len(),
            tails.as_ptr(),
            tails.len(),
            lengths.as_mut_ptr(),
            lengths.len(),
            answers.as_mut_ptr(),
            answers.len(),
            flags.as_mut_ptr(),
            flags.len(),
        )
    };
    refused(answer.refusal)?;
    Ok(answer)
}

/// A word that a call took, as text.
///
/// # Safety
///
/// A call on the word answered without a refusal.
unsafe fn taken(word: &[u8]) -> &str {
    debug_assert!(str::from_utf8(word).is_ok());
    // SAFETY: a word that is not refused is UTF-8, and that is the encoding of scalar values: two theorems
    // `accepts-exactly`, of crates/theorems and of crates/encoding, in their proofs/Theorems.antt; that the
    // call refuses all others is its contract.
    unsafe { str::from_utf8_unchecked(word) }
}

/// What a call wrote, as text.
///
/// # Safety
///
/// A call that writes a text answered without a refusal, and these are the bytes that it wrote.
unsafe fn written(bytes: &[u8]) -> &str {
    debug_assert!(str::from_utf8(bytes).is_ok());
    // SAFETY: what these calls give of a word that is not refused is UTF-8: the theorems `texts-are-text`,
    // `folded-is-text` and `pieces-are-text` in crates/theorems/proofs/Theorems.antt; that it is what was
    // written is each call's contract.
    unsafe { str::from_utf8_unchecked(bytes) }
}
