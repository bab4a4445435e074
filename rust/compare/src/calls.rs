//! The proved calls on words, each known by the type of its answer.

use crate::ffi::{
    self, FannavyFold, FannavyNoun, FannavyPass, FannavyPieces, FannavyPiecesText, FannavyPostlude,
    FannavyStage, FannavySyllable, FannavyWhole, StageKept, StagePart,
};
use crate::lent::Lent;
use crate::list::List;
use crate::output::Output;
use crate::rule::Need;
use fannavy::{PIECES_ROOM, PIECES_TEXT_ROOM};
use std::borrow::Cow;
use std::fmt::Debug;

/// A call on a word, and what it answers.
pub trait Call: Copy + Debug + PartialEq {
    const NAME: &'static str;
    const NEED: Need;

    fn call(lent: &mut Lent, output: &mut Output) -> Self;

    /// The answer that refuses by this number.
    fn refused(refusal: u32) -> Self;

    fn refusal(&self) -> u32;

    /// How many bytes of the output the answer stands in.
    fn written(&self) -> usize;

    /// The text that the answer tells the length of; none where that is more than there is.
    fn text<'a>(&self, _: &'a Lent, output: &'a Output) -> Option<&'a [u8]> {
        output.text(self.written())
    }

    /// That text with whatever may stand in any order in an order of ours.
    fn in_order(text: &[u8]) -> Cow<'_, [u8]> {
        Cow::from(text)
    }
}

// A call that takes an output, on what is lent.
fn into_output<A>(
    call: unsafe extern "C" fn(*const u8, usize, *mut u8, usize) -> A,
    lent: &mut Lent,
    output: &mut Output,
) -> A {
    let (w, n) = lent.slice();
    let (out, room) = output.slice();
    unsafe { call(w, n, out, room) }
}

// Parts of a text in their own order.
fn sorted<'a>(parts: impl Iterator<Item = &'a [u8]>) -> Cow<'a, [u8]> {
    let mut parts: Vec<&[u8]> = parts.collect();
    parts.sort_unstable();
    Cow::from(parts.concat())
}

impl Call for FannavySyllable {
    const NAME: &'static str = "syllable";
    const NEED: Need = Need::Nothing;

    fn call(lent: &mut Lent, _: &mut Output) -> Self {
        let (w, n) = lent.slice();
        unsafe { ffi::fannavy_syllable(w, n) }
    }

    fn refused(refusal: u32) -> Self {
        let yes = false;
        FannavySyllable { refusal, yes }
    }

    fn refusal(&self) -> u32 {
        self.refusal
    }

    fn written(&self) -> usize {
        0
    }
}

impl Call for FannavyStage {
    const NAME: &'static str = "stage";
    const NEED: Need = Need::Nothing;

    fn call(lent: &mut Lent, _: &mut Output) -> Self {
        let (w, n) = lent.slice();
        unsafe { ffi::fannavy_stage(w, n) }
    }

    fn refused(refusal: u32) -> Self {
        FannavyStage {
            refusal,
            length: 0,
            yes: false,
            flag: false,
            harmonic: false,
            last: 0,
            partner: 0,
            loan: false,
        }
    }

    fn refusal(&self) -> u32 {
        self.refusal
    }

    fn written(&self) -> usize {
        0
    }

    // The front part of the word.
    fn text<'a>(&self, lent: &'a Lent, _: &'a Output) -> Option<&'a [u8]> {
        lent.word().get(..self.length)
    }
}

impl From<FannavyStage> for StageKept {
    fn from(stage: FannavyStage) -> StageKept {
        StageKept {
            refusal: stage.refusal,
            length: stage.length,
            yes: stage.yes,
            flag: stage.flag,
        }
    }
}

// The stage's call, of whose answer some fields are left out.
impl Call for StageKept {
    const NAME: &'static str = FannavyStage::NAME;
    const NEED: Need = FannavyStage::NEED;

    fn call(lent: &mut Lent, output: &mut Output) -> Self {
        FannavyStage::call(lent, output).into()
    }

    fn refused(refusal: u32) -> Self {
        FannavyStage::refused(refusal).into()
    }

    fn refusal(&self) -> u32 {
        self.refusal
    }

    fn written(&self) -> usize {
        0
    }

    fn text<'a>(&self, lent: &'a Lent, _: &'a Output) -> Option<&'a [u8]> {
        lent.word().get(..self.length)
    }
}

// It has no number: a refused word gives the empty part.
impl Call for StagePart {
    const NAME: &'static str = "the stage's part";
    const NEED: Need = Need::MoreThanWord(0);

    fn call(lent: &mut Lent, output: &mut Output) -> Self {
        let length = into_output(ffi::probe_stage_part, lent, output);
        StagePart { length }
    }

    fn refused(_: u32) -> Self {
        StagePart { length: 0 }
    }

    fn refusal(&self) -> u32 {
        0
    }

    fn written(&self) -> usize {
        self.length
    }
}

impl Call for FannavyPostlude {
    const NAME: &'static str = "postlude";
    const NEED: Need = Need::MoreThanWord(2);

    fn call(lent: &mut Lent, output: &mut Output) -> Self {
        into_output(ffi::fannavy_postlude, lent, output)
    }

    fn refused(refusal: u32) -> Self {
        FannavyPostlude {
            refusal,
            length: 0,
            yes: false,
        }
    }

    fn refusal(&self) -> u32 {
        self.refusal
    }

    fn written(&self) -> usize {
        self.length
    }
}

impl Call for FannavyFold {
    const NAME: &'static str = "fold";
    const NEED: Need = Need::Folded;

    fn call(lent: &mut Lent, output: &mut Output) -> Self {
        into_output(ffi::fannavy_fold, lent, output)
    }

    fn refused(refusal: u32) -> Self {
        FannavyFold { refusal, length: 0 }
    }

    fn refusal(&self) -> u32 {
        self.refusal
    }

    fn written(&self) -> usize {
        self.length
    }
}

impl Call for FannavyPass {
    const NAME: &'static str = "pass";
    const NEED: Need = Need::MoreThanWord(2);

    fn call(lent: &mut Lent, output: &mut Output) -> Self {
        into_output(ffi::fannavy_pass, lent, output)
    }

    fn refused(refusal: u32) -> Self {
        FannavyPass {
            refusal,
            length: 0,
            syllable: false,
            yes: false,
            flag: false,
        }
    }

    fn refusal(&self) -> u32 {
        self.refusal
    }

    fn written(&self) -> usize {
        self.length
    }
}

impl Call for FannavyNoun {
    const NAME: &'static str = "noun";
    const NEED: Need = Need::MoreThanWord(0);

    fn call(lent: &mut Lent, output: &mut Output) -> Self {
        into_output(ffi::fannavy_noun, lent, output)
    }

    fn refused(refusal: u32) -> Self {
        FannavyNoun {
            refusal,
            length: 0,
            yes: false,
        }
    }

    fn refusal(&self) -> u32 {
        self.refusal
    }

    fn written(&self) -> usize {
        self.length
    }
}

impl Call for FannavyWhole {
    const NAME: &'static str = "whole";
    const NEED: Need = Need::MoreThanWord(2);

    fn call(lent: &mut Lent, output: &mut Output) -> Self {
        into_output(ffi::fannavy_whole, lent, output)
    }

    fn refused(refusal: u32) -> Self {
        FannavyWhole { refusal, length: 0 }
    }

    fn refusal(&self) -> u32 {
        self.refusal
    }

    fn written(&self) -> usize {
        self.length
    }
}

// The length is the kept text's, and three bytes are written for each piece.
impl Call for FannavyPieces {
    const NAME: &'static str = "pieces";
    const NEED: Need = Need::Buffer(PIECES_ROOM);

    fn call(lent: &mut Lent, output: &mut Output) -> Self {
        into_output(ffi::fannavy_pieces, lent, output)
    }

    fn refused(refusal: u32) -> Self {
        FannavyPieces {
            refusal,
            length: 0,
            count: 0,
        }
    }

    fn refusal(&self) -> u32 {
        self.refusal
    }

    fn written(&self) -> usize {
        self.count.saturating_mul(3)
    }

    fn in_order(text: &[u8]) -> Cow<'_, [u8]> {
        sorted(text.chunks(3))
    }
}

impl Call for FannavyPiecesText {
    const NAME: &'static str = "pieces_text";
    const NEED: Need = Need::Buffer(PIECES_TEXT_ROOM);

    fn call(lent: &mut Lent, output: &mut Output) -> Self {
        into_output(ffi::fannavy_pieces_text, lent, output)
    }

    fn refused(refusal: u32) -> Self {
        FannavyPiecesText { refusal, length: 0 }
    }

    fn refusal(&self) -> u32 {
        self.refusal
    }

    fn written(&self) -> usize {
        self.length
    }

    fn in_order(text: &[u8]) -> Cow<'_, [u8]> {
        sorted(text.split_inclusive(|&byte| byte == b'\n'))
    }
}

// No output: the pieces are in the answer.
impl Call for List {
    const NAME: &'static str = "the list of pieces";
    const NEED: Need = Need::Nothing;

    fn call(lent: &mut Lent, _: &mut Output) -> Self {
        let (w, n) = lent.slice();
        List::from(unsafe { ffi::probe_removed(w, n) })
    }

    fn refused(refusal: u32) -> Self {
        List::new(refusal, 0, &[])
    }

    fn refusal(&self) -> u32 {
        self.refusal
    }

    fn written(&self) -> usize {
        0
    }
}

#[cfg(test)]
mod tests {
    use super::*;

    #[test]
    fn pieces_may_stand_in_any_order() {
        let order = FannavyPieces::in_order;
        assert_eq!(order(&[7, 4, 6, 5, 1, 3]), order(&[5, 1, 3, 7, 4, 6]));
        assert_ne!(order(&[7, 4, 6, 5, 1, 3]), order(&[5, 4, 6, 7, 1, 3]));
        let order = FannavyPiecesText::in_order;
        assert_eq!(
            order(b"DUr\tdir\nlAr\tler\n"),
            order(b"lAr\tler\nDUr\tdir\n")
        );
        assert_ne!(
            order(b"DUr\tdir\nlAr\tler\n"),
            order(b"lAr\tdir\nDUr\tler\n")
        );
        assert_ne!(order(b"DUr\tdir\n"), order(b"DUr\tdir"));
    }
}
