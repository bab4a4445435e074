//! The exports of libfannavy.a, as include/fannavy.h has them. Nothing checks these lines against the
//! Rattle source: a slice passes as a pointer, never null, and then a length. The comparison with the
//! Rust calls through the same lines.

#[repr(C)]
#[derive(Clone, Copy, Debug, PartialEq, Eq)]
pub struct FannavySyllable {
    pub refusal: u32,
    pub yes: bool,
}

#[repr(C)]
#[derive(Clone, Copy, Debug, PartialEq, Eq)]
pub struct FannavyStage {
    pub refusal: u32,
    pub length: usize,
    pub yes: bool,
    pub flag: bool,
    pub harmonic: bool,
    pub last: usize,
    pub partner: usize,
    pub loan: bool,
}

#[repr(C)]
#[derive(Clone, Copy, Debug, PartialEq, Eq)]
pub struct FannavyPostlude {
    pub refusal: u32,
    pub length: usize,
    pub yes: bool,
}

#[repr(C)]
#[derive(Clone, Copy, Debug, PartialEq, Eq)]
pub struct FannavyFold {
    pub refusal: u32,
    pub length: usize,
}

#[repr(C)]
#[derive(Clone, Copy, Debug, PartialEq, Eq)]
pub struct FannavyPass {
    pub refusal: u32,
    pub length: usize,
    pub syllable: bool,
    pub yes: bool,
    pub flag: bool,
}

#[repr(C)]
#[derive(Clone, Copy, Debug, PartialEq, Eq)]
pub struct FannavyNoun {
    pub refusal: u32,
    pub length: usize,
    pub yes: bool,
}

#[repr(C)]
#[derive(Clone, Copy, Debug, PartialEq, Eq)]
pub struct FannavyWhole {
    pub refusal: u32,
    pub length: usize,
}

#[repr(C)]
#[derive(Clone, Copy, Debug, PartialEq, Eq)]
pub struct FannavyPieces {
    pub refusal: u32,
    pub length: usize,
    pub count: usize,
}

#[repr(C)]
#[derive(Clone, Copy, Debug, PartialEq, Eq)]
pub struct FannavyPiecesText {
    pub refusal: u32,
    pub length: usize,
}

#[repr(C)]
#[derive(Clone, Copy, Debug, PartialEq, Eq)]
pub struct FannavyBatch {
    pub refusal: u32,
    pub count: usize,
}

extern "C" {
    pub fn fannavy_is_utf8(w: *const u8, n: usize) -> bool;
    pub fn fannavy_syllable(w: *const u8, n: usize) -> FannavySyllable;
    pub fn fannavy_stage(w: *const u8, n: usize) -> FannavyStage;
    pub fn fannavy_postlude(w: *const u8, n: usize, out: *mut u8, room: usize) -> FannavyPostlude;
    pub fn fannavy_fold(w: *const u8, n: usize, out: *mut u8, room: usize) -> FannavyFold;
    pub fn fannavy_pass(w: *const u8, n: usize, out: *mut u8, room: usize) -> FannavyPass;
    pub fn fannavy_noun(w: *const u8, n: usize, out: *mut u8, room: usize) -> FannavyNoun;
    pub fn fannavy_whole(w: *const u8, n: usize, out: *mut u8, room: usize) -> FannavyWhole;
    pub fn fannavy_pieces(w: *const u8, n: usize, out: *mut u8, room: usize) -> FannavyPieces;
    pub fn fannavy_pieces_text(
        w: *const u8,
        n: usize,
        out: *mut u8,
        room: usize,
    ) -> FannavyPiecesText;
    pub fn fannavy_batch(
        front: *const u8,
        front_n: usize,
        tails: *const u8,
        tails_n: usize,
        lengths: *mut u8,
        lengths_room: usize,
        answers: *mut u8,
        answers_room: usize,
        flags: *mut u8,
        flags_room: usize,
    ) -> FannavyBatch;
}
