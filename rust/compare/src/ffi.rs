//! The exports of the proved archives: libfannavy.a's by the binding's own lines, and libprobe.a's.
//! Nothing checks these lines against the Rattle source: a slice passes as a pointer, never null, and
//! then a length.

#[path = "../../fannavy/src/exports.rs"]
mod exports;

pub use exports::*;

/// What a step of the cursor answers: whether it moved, the code point met (0 where none was), and
/// the cursor record after it.
#[repr(C)]
#[derive(Clone, Copy, Debug, PartialEq)]
pub struct ProbeStep {
    pub moved: bool,
    pub ch: u32,
    pub cursor: usize,
    pub limit: usize,
    pub limit_backward: usize,
}

/// The suffix stage's answer as far as the crate's stage gives it too.
#[derive(Clone, Copy, Debug, PartialEq)]
pub struct StageKept {
    pub refusal: u32,
    pub length: usize,
    pub yes: bool,
    pub flag: bool,
}

/// The length of the suffix stage's part, which is copied to the output; 0 on a refusal.
#[derive(Clone, Copy, Debug, PartialEq)]
pub struct StagePart {
    pub length: usize,
}

/// The list of a removed ending's pieces, a column for each number of an entry: kinds from 1, and
/// joinings 0 for none, 1 with a y, 2 after a vowel and one character.
#[repr(C)]
#[derive(Clone, Copy, Debug, PartialEq)]
pub struct ProbeRemoved {
    pub refusal: u32,
    pub length: usize,
    pub count: usize,
    pub kinds: [u8; 3],
    pub joinings: [u8; 3],
    pub first: [usize; 3],
    pub last: [usize; 3],
}

extern "C" {
    pub fn probe_run_end(w: *const u8, n: usize, from: usize) -> usize;
    pub fn probe_stage_part(w: *const u8, n: usize, out: *mut u8, m: usize) -> usize;
    pub fn probe_removed(w: *const u8, n: usize) -> ProbeRemoved;
    pub fn probe_previous_char(
        w: *const u8,
        n: usize,
        cursor: usize,
        limit: usize,
        limit_backward: usize,
    ) -> ProbeStep;
    pub fn probe_next_char(
        w: *const u8,
        n: usize,
        cursor: usize,
        limit: usize,
        limit_backward: usize,
    ) -> ProbeStep;
    pub fn probe_eq_s_b(
        w: *const u8,
        n: usize,
        s: *const u8,
        m: usize,
        cursor: usize,
        limit: usize,
        limit_backward: usize,
    ) -> ProbeStep;
    pub fn probe_eq_s(
        w: *const u8,
        n: usize,
        s: *const u8,
        m: usize,
        cursor: usize,
        limit: usize,
        limit_backward: usize,
    ) -> ProbeStep;
}
