//! The cursor record that goes into a step, and the answers that a step may give of it.

use crate::ffi::ProbeStep;
use std::fmt::{self, Display, Formatter};

#[derive(Clone, Copy)]
pub struct Cursor {
    pub cursor: usize,
    pub limit: usize,
    pub limit_backward: usize,
}

impl Cursor {
    /// The answer of a step that does not move.
    pub fn stays(self) -> ProbeStep {
        self.answer(false, 0, self.cursor)
    }

    /// The answer of a step that meets this code point and moves to this place.
    pub fn moves(self, ch: u32, to: usize) -> ProbeStep {
        self.answer(true, ch, to)
    }

    /// The answer of a literal's step, which moves if the literal stands there.
    pub fn passes(self, stands: bool, to: usize) -> ProbeStep {
        if stands {
            self.moves(0, to)
        } else {
            self.stays()
        }
    }

    fn answer(self, moved: bool, ch: u32, cursor: usize) -> ProbeStep {
        ProbeStep {
            moved,
            ch,
            cursor,
            limit: self.limit,
            limit_backward: self.limit_backward,
        }
    }
}

impl Display for Cursor {
    fn fmt(&self, f: &mut Formatter) -> fmt::Result {
        let (cursor, limit, backward) = (self.cursor, self.limit, self.limit_backward);
        write!(
            f,
            "cursor {cursor}, limit {limit}, limit_backward {backward}"
        )
    }
}
