//! Why a call refuses.

#[cfg(doc)]
use crate::{batch, PIECES_ROOM, PIECES_TEXT_ROOM};
use crate::{LIMIT, TAILS, TAIL_LEAST};
use core::error::Error;
use core::fmt::{self, Display, Formatter};

/// Why a call refused, the first that applies in this order. A refused call changes no byte of its
/// output.
#[derive(Clone, Copy, Debug, PartialEq, Eq, Hash)]
#[non_exhaustive]
pub enum Refusal {
    /// Number 1: the word is longer than [`LIMIT`] bytes; of a [`batch()`], its front, a tail or a joined word.
    OverLimit,
    /// Number 2: the word, or one of these, is not UTF-8.
    NotUtf8,
    /// Number 6: a [`batch()`] has more than [`TAILS`] tails, or one of fewer than [`TAIL_LEAST`] characters.
    TailsRefused,
    /// Number 3: the output is shorter than the call needs.
    OutputTooShort,
    /// Number 5: the buffer for pieces is shorter than [`PIECES_ROOM`] bytes, or for their text than
    /// [`PIECES_TEXT_ROOM`].
    BufferTooShort,
}

impl Refusal {
    /// The number under which the archive and its header know the refusal.
    #[must_use]
    pub const fn number(self) -> u32 {
        match self {
            Refusal::OverLimit => 1,
            Refusal::NotUtf8 => 2,
            Refusal::OutputTooShort => 3,
            Refusal::BufferTooShort => 5,
            Refusal::TailsRefused => 6,
        }
    }
}

impl Display for Refusal {
    fn fmt(&self, f: &mut Formatter) -> fmt::Result {
        match self {
            Refusal::OverLimit => write!(f, "a word is over {LIMIT} bytes"),
            Refusal::NotUtf8 => write!(f, "a word is not UTF-8"),
            Refusal::TailsRefused => write!(
                f,
                "there are over {TAILS} tails, or one has under {TAIL_LEAST} characters"
            ),
            Refusal::OutputTooShort => write!(f, "the output is too short for the word"),
            Refusal::BufferTooShort => write!(f, "the buffer is too short for pieces"),
        }
    }
}

impl Error for Refusal {}

// What the number in an answer means. The archive linked has numbers that these lines do not know
// only where the two are of different editions, and then no answer can be relied on.
pub(crate) fn refused(number: u32) -> Result<(), Refusal> {
    match number {
        0 => Ok(()),
        1 => Err(Refusal::OverLimit),
        2 => Err(Refusal::NotUtf8),
        3 => Err(Refusal::OutputTooShort),
        5 => Err(Refusal::BufferTooShort),
        6 => Err(Refusal::TailsRefused),
        other => {
            panic!("libfannavy.a refuses by the number {other}, which this crate does not know")
        }
    }
}

#[cfg(test)]
mod tests {
    use super::*;
    use std::string::ToString;

    const ALL: [Refusal; 5] = [
        Refusal::OverLimit,
        Refusal::NotUtf8,
        Refusal::TailsRefused,
        Refusal::OutputTooShort,
        Refusal::BufferTooShort,
    ];

    #[test]
    fn numbers_come_back() {
        assert_eq!(refused(0), Ok(()));
        for refusal in ALL {
            assert_eq!(refused(refusal.number()), Err(refusal));
        }
    }

    #[test]
    #[should_panic(expected = "by the number 4")]
    fn an_unknown_number_is_not_passed_over() {
        let _ = refused(4);
    }

    #[test]
    fn messages_tell_the_refusals_apart() {
        assert_eq!(Refusal::NotUtf8.to_string(), "a word is not UTF-8");
        let messages = ALL.map(|refusal| refusal.to_string());
        for (place, message) in messages.iter().enumerate() {
            assert!(!messages[..place].contains(message), "{message}");
        }
    }
}
