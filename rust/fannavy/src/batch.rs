//! The suffix stage of many words with one front.

use crate::ffi;
use crate::{Refusal, TAILS};
#[cfg(doc)]
use crate::{Stage, TAIL_LEAST};

/// What the suffix stage answers of one word of a batch.
#[derive(Clone, Copy, Debug, PartialEq, Eq)]
#[must_use]
pub struct Answer {
    /// How many bytes of the word are kept, the front's among them: the length of [`Stage::kept`].
    pub kept: usize,
    /// Whether an ending was removed.
    pub yes: bool,
    /// As [`Stage::flag`].
    pub flag: bool,
}

/// The answers of a batch, one for each tail.
#[derive(Clone, Copy, Debug, PartialEq, Eq)]
#[must_use]
pub struct Batch {
    lengths: [u8; TAILS],
    answers: [u8; TAILS],
    flags: [u8; TAILS],
    count: usize,
}

impl Batch {
    /// The answers in the order of the tails.
    ///
    /// # Panics
    ///
    /// As it goes, and only where libfannavy.a is of another edition than this crate.
    #[must_use]
    pub fn iter(&self) -> impl ExactSizeIterator<Item = Answer> + '_ {
        (0..self.count).map(|i| Answer {
            kept: self.lengths[i].into(),
            yes: told(self.answers[i]),
            flag: told(self.flags[i]),
        })
    }
}

/// The suffix stage of every word that is the front with a tail behind it, all at once: for a host that
/// tries many endings on one long compound. In `tails` each is closed by a line feed; bytes past the last
/// line feed are one more tail. There are up to [`TAILS`], each of [`TAIL_LEAST`] characters or more, and
/// one that would be refused refuses the batch.
///
/// ```
/// use fannavy::{Answer, Refusal};
///
/// let tails = "uyumlulukölçerler\nuyumlulukölçermiş";
/// let batch = fannavy::batch(b"elektromanyetik", tails.as_bytes())?;
/// let plural = Answer { kept: 31, yes: true, flag: false };
/// let past = Answer { kept: 31, yes: true, flag: true };
/// assert_eq!(batch.iter().collect::<Vec<_>>(), [plural, past]);
///
/// assert_eq!(fannavy::batch(b"ev", b"")?.iter().len(), 0);
/// assert_eq!(fannavy::batch(b"ev", b"ler\n"), Err(Refusal::TailsRefused));
/// # Ok::<(), fannavy::Refusal>(())
/// ```
///
/// # Errors
///
/// Of the front, a tail or a joined word, number 1, [`Refusal::OverLimit`]; 2, [`Refusal::NotUtf8`]. Then
/// 6, [`Refusal::TailsRefused`].
///
/// # Panics
///
/// Only where libfannavy.a is of another edition than this crate.
pub fn batch(front: &[u8], tails: &[u8]) -> Result<Batch, Refusal> {
    let [mut lengths, mut answers, mut flags] = [[0; TAILS]; 3];
    let answer = ffi::batch(front, tails, &mut lengths, &mut answers, &mut flags)?;
    Ok(Batch {
        lengths,
        answers,
        flags,
        count: known(answer.count),
    })
}

// As with refusals, only another edition's archive has more answers than there is room for.
fn known(count: usize) -> usize {
    assert!(
        count <= TAILS,
        "libfannavy.a gives {count} answers, and this crate knows of {TAILS} at most"
    );
    count
}

// Yes and true are 1, no and false 0; here too only another edition has more.
fn told(byte: u8) -> bool {
    match byte {
        0 => false,
        1 => true,
        other => panic!("libfannavy.a answers by the byte {other}, which this crate does not know"),
    }
}

#[cfg(test)]
mod tests {
    use super::*;
    use crate::{stage, LIMIT};
    use std::prelude::rust_2021::*;

    const FRONT: &str = "elektromanyetik";
    const LIST: [&str; 4] = [
        "uyumlulukölçerler",
        "uyumlulukölçerce",
        "sınıflandırmadır",
        "bbbbbbbbbbbbmuşsunuz",
    ];

    // What the stage answers of the front with a tail.
    fn by_stage(front: &str, tail: &str) -> Answer {
        let word = [front, tail].concat();
        let stage = stage(word.as_bytes()).expect("a word");
        Answer {
            kept: stage.kept.len(),
            yes: stage.yes,
            flag: stage.flag,
        }
    }

    #[test]
    fn answers_are_the_stage_s() {
        for front in ["", "e", "bb", "u\n", FRONT] {
            for count in 0..=LIST.len() {
                let list = &LIST[..count];
                let expected: Vec<Answer> = list.iter().map(|tail| by_stage(front, tail)).collect();
                let open = list.join("\n");
                let closed: String = list.iter().flat_map(|tail| [tail, "\n"]).collect();
                for tails in [open, closed] {
                    let batch = batch(front.as_bytes(), tails.as_bytes()).expect("a batch");
                    assert_eq!(
                        batch.iter().collect::<Vec<_>>(),
                        expected,
                        "{front} {tails:?}"
                    );
                    assert_eq!(batch.iter().len(), count);
                }
            }
        }
    }

    #[test]
    fn the_first_refusal_that_applies_is_given() {
        let long = "b".repeat(LIMIT + 1 - FRONT.len());
        for (tails, refusal) in [
            (long.as_bytes(), Refusal::OverLimit),
            (b"\xFF", Refusal::NotUtf8),
            (b"\n", Refusal::TailsRefused),
        ] {
            let tails = [b"\n", tails].concat();
            assert_eq!(batch(FRONT.as_bytes(), &tails), Err(refusal));
        }
        let broken = [&b"\xFF\n"[..], long.as_bytes()].concat();
        assert_eq!(batch(FRONT.as_bytes(), &broken), Err(Refusal::OverLimit));
    }

    #[test]
    #[should_panic(expected = "gives 65 answers")]
    fn an_answer_too_many_is_not_passed_over() {
        known(TAILS + 1);
    }

    #[test]
    #[should_panic(expected = "by the byte 2")]
    fn an_unknown_answer_is_not_passed_over() {
        told(2);
    }
}
