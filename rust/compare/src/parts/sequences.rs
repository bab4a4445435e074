//! The UTF-8 check on every byte sequence of up to three bytes, on every one of four edge bytes,
//! on edge bytes and edge sequences at every place of longer words, and on long rows of continuation
//! bytes: the check looks at eight or 64 bytes in one step, skips plain runs, and goes by parts where
//! characters are longer.

use super::check::check;
use crate::lent::Lent;
use crate::report::{Difference, Report};
use crate::words::damaged::{EDGE_BYTES, SEQUENCES};
use crate::words::filled::filled;
use crate::words::{odometer, Words};

/// Characters of one width, and plain runs with characters of two, of two and three, and of each width
/// between them.
const FILLERS: [&str; 8] = [
    "a",
    "ğ",
    "乡",
    "\u{20061}",
    "aaaaaaaağ",
    "aaaaaaaaaaaaaaaaaaaaaaaaaaaaaaaaaaaaaaaağ",
    "aaaaaaaağaaaaaaaaaaaaaaaa乡",
    "aaaaaaaa\u{20061}ağ乡",
];
/// Words in which one byte is changed, in bytes: past two steps of 64.
const CHANGED: usize = 160;
/// What stands around a sequence, in bytes: past two parts of 128.
const AROUND: usize = 300;

pub fn run(_: &Words, report: &mut Report) -> Result<(), Difference> {
    let all: Vec<u8> = (0..=255).collect();
    for length in 0..=3 {
        every(&all, length, report)?;
    }
    every(&EDGE_BYTES, 4, report)?;
    bytes_at_every_place(report)?;
    sequences_at_every_place(report)?;
    continuations(report)
}

// Every sequence of this length over these bytes.
fn every(bytes: &[u8], length: usize, report: &mut Report) -> Result<(), Difference> {
    let mut sequence = Vec::new();
    let mut lent = Lent::new(b"");
    odometer::each(bytes.len(), length, &mut |digits| {
        sequence.clear();
        sequence.extend(digits.iter().map(|&digit| bytes[digit]));
        check(&sequence, &mut lent, report)
    })
}

// Each edge byte in place of each byte of a word of each length.
fn bytes_at_every_place(report: &mut Report) -> Result<(), Difference> {
    let mut lent = Lent::new(b"");
    for filler in FILLERS {
        for length in 0..=CHANGED {
            let text = filled(filler, length);
            check(text.as_bytes(), &mut lent, report)?;
            let mut word = text.clone().into_bytes();
            for place in 0..length {
                for byte in EDGE_BYTES {
                    word[place] = byte;
                    check(&word, &mut lent, report)?;
                }
                word[place] = text.as_bytes()[place];
            }
        }
    }
    Ok(())
}

// Each edge sequence, whole or short of its end, behind so many bytes, and before none, one, or as many
// as are left of AROUND.
fn sequences_at_every_place(report: &mut Report) -> Result<(), Difference> {
    let mut lent = Lent::new(b"");
    for filler in FILLERS {
        for (before, after) in (0..=AROUND).flat_map(|n| [(n, 0), (n, 1), (n, AROUND - n)]) {
            let (before, after) = (filled(filler, before), filled(filler, after));
            for sequence in SEQUENCES {
                for length in 1..=sequence.len() {
                    let word = [before.as_bytes(), &sequence[..length], after.as_bytes()].concat();
                    check(&word, &mut lent, report)?;
                }
            }
        }
    }
    Ok(())
}

// So many continuation bytes behind a first byte of each width, behind plain bytes and behind none.
fn continuations(report: &mut Report) -> Result<(), Difference> {
    let mut lent = Lent::new(b"");
    for front in ["", "a", "aaaaaaaaaaaaaaaa"] {
        for lead in [0xC3, 0xE4, 0xF1] {
            for count in 0..=AROUND {
                let word = [front.as_bytes(), &[lead], &vec![0x80; count]].concat();
                check(&word, &mut lent, report)?;
            }
        }
    }
    Ok(())
}
