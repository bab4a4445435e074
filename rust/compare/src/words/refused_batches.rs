//! Batches that are refused, or just not: several causes at once, at the first tail and past the 64th; joined
//! words about as long as may be; characters parted between front and tail; and damaged batches.

use super::batches::{drawn, Batch, Visit};
use super::damaged::damage;
use super::filled::filled;
use super::random::Random;
use super::tails::Pieces;
use fannavy::{LIMIT, TAILS, TAIL_LEAST};

// Characters of each width.
const LETTERS: [&str; 4] = ["b", "ğ", "乡", "\u{20061}"];
const TAIL: &[u8] = b"bbbbbbbbbbbbblar";

/// A batch for each number, and some that are not refused, for buffers of every size; and so many tails or
/// bytes that their number ends as one does that is not refused.
pub fn each_cause<E>(visit: Visit<E>) -> Result<(), E> {
    for count in [0, 1, TAILS - 1, TAILS, TAILS + 1, 256 + 1] {
        visit(&Batch::new(b"ev", &vec![TAIL; count], false))?;
    }
    for length in [LIMIT - 1, 256 + 16, 65_536 + 16] {
        let long = vec![b'b'; length];
        visit(&Batch::new(b"ev", &[TAIL, &long], true))?;
        visit(&Batch::new(&long, &[TAIL], true))?;
    }
    for tail in [&b""[..], b"\xFF"] {
        visit(&Batch::new(b"ev", &[TAIL, tail], true))?;
        visit(&Batch::new(tail, &[TAIL], true))?;
    }
    Ok(())
}

/// Every front with every two tails that tell, as the first and the last of so many.
pub fn each_pair<E>(visit: Visit<E>) -> Result<(), E> {
    let kinds = kinds();
    for front in fronts() {
        visit(&Batch::new(&front, &[TAIL; 0], false))?;
        for count in [1, 2, TAILS, TAILS + 1, TAILS + 2] {
            let mut list = vec![TAIL; count];
            for first in &kinds {
                for last in &kinds {
                    list[0] = first;
                    list[count - 1] = last;
                    visit(&Batch::new(&front, &list, count % 2 == 0))?;
                    visit(&Batch::new(&front, &list, count % 2 == 1))?;
                }
            }
        }
    }
    Ok(())
}

// None, short, as long as lets a tail stand behind them, longer, over the limit, and no text.
fn fronts() -> Vec<Vec<u8>> {
    let long = |length| vec![b'b'; length];
    let most = LIMIT - TAIL.len();
    vec![
        Vec::new(),
        b"ev\n".to_vec(),
        long(most),
        long(most + 1),
        long(LIMIT),
        long(LIMIT + 1),
        b"\xFF".to_vec(),
        [&long(most - 1)[..], b"\xC4"].concat(),
        vec![0xFF; LIMIT + 1],
    ]
}

// Tails just long enough and too short, in characters of each width; as long as a word may be and longer;
// no text, alone and with one of the other causes.
fn kinds() -> Vec<Vec<u8>> {
    let mut kinds = vec![TAIL.to_vec(), Vec::new()];
    for letter in LETTERS {
        kinds.push(letter.repeat(TAIL_LEAST).into_bytes());
        kinds.push(letter.repeat(TAIL_LEAST - 1).into_bytes());
    }
    kinds.extend([
        vec![b'b'; LIMIT],
        vec![b'b'; LIMIT + 1],
        vec![0xFF; LIMIT + 1],
        b"\xFF".to_vec(),
        [b"\xB1", TAIL].concat(),
        [TAIL, b"\xC4"].concat(),
    ]);
    kinds
}

/// Fronts of every length with a tail that makes a word of about the limit, before and behind another.
pub fn each_length<E>(visit: Visit<E>) -> Result<(), E> {
    for length in 0..=LIMIT + 1 {
        for joined in [LIMIT - 1, LIMIT, LIMIT + 1] {
            let Some(rest) = joined.checked_sub(length) else {
                continue;
            };
            for letter in LETTERS {
                let front = filled(letter, length);
                let tail = filled(letter, rest);
                for list in [
                    &[tail.as_bytes()][..],
                    &[tail.as_bytes(), TAIL],
                    &[TAIL, tail.as_bytes()],
                ] {
                    visit(&Batch::new(front.as_bytes(), list, false))?;
                }
            }
        }
    }
    Ok(())
}

/// A character parted in each way between the front and a tail, and between two tails.
pub fn each_parted<E>(visit: Visit<E>) -> Result<(), E> {
    for letter in &LETTERS[1..] {
        for place in 0..=letter.len() {
            let (one, other) = letter.as_bytes().split_at(place);
            let begun = [TAIL, one].concat();
            let ended = [other, TAIL].concat();
            visit(&Batch::new(&begun, &[TAIL; 0], false))?;
            visit(&Batch::new(&begun, &[TAIL], false))?;
            visit(&Batch::new(b"ev", &[&ended], false))?;
            visit(&Batch::new(&begun, &[&ended], false))?;
            visit(&Batch::new(&begun, &[TAIL, &ended], true))?;
            visit(&Batch::new(b"ev", &[&begun, &ended], false))?;
            visit(&Batch::new(b"ev", &[&ended, &begun], true))?;
        }
    }
    Ok(())
}

/// `count` random batches with a byte or two of the front or of the tails damaged, or a line feed more or
/// less.
pub fn each_damaged<E>(count: usize, mut random: Random, visit: Visit<E>) -> Result<(), E> {
    let pieces = Pieces::all();
    for _ in 0..count {
        let mut batch = drawn(&pieces, &mut random);
        let place = random.below(batch.slice.len() + 1);
        match random.below(4) {
            0 => batch.front = damage(&batch.front, &mut random),
            1 => batch.slice.insert(place, b'\n'),
            2 => join(&mut batch.slice, place),
            _ => batch.slice = damage(&batch.slice, &mut random),
        }
        visit(&batch)?;
    }
    Ok(())
}

// Takes away the first line feed behind a place.
fn join(slice: &mut Vec<u8>, place: usize) {
    let found = slice[place..].iter().position(|&byte| byte == b'\n');
    if let Some(found) = found {
        slice.remove(place + found);
    }
}

#[cfg(test)]
mod tests {
    use super::*;
    use crate::tails::number;

    type Source<'a> = &'a dyn Fn(Visit<()>) -> Result<(), ()>;

    #[test]
    fn every_number_is_there() {
        let sources: [(Source, &[u32]); 5] = [
            (&|visit| each_cause(visit), &[0, 1, 2, 6]),
            (&|visit| each_pair(visit), &[0, 1, 2, 6]),
            (&|visit| each_length(visit), &[0, 1, 6]),
            (&|visit| each_parted(visit), &[0, 2]),
            (
                &|visit| each_damaged(1000, Random::new(1, 14), visit),
                &[0, 1, 2, 6],
            ),
        ];
        for (source, numbers) in sources {
            let mut counts = [0; 7];
            let _ = source(&mut |batch| {
                counts[number(&batch.front, &batch.slice, [TAILS; 3]) as usize] += 1;
                Ok(())
            });
            for number in 0..7 {
                let there = counts[number as usize] > 0;
                assert_eq!(there, numbers.contains(&number), "{counts:?}");
            }
        }
    }
}
