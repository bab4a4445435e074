//! Where the plain run from a place on ends, with the rule in Rust.

use crate::ffi;
use crate::lent::Lent;
use crate::report::{Difference, Report};
use crate::words::Words;

const EIGHT: usize = 8;
/// Past three turns of four eights.
const LONG: usize = 104;

/// From a place on by whole eights of ASCII bytes.
fn rule(word: &[u8], from: usize) -> usize {
    let rest = word.get(from..).unwrap_or_default();
    let plain = rest
        .chunks_exact(EIGHT)
        .take_while(|eight| eight.is_ascii());
    from + plain.count() * EIGHT
}

/// Every byte at every place of eight, every set of top bits among eight, one byte with its top bit at
/// every place of words of 0 to LONG bytes; random bytes and damaged words; from every place on.
pub fn run(words: &Words, report: &mut Report) -> Result<(), Difference> {
    // Letters on both sides: a run that reads on past the end would go on there.
    let mut lent = Lent::among_vowels(b"");
    for place in 0..EIGHT {
        for byte in 0..=255 {
            let mut word = [b'a'; 2 * EIGHT];
            word[place] = byte;
            from_every_place(&word, &mut lent, report)?;
        }
    }
    for set in 0..1 << EIGHT {
        let eight = (0..EIGHT).map(|bit| if set >> bit & 1 == 1 { 0x80 } else { b'a' });
        from_every_place(&eight.collect::<Vec<u8>>(), &mut lent, report)?;
    }
    for length in 0..=LONG {
        let mut word = vec![b'a'; length];
        from_every_place(&word, &mut lent, report)?;
        for place in 0..length {
            for byte in [0x80, 0xFF] {
                word[place] = byte;
                from_every_place(&word, &mut lent, report)?;
            }
            word[place] = b'a';
        }
    }
    words.byte_strings(&mut |word| from_every_place(word, &mut lent, report))
}

// From every place of the word, its end, and two places past it.
fn from_every_place(word: &[u8], lent: &mut Lent, report: &mut Report) -> Result<(), Difference> {
    lent.set(word);
    let (w, n) = lent.slice();
    for from in 0..=n + 2 {
        let proved = unsafe { ffi::probe_run_end(w, n, from) };
        report.same(
            lent,
            format_args!("run_end, {from}"),
            proved,
            rule(word, from),
        )?;
    }
    report.done(lent)
}

#[cfg(test)]
mod tests {
    use super::*;

    #[test]
    fn the_rule_stops_at_the_first_eight_that_is_not_plain() {
        let mut word = [b'a'; 27];
        assert_eq!(rule(&word, 0), 24);
        assert_eq!(rule(&word, 4), 20);
        assert_eq!(rule(&word, 27), 27);
        assert_eq!(rule(&word, 30), 30);
        word[15] = 0x80;
        assert_eq!(rule(&word, 0), 8);
        assert_eq!(rule(&word, 8), 8);
        assert_eq!(rule(&word, 16), 24);
    }
}
