//! The UTF-8 check on every word there is, on longer ones, on random bytes and on damaged words.

use crate::ffi;
use crate::lent::Lent;
use crate::report::{Difference, Report};
use crate::words::{long, Words};
use std::str::from_utf8;

pub fn run(words: &Words, report: &mut Report) -> Result<(), Difference> {
    let mut lent = Lent::new(b"");
    words.texts(&mut |word| check(word.as_bytes(), &mut lent, report))?;
    long::each_beyond(&mut |word| check(word.as_bytes(), &mut lent, report))?;
    words.byte_strings(&mut |word| check(word, &mut lent, report))
}

/// One word on both sides.
pub fn check(word: &[u8], lent: &mut Lent, report: &mut Report) -> Result<(), Difference> {
    lent.set(word);
    let (w, n) = lent.slice();
    let proved = unsafe { ffi::fannavy_is_utf8(w, n) };
    report.same(lent, "is_utf8", proved, from_utf8(word).is_ok())?;
    report.done(lent)
}
