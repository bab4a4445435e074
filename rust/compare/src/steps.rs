//! The steps of the cursor on the proved side, each held to the answer that is expected, and the
//! texts that they go through.

use crate::cursor::Cursor;
use crate::ffi::{self, ProbeStep};
use crate::lent::Lent;
use crate::places::Places;
use crate::report::{Difference, Report};
use crate::words::Words;

type Outcome = Result<(), Difference>;

/// Which way a step goes.
#[derive(Clone, Copy)]
pub enum Way {
    Back,
    On,
}

/// A step over a character: `previous_char` or `next_char`.
pub fn character(
    way: Way,
    lent: &mut Lent,
    at: Cursor,
    expected: ProbeStep,
    report: &mut Report,
) -> Outcome {
    let (name, probe): (_, unsafe extern "C" fn(_, _, _, _, _) -> _) = match way {
        Way::Back => ("previous_char", ffi::probe_previous_char),
        Way::On => ("next_char", ffi::probe_next_char),
    };
    let (w, n) = lent.slice();
    let step = unsafe { probe(w, n, at.cursor, at.limit, at.limit_backward) };
    report.same(lent, format_args!("{name}, {at}"), step, expected)
}

/// A step over a literal: `eq_s_b` or `eq_s`.
pub fn literal(
    way: Way,
    lent: &mut Lent,
    literal: &mut Lent,
    at: Cursor,
    expected: ProbeStep,
    report: &mut Report,
) -> Outcome {
    let (name, probe): (_, unsafe extern "C" fn(_, _, _, _, _, _, _) -> _) = match way {
        Way::Back => ("eq_s_b", ffi::probe_eq_s_b),
        Way::On => ("eq_s", ffi::probe_eq_s),
    };
    let (w, n) = lent.slice();
    let (s, m) = literal.slice();
    let step = unsafe { probe(w, n, s, m, at.cursor, at.limit, at.limit_backward) };
    let call = format_args!("{name} of {literal}, {at}");
    report.same(lent, call, step, expected)?;
    report.untouched(literal)
}

/// Visits every text, lent and with its places.
pub fn on_texts(
    words: &Words,
    report: &mut Report,
    mut visit: impl FnMut(&str, &mut Lent, &Places, &mut Report) -> Outcome,
) -> Outcome {
    let mut lent = Lent::new(b"");
    let mut places = Places::default();
    words.texts(&mut |word| {
        lent.set(word.as_bytes());
        places.read(word);
        visit(word, &mut lent, &places, report)?;
        report.done(&lent)
    })
}
