//! A front, its tails and three buffers as they are lent to the batch, the call held to what is expected.

use crate::ffi::{self, FannavyBatch};
use crate::lent::Lent;
use crate::output::Output;
use crate::report::{Difference, Report};
use crate::tails::tails;
use crate::words::batches::Batch;
use std::fmt::{self, Display, Formatter};

type Outcome = Result<(), Difference>;

/// An entry of each buffer: the length kept, yes or no, and the flag.
pub type Entry = [u8; 3];

const NAMES: [&str; 3] = ["lengths", "answers", "flags"];
// As many bytes of the tails as are shown.
const SHOWN: usize = 2000;

/// What a thread lends, one batch after the other.
pub struct Tray {
    front: Lent,
    slice: Lent,
    buffers: [Output; 3],
}

impl Tray {
    /// Front and tails are lent as this does it.
    pub fn new(lent: fn(&[u8]) -> Lent) -> Tray {
        Tray {
            front: lent(b""),
            slice: lent(b""),
            buffers: [0; 3].map(Output::new),
        }
    }

    /// Takes another batch in place of the one before.
    pub fn set(&mut self, batch: &Batch) {
        self.front.set(&batch.front);
        self.slice.set(&batch.slice);
        for (buffer, name) in self.buffers.iter_mut().zip(NAMES) {
            buffer.begin(&[name.as_bytes(), &batch.front].concat());
        }
    }

    /// The call with buffers of these sizes gives these entries, or refuses by this number; all else that
    /// is lent stays.
    pub fn gives(
        &mut self,
        rooms: [usize; 3],
        expected: Result<&[Entry], u32>,
        report: &mut Report,
    ) -> Outcome {
        let answer = self.call(rooms);
        let call = Name {
            rooms,
            slice: self.slice.word(),
        };
        let entries = expected.unwrap_or_default();
        let expected = FannavyBatch {
            refusal: expected.err().unwrap_or(0),
            count: entries.len(),
        };
        report.same(&self.front, &call, answer, expected)?;
        for (i, (entry, tail)) in entries.iter().zip(tails(call.slice)).enumerate() {
            let call = format_args!("entry {i}, of \"{}\", in a {call}", tail.escape_ascii());
            report.same(&self.front, call, self.entry(i), Some(*entry))?;
        }
        report.untouched(&self.slice)?;
        for (buffer, name) in self.buffers.iter().zip(NAMES) {
            let call = format_args!("{name} after a {call}");
            report.stays(&self.front, call, buffer, entries.len())?;
        }
        Ok(())
    }

    fn call(&mut self, rooms: [usize; 3]) -> FannavyBatch {
        for (buffer, room) in self.buffers.iter_mut().zip(rooms) {
            buffer.set(room);
        }
        let (w, n) = self.front.slice();
        let (t, m) = self.slice.slice();
        let [(l, l_room), (a, a_room), (f, f_room)] = self.buffers.each_mut().map(Output::slice);
        unsafe { ffi::fannavy_batch(w, n, t, m, l, l_room, a, a_room, f, f_room) }
    }

    // An entry as it stands in the buffers; none where one of them is shorter.
    fn entry(&self, i: usize) -> Option<Entry> {
        let [l, a, f] = self.buffers.each_ref().map(|b| b.text(i + 1)?.last());
        Some([*l?, *a?, *f?])
    }

    /// Ends the batch.
    pub fn done(&self, report: &mut Report) -> Outcome {
        report.done(&self.front)
    }
}

// A batch, which is said behind its front: the sizes of the buffers, and the tails.
struct Name<'a> {
    rooms: [usize; 3],
    slice: &'a [u8],
}

impl Display for Name<'_> {
    fn fmt(&self, f: &mut Formatter) -> fmt::Result {
        let shown = self.slice[..self.slice.len().min(SHOWN)].escape_ascii();
        let (rooms, bytes) = (self.rooms, self.slice.len());
        write!(
            f,
            "batch, buffers of {rooms:?}, tails \"{shown}\" ({bytes})"
        )
    }
}
