//! A word and an output as they are lent to the proved calls, each call held to what is expected.

use crate::calls::Call;
use crate::lent::Lent;
use crate::output::Output;
use crate::report::{Difference, Report};
use crate::rule::{self, Need};
use crate::told::Told;
use std::fmt::{self, Display, Formatter};

type Outcome = Result<(), Difference>;

/// What a thread lends, one word after the other.
pub struct Desk {
    lent: Lent,
    output: Output,
}

impl Desk {
    pub fn new(lent: Lent) -> Desk {
        Desk {
            lent,
            output: Output::new(0),
        }
    }

    /// Takes another word in place of the one before.
    pub fn set(&mut self, word: &[u8]) {
        self.lent.set(word);
        self.output.begin(word);
    }

    /// The call gives this answer and this text, with the least output and with a larger one; or it
    /// refuses the word where the rule says so.
    pub fn gives<C: Call>(&mut self, answer: C, text: &[u8], report: &mut Report) -> Outcome {
        let word = self.lent.word();
        let number = rule::number(word, Need::Nothing, 0);
        let (answer, text) = match number {
            0 => (answer, text),
            _ => (C::refused(number), &b""[..]),
        };
        let expected = Told::new(answer, Some(C::in_order(text)));
        let Some(least) = C::NEED.least(word) else {
            return self.compare(0, &expected, report);
        };
        self.compare(least, &expected, report)?;
        self.compare(least + 1 + least % 61, &expected, report)
    }

    /// The call gives this answer and this text with an output of `room` bytes, or refuses by the rule.
    pub fn gives_into<C: Call>(
        &mut self,
        room: usize,
        answer: C,
        text: &[u8],
        report: &mut Report,
    ) -> Outcome {
        let (answer, text) = match rule::number(self.lent.word(), C::NEED, room) {
            0 => (answer, text),
            number => (C::refused(number), &b""[..]),
        };
        self.compare(room, &Told::new(answer, Some(C::in_order(text))), report)
    }

    // One call with an output of `room` bytes.
    fn compare<C: Call>(
        &mut self,
        room: usize,
        expected: &Told<C>,
        report: &mut Report,
    ) -> Outcome {
        let answer = self.call::<C>(room);
        let call = self.name::<C>(room);
        let text = answer.text(&self.lent, &self.output);
        let proved = Told::new(answer, text.map(C::in_order));
        report.same(&self.lent, &call, &proved, expected)?;
        report.stays(&self.lent, &call, &self.output, answer.written())
    }

    /// The call refuses the word with an output of `room` bytes, or does not, by the rule.
    pub fn refuses<C: Call>(&mut self, room: usize, report: &mut Report) -> Outcome {
        let number = rule::number(self.lent.word(), C::NEED, room);
        let answer = self.call::<C>(room);
        let call = self.name::<C>(room);
        if number == 0 {
            report.same(&self.lent, &call, answer.refusal(), 0)?;
        } else {
            report.same(&self.lent, &call, answer, C::refused(number))?;
        }
        report.stays(&self.lent, &call, &self.output, answer.written())
    }

    fn call<C: Call>(&mut self, room: usize) -> C {
        self.output.set(room);
        C::call(&mut self.lent, &mut self.output)
    }

    fn name<C: Call>(&self, room: usize) -> Name {
        let least = C::NEED.least(self.lent.word());
        Name(C::NAME, least.map(|_| room))
    }

    /// Ends the word.
    pub fn done(&self, report: &mut Report) -> Outcome {
        report.done(&self.lent)
    }
}

// A call, with the size of its output where it takes one.
struct Name(&'static str, Option<usize>);

impl Display for Name {
    fn fmt(&self, f: &mut Formatter) -> fmt::Result {
        match self.1 {
            Some(room) => write!(f, "{}, output of {room} bytes", self.0),
            None => write!(f, "{}", self.0),
        }
    }
}
