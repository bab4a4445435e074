//! An answer together with the text that it gives the length of.

use std::borrow::Cow;
use std::fmt::{self, Debug, Formatter};

#[derive(PartialEq)]
pub struct Told<'a, A> {
    answer: A,
    // None where the length is more than there is.
    text: Option<Cow<'a, [u8]>>,
}

impl<'a, A> Told<'a, A> {
    pub fn new(answer: A, text: Option<Cow<'a, [u8]>>) -> Told<'a, A> {
        Told { answer, text }
    }
}

impl<A: Debug> Debug for Told<'_, A> {
    fn fmt(&self, f: &mut Formatter) -> fmt::Result {
        write!(f, "{:?}, ", self.answer)?;
        match &self.text {
            Some(text) => write!(f, "text {:?}", String::from_utf8_lossy(text)),
            None => write!(f, "a length past the end"),
        }
    }
}
