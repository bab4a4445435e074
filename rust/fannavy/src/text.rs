//! A short text without allocation.

use core::borrow::Borrow;
use core::cmp::Ordering;
use core::fmt::{self, Debug, Display, Formatter};
use core::hash::{Hash, Hasher};
use core::ops::Deref;

/// A text of at most `N` bytes, which it holds itself: nothing is allocated. It is used as the `str` that it
/// holds, and compares, orders, hashes and prints as that does.
///
/// ```
/// let stem = fannavy::stem("evlerdir")?;
/// assert_eq!(stem, "ev");
/// assert!(stem.starts_with('e'));
/// assert_eq!(format!("{stem} {stem:?}"), "ev \"ev\"");
/// # Ok::<(), fannavy::Refusal>(())
/// ```
#[derive(Clone, Copy)]
#[must_use]
pub struct Text<const N: usize> {
    // Of these the first `length` are UTF-8.
    bytes: [u8; N],
    length: usize,
}

impl<const N: usize> Text<N> {
    /// A copy of a text, which has no more than `N` bytes.
    pub(crate) fn new(text: &str) -> Self {
        let length = text.len();
        let mut bytes = [0; N];
        bytes[..length].copy_from_slice(text.as_bytes());
        Text { bytes, length }
    }

    /// The text.
    #[must_use]
    pub fn as_str(&self) -> &str {
        // SAFETY: so many bytes were copied from a `str` and have not been changed since.
        unsafe { str::from_utf8_unchecked(&self.bytes[..self.length]) }
    }
}

impl<const N: usize> Deref for Text<N> {
    type Target = str;

    fn deref(&self) -> &str {
        self.as_str()
    }
}

impl<const N: usize> AsRef<str> for Text<N> {
    fn as_ref(&self) -> &str {
        self
    }
}

impl<const N: usize> Borrow<str> for Text<N> {
    fn borrow(&self) -> &str {
        self
    }
}

impl<const N: usize> Display for Text<N> {
    fn fmt(&self, f: &mut Formatter) -> fmt::Result {
        Display::fmt(self.as_str(), f)
    }
}

impl<const N: usize> Debug for Text<N> {
    fn fmt(&self, f: &mut Formatter) -> fmt::Result {
        Debug::fmt(self.as_str(), f)
    }
}

impl<const N: usize, const M: usize> PartialEq<Text<M>> for Text<N> {
    fn eq(&self, other: &Text<M>) -> bool {
        self.as_str() == other.as_str()
    }
}

impl<const N: usize> PartialEq<str> for Text<N> {
    fn eq(&self, other: &str) -> bool {
        self.as_str() == other
    }
}

impl<const N: usize> PartialEq<&str> for Text<N> {
    fn eq(&self, other: &&str) -> bool {
        self.as_str() == *other
    }
}

impl<const N: usize> PartialEq<Text<N>> for str {
    fn eq(&self, other: &Text<N>) -> bool {
        self == other.as_str()
    }
}

impl<const N: usize> PartialEq<Text<N>> for &str {
    fn eq(&self, other: &Text<N>) -> bool {
        *self == other.as_str()
    }
}

impl<const N: usize> Eq for Text<N> {}

impl<const N: usize> PartialOrd for Text<N> {
    fn partial_cmp(&self, other: &Self) -> Option<Ordering> {
        Some(self.cmp(other))
    }
}

impl<const N: usize> Ord for Text<N> {
    fn cmp(&self, other: &Self) -> Ordering {
        self.as_str().cmp(other)
    }
}

impl<const N: usize> Hash for Text<N> {
    fn hash<H: Hasher>(&self, state: &mut H) {
        self.as_str().hash(state);
    }
}

#[cfg(test)]
mod tests {
    use super::*;
    use std::collections::{BTreeSet, HashSet};
    use std::format;

    #[test]
    fn a_text_is_used_as_the_str_that_it_holds() {
        for text in ["", "ev", "ağaç", "\0", "乡村小学𠁡"] {
            let own = Text::<32>::new(text);
            assert_eq!(own.as_str(), text);
            assert_eq!((&*own, own.as_ref(), own.borrow()), (text, text, text));
            assert_eq!(own.len(), text.len());
            assert_eq!(format!("{own}{own:?}"), format!("{text}{text:?}"));
            assert_eq!(format!("{own:>40}|"), format!("{text:>40}|"));
        }
    }

    #[test]
    fn texts_are_equal_and_ordered_as_their_strs() {
        let words = ["", "a", "ağ", "b", "ev", "evler"];
        for a in words {
            for b in words {
                let (own, other) = (Text::<5>::new(a), Text::<5>::new(b));
                assert_eq!(own == other, a == b);
                assert_eq!(own == Text::<9>::new(b), a == b);
                assert_eq!((own == *b, own == b), (a == b, a == b));
                assert_eq!((*a == other, a == other), (a == b, a == b));
                assert_eq!(own.cmp(&other), a.cmp(b));
                assert_eq!(own.partial_cmp(&other), a.partial_cmp(b));
            }
        }
    }

    #[test]
    fn a_text_is_found_by_its_str() {
        let stems = ["ev", "ağaç", ""].map(Text::<8>::new);
        let (hashed, sorted) = (HashSet::from(stems), BTreeSet::from(stems));
        for (word, found) in [("ev", true), ("ağaç", true), ("", true), ("eve", false)] {
            assert_eq!(hashed.contains(word), found, "{word}");
            assert_eq!(sorted.contains(word), found, "{word}");
        }
    }

    #[test]
    #[should_panic(expected = "out of range")]
    fn a_text_that_is_too_long_is_not_cut() {
        let _ = Text::<4>::new("evler");
    }
}
