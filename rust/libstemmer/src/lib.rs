//! Snowball's own Turkish stemmer: the calls of libstemmer.h, and the only unsafe code here. It is sound:
//! the stemmer is not null and lives until it is dropped, the word is lent with its length, and the stem
//! is libstemmer's own memory, valid until its next call, which the borrow of the stemmer forbids.

use std::ffi::{c_char, c_int, c_uchar};
use std::ptr::NonNull;
use std::slice;

// What it has in it is libstemmer's own.
#[repr(C)]
struct SbStemmer {
    _inside: [u8; 0],
}

extern "C" {
    fn sb_stemmer_new(algorithm: *const c_char, charenc: *const c_char) -> *mut SbStemmer;
    fn sb_stemmer_delete(stemmer: *mut SbStemmer);
    fn sb_stemmer_stem(
        stemmer: *mut SbStemmer,
        word: *const c_uchar,
        size: c_int,
    ) -> *const c_uchar;
    fn sb_stemmer_length(stemmer: *mut SbStemmer) -> c_int;
}

/// A stemmer of Turkish text in UTF-8, which keeps its last answer.
pub struct Stemmer {
    stemmer: NonNull<SbStemmer>,
}

impl Stemmer {
    pub fn turkish() -> Stemmer {
        let stemmer = unsafe { sb_stemmer_new(c"turkish".as_ptr(), c"UTF_8".as_ptr()) };
        let stemmer = NonNull::new(stemmer).expect("libstemmer has Turkish in UTF-8");
        Stemmer { stemmer }
    }

    /// The stem of a word.
    pub fn stem(&mut self, word: &str) -> &[u8] {
        let stemmer = self.stemmer.as_ptr();
        let size = c_int::try_from(word.len()).expect("a word is not that long");
        let text = unsafe { sb_stemmer_stem(stemmer, word.as_ptr(), size) };
        assert!(!text.is_null(), "libstemmer is out of memory");
        let length = unsafe { sb_stemmer_length(stemmer) };
        let length = usize::try_from(length).expect("a length is not negative");
        unsafe { slice::from_raw_parts(text, length) }
    }
}

impl Drop for Stemmer {
    fn drop(&mut self) {
        unsafe { sb_stemmer_delete(self.stemmer.as_ptr()) }
    }
}

#[cfg(test)]
mod tests {
    use super::Stemmer;

    #[test]
    fn words_are_stemmed() {
        let mut stemmer = Stemmer::turkish();
        for (word, stem) in [
            ("", ""),
            ("lar", "lar"),
            ("kitabımızdan", "kitap"),
            ("evdekilerdekilerdeki", "ev"),
            ("adakina", "ana"),
        ] {
            assert_eq!(stemmer.stem(word), stem.as_bytes(), "{word}");
        }
    }
}
