//! The listing of words by the oracle, in the form that the documents give the program stemlist, and the
//! repository's own list of words.

mod line;
pub mod sample;

use std::io::{self, BufRead, Write};

/// The listing of words, each ended by LF; a last one without LF counts if it is not empty.
pub fn list(mut input: impl BufRead, mut output: impl Write) -> io::Result<()> {
    let mut word = Vec::new();
    let mut line = Vec::new();
    while input.read_until(b'\n', &mut word)? > 0 {
        line::append(word.strip_suffix(b"\n").unwrap_or(&word), &mut line);
        output.write_all(&line)?;
        word.clear();
        line.clear();
    }
    output.flush()
}

#[cfg(test)]
mod tests {
    use super::list;

    fn listed(words: &str) -> String {
        let mut listing = Vec::new();
        list(words.as_bytes(), &mut listing).expect("memory can be written");
        String::from_utf8(listing).expect("a listing is text")
    }

    #[test]
    fn a_last_line_counts_if_it_is_not_empty() {
        assert_eq!(listed(""), "");
        assert_eq!(listed("\n"), "\tN\tN\t1\t\t\t\n");
        assert_eq!(listed("evler"), "evler\tY\tY\t0\tev\tev\tev\n");
        assert_eq!(listed("evler\n"), listed("evler"));
        assert_eq!(listed("a\tb\nevler"), format!("!\t4\n{}", listed("evler")));
    }
}
