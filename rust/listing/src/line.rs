//! One line of the listing, in the form that document 01 and document 02's request 4 give the program
//! stemlist.

use fannavy::LIMIT;
use std::str::from_utf8;

/// Appends the line of a word, closed by LF: word, syllable check, stage, flag, kept text, the pass's
/// text and the whole run's, parted by tabs; or the number that refuses it.
pub fn append(word: &[u8], listing: &mut Vec<u8>) {
    match text(word) {
        Ok(word) => append_fields(word, listing),
        Err(number) => listing.extend_from_slice(&[b'!', b'\t', number]),
    }
    listing.push(b'\n');
}

// The word as text, or the digit of the first number that refuses the line.
fn text(word: &[u8]) -> Result<&str, u8> {
    if word.len() > LIMIT {
        return Err(b'1');
    }
    let text = from_utf8(word).map_err(|_| b'2')?;
    if text.contains('\t') {
        return Err(b'4');
    }
    Ok(text)
}

// Each stage is run once, and for the last field the crate's own whole run.
fn append_fields(word: &str, listing: &mut Vec<u8>) {
    let syllable = oracle::more_than_one_syllable_word(word);
    let stage = oracle::stem_nominal_verb_suffixes(word);
    let [first, second] = [syllable, stage.yes].map(|yes| if yes { b'Y' } else { b'N' });
    let third = b'0' + u8::from(stage.flag);
    listing.extend_from_slice(word.as_bytes());
    listing.extend_from_slice(&[b'\t', first, b'\t', second, b'\t', third, b'\t']);
    listing.extend_from_slice(stage.text.as_bytes());
    listing.push(b'\t');
    if syllable {
        listing.extend_from_slice(oracle::after_stage(stage).as_bytes());
    } else {
        listing.extend_from_slice(word.as_bytes());
    }
    listing.push(b'\t');
    listing.extend_from_slice(oracle::stem(word).as_bytes());
}

#[cfg(test)]
mod tests {
    use super::{append, LIMIT};

    fn listed(word: &[u8]) -> String {
        let mut line = Vec::new();
        append(word, &mut line);
        assert_eq!(line.pop(), Some(b'\n'));
        String::from_utf8(line).expect("a line is text")
    }

    #[test]
    fn the_scope_s_two_lines() {
        assert_eq!(listed(b"evler"), "evler\tY\tY\t0\tev\tev\tev");
        assert_eq!(listed(b"siniz"), "siniz\tY\tY\t1\t\t\t");
    }

    #[test]
    fn kept_text_and_pass_may_differ() {
        let listed = |word: &str| listed(word.as_bytes());
        assert_eq!(
            listed("kanaddır"),
            "kanaddır\tY\tY\t1\tkanad\tkanadı\tkanadı"
        );
        assert_eq!(listed("ad"), "ad\tN\tN\t1\tad\tad\tad");
        assert_eq!(listed(""), "\tN\tN\t1\t\t\t");
    }

    #[test]
    fn pass_and_whole_run_may_differ() {
        let listed = |word: &str| listed(word.as_bytes());
        assert_eq!(
            listed("evlerimizdeydi"),
            "evlerimizdeydi\tY\tY\t1\tevlerimizde\tevlerimizde\tev"
        );
        assert_eq!(listed("adakina"), "adakina\tY\tN\t1\tadakina\tadakina\tana");
    }

    #[test]
    fn the_first_number_refuses() {
        assert_eq!(listed(b"ev\tler"), "!\t4");
        assert_eq!(listed(b"ev\t\xFF"), "!\t2");
        assert_eq!(listed(&[b'\t'; LIMIT]), "!\t4");
        assert_eq!(listed(&[b'\t'; LIMIT + 1]), "!\t1");
        assert_eq!(listed(&[0xFF; LIMIT + 1]), "!\t1");
        assert_eq!(listed(&[0xFF; LIMIT]), "!\t2");
        assert!(listed(&[b'b'; LIMIT]).contains("b\tN\tN\t1\tb"));
    }
}
