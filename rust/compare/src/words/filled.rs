//! Text of exactly so many bytes.

/// The filler's characters over and over as far as they fit, and the letter b where none does.
pub fn filled(filler: &str, length: usize) -> String {
    let mut text = String::with_capacity(length);
    for ch in filler.chars().cycle() {
        if text.len() + ch.len_utf8() > length {
            break;
        }
        text.push(ch);
    }
    while text.len() < length {
        text.push('b');
    }
    text
}

#[cfg(test)]
mod tests {
    use super::*;

    #[test]
    fn texts_have_their_length() {
        for filler in ["a", "ı", "乡", "\u{20061}", "ab乡"] {
            for length in 0..50 {
                assert_eq!(filled(filler, length).len(), length);
            }
        }
        assert_eq!(filled("aı", 5), "aıab");
    }
}
