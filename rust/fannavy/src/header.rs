//! The sizes of the C header, read from it as the crate is compiled, so that hosts are told each once.

/// The header's text.
pub(crate) const TEXT: &str = include_str!("../include/fannavy.h");

/// The number that the header defines under this name; a constant made by it does not compile where there
/// is none.
pub(crate) const fn size(name: &str) -> usize {
    let mut lines = TEXT.as_bytes();
    while !lines.is_empty() {
        if let Some(definition) = behind(b"#define ", lines) {
            if let Some(value) = behind(name.as_bytes(), definition) {
                if let Some(digits) = behind(b" ", value) {
                    return number(digits);
                }
            }
        }
        lines = next_line(lines);
    }
    panic!("the header defines no such size")
}

// What follows a text's beginning, where it begins so.
const fn behind<'a>(beginning: &[u8], text: &'a [u8]) -> Option<&'a [u8]> {
    if text.len() < beginning.len() {
        return None;
    }
    let (front, rest) = text.split_at(beginning.len());
    let mut i = 0;
    while i < beginning.len() {
        if front[i] != beginning[i] {
            return None;
        }
        i += 1;
    }
    Some(rest)
}

// The text without its first line.
const fn next_line(mut text: &[u8]) -> &[u8] {
    while let [byte, rest @ ..] = text {
        text = rest;
        if *byte == b'\n' {
            break;
        }
    }
    text
}

// The decimal number that fills the rest of a line; C would take one that begins with 0 for octal.
const fn number(mut text: &[u8]) -> usize {
    assert!(
        matches!(text, [b'1'..=b'9', ..]),
        "the size is no plain number"
    );
    let mut number = 0;
    while let [digit @ b'0'..=b'9', rest @ ..] = text {
        number = 10 * number + (*digit - b'0') as usize;
        text = rest;
    }
    assert!(matches!(text, [b'\n', ..]), "the size is no plain number");
    number
}

#[cfg(test)]
mod tests {
    use super::*;
    use std::format;

    #[test]
    fn a_size_is_the_definition_s_own() {
        for name in [
            "LIMIT",
            "PIECES_ROOM",
            "PIECES_TEXT_ROOM",
            "TAILS",
            "TAIL_LEAST",
        ] {
            let line = format!(
                "\n#define FANNAVY_{name} {}\n",
                size(&format!("FANNAVY_{name}"))
            );
            assert!(TEXT.contains(&line), "no {line}");
        }
    }

    #[test]
    #[should_panic(expected = "no such size")]
    fn a_name_that_is_not_defined_is_not_passed_over() {
        size("FANNAVY_PIECES");
    }

    #[test]
    #[should_panic(expected = "no plain number")]
    fn a_size_that_is_no_number_is_not_passed_over() {
        size("FANNAVY_NOT_UTF8");
    }

    #[test]
    fn a_number_is_decimal_and_alone() {
        assert_eq!(number(b"96\n"), 96);
        assert_eq!(number(b"9\n#define"), 9);
        for text in ["", "\n", "0140\n", "0x60\n", "96", "96 \n", "96u\n"] {
            let refused = std::panic::catch_unwind(|| number(text.as_bytes()));
            assert!(refused.is_err(), "{text:?}");
        }
    }
}
