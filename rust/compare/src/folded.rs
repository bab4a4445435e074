//! The rule of the fold, character by character: document 01's, with I and İ of document 02's
//! request 2.

/// A text with its capitals folded.
pub fn folded(text: &str) -> String {
    text.chars().map(fold).collect()
}

fn fold(ch: char) -> char {
    match ch {
        'I' => 'ı',
        'İ' => 'i',
        'A'..='Z' => ch.to_ascii_lowercase(),
        'Ç' => 'ç',
        'Ğ' => 'ğ',
        'Ö' => 'ö',
        'Ş' => 'ş',
        'Ü' => 'ü',
        other => other,
    }
}

#[cfg(test)]
mod tests {
    use super::folded;

    #[test]
    fn headings_fold() {
        assert_eq!(folded("IŞIK"), "ışık");
        assert_eq!(folded("İSTANBUL"), "istanbul");
        assert_eq!(folded("GÖZLÜKÇÜ AĞAÇ"), "gözlükçü ağaç");
    }

    #[test]
    fn all_else_stays() {
        let text = "ışık i\u{307} ÂÉЯ @[`{ 乡";
        assert_eq!(folded(text), text);
        assert_eq!(folded("I\u{307}"), "ı\u{307}");
    }
}
