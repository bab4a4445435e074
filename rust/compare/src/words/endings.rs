//! The endings that the stages search for, spelled out of turkish.sbl's own notation.

// A is a or e, U is ı, i, u or ü, I is ı or i, all in harmony within one ending; D is d or t.
const SUFFIXES: [&str; 22] = [
    "Um", "sUn", "Uz", "sUnUz", "lAr", "nUz", "DUr", "cAsInA", "DU", "DUm", "DUn", "DUk", "sA",
    "sAm", "sAn", "sAk", "mUş", "b", "c", "d", "ğ", "ken",
];
// The same for the noun stage, table by table.
const NOUN_SUFFIXES: [&str; 15] = [
    "m", "n", "mUz", "nUz", "lArI", "nU", "Un", "A", "nA", "DA", "ndA", "DAn", "ndAn", "lA", "cA",
];
// What U, A and I stand for together.
const HARMONIES: [[char; 3]; 4] = [
    ['ı', 'a', 'ı'],
    ['i', 'e', 'i'],
    ['u', 'a', 'ı'],
    ['ü', 'e', 'i'],
];

/// Every key that the suffix stage and the postlude search for, and the literal `ken`.
pub fn endings() -> Vec<String> {
    SUFFIXES.into_iter().flat_map(spellings).collect()
}

/// Every key that the noun stage searches for in tables of its own.
pub fn noun_endings() -> Vec<String> {
    NOUN_SUFFIXES.into_iter().flat_map(spellings).collect()
}

/// Every spelling of one suffix, once each.
pub fn spellings(suffix: &str) -> Vec<String> {
    let mut spellings = Vec::new();
    for harmony in HARMONIES {
        for d in ['d', 't'] {
            let spelling = spell(suffix, harmony, d);
            if !spellings.contains(&spelling) {
                spellings.push(spelling);
            }
        }
    }
    spellings
}

fn spell(suffix: &str, [u, a, i]: [char; 3], d: char) -> String {
    let letter = |ch| match ch {
        'U' => u,
        'A' => a,
        'I' => i,
        'D' => d,
        other => other,
    };
    suffix.chars().map(letter).collect()
}

#[cfg(test)]
mod tests {
    use super::{endings, noun_endings};

    #[cfg(feature = "oracle")]
    #[test]
    fn endings_are_the_keys_of_the_crate_and_ken() {
        let mut keys = oracle::keys().concat();
        keys.push("ken");
        keys.sort();
        let mut endings = endings();
        endings.sort();
        assert_eq!(endings, keys);
    }

    #[cfg(feature = "oracle")]
    #[test]
    fn noun_endings_are_the_keys_of_the_crate() {
        let mut keys = oracle::noun_keys().concat();
        keys.sort();
        let mut endings = noun_endings();
        endings.sort();
        assert_eq!(endings, keys);
    }

    #[test]
    fn endings_keep_harmony() {
        let endings = endings();
        assert!(endings.contains(&"casına".to_string()));
        assert!(!endings.contains(&"casina".to_string()));
        assert_eq!(endings.len(), 81);
        assert_eq!(noun_endings().len(), 40);
    }
}
