//! The words of the list, the same ones in the same order for the same vocabulary.

use fannavy::LIMIT;
use shared::named::{NAMED, NOUNS};

// Words beside those of document 01 that tell plausible wrong programs apart.
const TELLING: [&str; 12] = [
    "sunuz",
    "sınız",
    "sünüz",
    "ablardır",
    "evmişlerdir",
    "mişsinizdir",
    "aymışsınızcasına",
    "admışsınızcasına",
    "badmışsınızcasına",
    "soyadmışsınızdır",
    "ebmişsinizcesine",
    "ekbmişsinizcesine",
];
const VOWELS: &str = "aeıioöuü";
// Every ending harmonises with one of them and not with another; four end in a vowel.
const FRONTS: [&str; 8] = ["kal", "kel", "kol", "kül", "kala", "kele", "kolu", "külü"];
// What may join an ending of a noun.
const JOINTS: [&str; 4] = ["", "n", "s", "y"];
// What the noun stage takes before a ki, and what may stand behind one.
const LINKS: [&str; 5] = ["lerde", "lerimde", "ün", "larının", "ında"];
const TAILS: [&str; 6] = ["", "ler", "na", "nden", "lerin", "ydi"];
// Piles of each kind.
const PILES: usize = 100;
// One word of the vocabulary in so many.
const STRIDE: usize = 64;
// Characters of 2, 3 and 4 bytes, and those that a reader of lines might take for something else.
const ODD: [&str; 8] = [
    "ß",
    "乡",
    "\u{20061}",
    "\0",
    "\r",
    "\u{FEFF}",
    "Ş",
    "\u{10FFFF}",
];
const BROKEN: [&[u8]; 8] = [
    b"\x80",
    b"\xC4",
    b"\xC0\x80",
    b"\xE0\x9F\xBF",
    b"\xED\xA0\x80",
    b"\xF0\x8F\xBF\xBF",
    b"\xF4\x90\x80\x80",
    b"\xFF",
];

/// Every word of the list.
pub fn words(vocabulary: &[&str]) -> Vec<Vec<u8>> {
    let keys = keys();
    let some = vocabulary.iter().step_by(STRIDE);
    let mut texts: Vec<String> = NAMED
        .iter()
        .chain(&TELLING)
        .chain(&NOUNS)
        .chain(some)
        .map(|word| word.to_string())
        .collect();
    texts.extend(keys_on_fronts(&keys, &["", "y"]));
    texts.extend(keys_on_fronts(&oracle::noun_keys().concat(), &JOINTS));
    texts.extend(chains_before_ki());
    texts.extend(vowel_pairs());
    texts.extend(last_letters());
    texts.extend(piles(&keys));
    texts.extend(odd_characters());
    let mut words: Vec<Vec<u8>> = texts.into_iter().map(String::into_bytes).collect();
    words.extend(around_the_limit());
    words.extend(refused());
    words
}

// The keys of the suffix stage's tables, and its literal.
fn keys() -> Vec<&'static str> {
    let mut keys = oracle::keys();
    keys.pop(); // the postlude's table
    keys.push(vec!["ken"]);
    keys.concat()
}

// Each key on each front, after each of these letters or none.
fn keys_on_fronts(keys: &[&str], joints: &[&str]) -> Vec<String> {
    let mut words = Vec::new();
    for key in keys {
        for front in FRONTS {
            words.extend(joints.iter().map(|joint| format!("{front}{joint}{key}")));
        }
    }
    words
}

// Up to five links one after the other, each with a ki, before every tail; the first stands by itself.
fn chains_before_ki() -> Vec<String> {
    let mut words = Vec::new();
    for (number, front) in FRONTS.into_iter().enumerate() {
        let mut chain = format!("{front}daki");
        for step in 0..LINKS.len() {
            words.extend(TAILS.iter().map(|tail| format!("{chain}{tail}")));
            chain = format!("{chain}{}ki", LINKS[(number + step) % LINKS.len()]);
        }
    }
    words
}

// Every vowel before every other, as harmony meets them: before an ending, and as its own vowel.
fn vowel_pairs() -> Vec<String> {
    let mut words = Vec::new();
    for first in VOWELS.chars() {
        for second in VOWELS.chars() {
            for end in ["lar", "ler", "dur", "ken", "sün"] {
                words.push(format!("b{first}l{second}k{end}"));
            }
            words.push(format!("{first}{second}"));
        }
    }
    words
}

// Every last vowel before every consonant that the postlude looks at, and before k.
fn last_letters() -> Vec<String> {
    let mut words = Vec::new();
    for vowel in VOWELS.chars() {
        for last in ["b", "c", "d", "g", "ğ", "k"] {
            words.push(format!("{vowel}{last}"));
            words.push(format!("a{vowel}r{last}"));
            words.push(format!("e{vowel}{last}mış"));
        }
    }
    words
}

// Piles of two to four endings, each with or without a y, taken at even steps from all there are:
// half of any endings, half of endings whose vowels harmonise.
fn piles(keys: &[&str]) -> Vec<String> {
    let mut words = Vec::new();
    for kin in ["aı", "ei", "u", "ü"] {
        let harmonious = |key: &&&str| key.chars().all(|ch| kin.contains(ch) || !is_vowel(ch));
        let some: Vec<&str> = keys.iter().filter(harmonious).copied().collect();
        let first = words.len();
        words.extend((first..first + PILES).map(|number| pile(number, &some)));
        words.extend((first..first + PILES).map(|number| pile(number, keys)));
    }
    words
}

// The pile of this number.
fn pile(number: usize, keys: &[&str]) -> String {
    let fronts = ["", "a", "e", "ev", "ad", "soyad", "araba", "ısı", "kolu"];
    let forms = 2 * keys.len();
    let mut rest = number * 1_000_003;
    let mut word = fronts[number % fronts.len()].to_string();
    for _ in 0..2 + number % 3 {
        let form = rest % forms;
        rest /= 7;
        word.push_str(if form % 2 == 1 { "y" } else { "" });
        word.push_str(keys[form / 2]);
    }
    word
}

fn is_vowel(ch: char) -> bool {
    VOWELS.contains(ch)
}

fn odd_characters() -> Vec<String> {
    let mut words = Vec::new();
    for odd in ODD {
        for word in ["", "ev", "evler", "kanaddır", "arabayken"] {
            words.push(format!("{odd}{word}"));
            words.push(format!("{word}{odd}"));
            words.push(format!("a{odd}a{word}"));
        }
    }
    words
}

// Words of the longest length that passes, and one byte longer, which end in characters of every width.
fn around_the_limit() -> Vec<Vec<u8>> {
    let mut words = Vec::new();
    for filler in ["a", "b", "ı", "乡", "\u{20061}"] {
        for tail in ["", "lar", "mışsınızcasına", "d"] {
            for length in [LIMIT, LIMIT + 1] {
                let room = length - tail.len();
                let fill = filler.repeat(room / filler.len());
                let pad = "b".repeat(room % filler.len());
                words.push(format!("{pad}{fill}{tail}").into_bytes());
            }
        }
    }
    words
}

// Lines that are no text, lines with a tab, and lines with two faults.
fn refused() -> Vec<Vec<u8>> {
    let mut words = Vec::new();
    for broken in BROKEN {
        words.push(broken.to_vec());
        words.push([b"ev", broken, b"ler"].concat());
        words.push([broken, b"\tev"].concat());
        words.push([broken, &[b'a'; LIMIT]].concat());
    }
    for tab in ["\t", "\tev", "ev\t", "ev\tler", "乡\t"] {
        words.push(tab.as_bytes().to_vec());
    }
    words.push([&[b'a'; LIMIT], b"\t".as_slice()].concat());
    words.push([&[b'a'; LIMIT - 1], b"\t".as_slice()].concat());
    words.push(Vec::new());
    words.push(b"evler".to_vec());
    words
}

#[cfg(test)]
mod tests {
    use super::*;

    #[test]
    fn no_word_has_a_line_s_end_in_it() {
        for word in words(&["evler"]) {
            assert!(!word.contains(&b'\n'));
        }
    }

    #[test]
    fn the_last_word_counts_without_lf() {
        assert!(words(&[]).last().is_some_and(|word| !word.is_empty()));
    }

    #[test]
    fn words_of_the_limit_and_over_it_are_there() {
        let words = around_the_limit();
        let lengths: Vec<usize> = words.iter().map(Vec::len).collect();
        assert_eq!(lengths.len(), 40);
        assert!(lengths.chunks(2).all(|pair| pair == [LIMIT, LIMIT + 1]));
        for (length, width) in (1..=4).flat_map(|width| [(LIMIT, width), (LIMIT + 1, width)]) {
            let ends = |word: &Vec<u8>| {
                let text = str::from_utf8(word).expect("text");
                word.len() == length && text.chars().last().map(char::len_utf8) == Some(width)
            };
            assert!(words.iter().any(ends), "{length} bytes, {width}");
        }
    }

    #[test]
    fn chains_have_up_to_five_links() {
        let chains = chains_before_ki();
        for links in 1..=5 {
            let long = |chain: &&String| chain.matches("ki").count() == links;
            let count = chains.iter().filter(long).count();
            assert_eq!(count, FRONTS.len() * TAILS.len());
        }
    }

    #[test]
    fn piles_are_of_many_kinds() {
        let mut piles = piles(&keys());
        let count = piles.len();
        piles.sort();
        piles.dedup();
        assert!(piles.len() * 10 > count * 9, "{} of {count}", piles.len());
    }
}
