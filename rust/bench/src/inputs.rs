//! The words that are timed: the vocabulary, and words of 24 bytes and of the longest length that the
//! calls take, of several make-ups; longer ones for the UTF-8 check, which takes any; headings for the
//! fold; and chains before ki for the noun stage and the whole run.

use compare::words::filled::filled;
use compare::words::headings::capitals;
use compare::words::read_vocabulary;
use fannavy::LIMIT;
use std::path::Path;

const SHORT: usize = 24;
// For the UTF-8 check alone: over the limit of the calls on words.
const BEYOND: usize = 1000;
const COPIES: usize = 256;
// One Turkish letter in 24 bytes, and one in 50.
const SHORT_PART: &str = "STM32F407-VGT6ş-R25-104";
const LONG_PARTS: &str = "STM32F407-VGT6-R25-1042X-000117ı2-A4455-99123-X1-";

pub struct Input {
    pub name: String,
    pub words: Vec<String>,
}

impl Input {
    pub fn bytes(&self) -> usize {
        self.words.iter().map(String::len).sum()
    }
}

/// All inputs; the error is a message about the vocabulary's file.
pub fn inputs(vocabulary: &Path) -> Result<Vec<Input>, String> {
    let mut inputs = vec![
        Input {
            name: "vocabulary".to_string(),
            words: read_vocabulary(vocabulary)?,
        },
        copies("ASCII", SHORT, ["", "evlerimizdeki", "dirler"]),
        copies("Turkish", SHORT, ["", "çalıştırılmış", "mışsınız"]),
        copies("part number", SHORT, ["", SHORT_PART, ""]),
    ];
    inputs.extend(make_ups(LIMIT));
    Ok(inputs)
}

/// Words that only the UTF-8 check takes.
pub fn beyond() -> Vec<Input> {
    make_ups(BEYOND)
}

// Words of this length of every make-up.
fn make_ups(length: usize) -> Vec<Input> {
    vec![
        copies("ASCII", length, ["", "evlerimizdeki", "dirler"]),
        copies("Turkish", length, ["", "çalıştırılmış", "mışsınızcasına"]),
        copies("3-byte characters", length, ["", "乡村小学", "d"]),
        copies("4-byte characters", length, ["", "\u{20061}\u{1F469}", "d"]),
        // The harmony of every ending is looked for as far as the word's start, in vain.
        copies("vowels at both ends", length, ["e", "bcçdfgğ", "lar"]),
        // Part numbers with a Turkish letter here and there.
        copies("part numbers", length, ["", LONG_PARTS, ""]),
    ]
}

/// The words for the fold: in capitals and as they are; the error as above.
pub fn headings(vocabulary: &Path) -> Result<Vec<Input>, String> {
    let words = read_vocabulary(vocabulary)?;
    Ok(vec![
        Input {
            name: "vocabulary in capitals".to_string(),
            words: words.iter().map(|word| capitals(word)).collect(),
        },
        Input {
            name: "vocabulary".to_string(),
            words,
        },
        copies("ASCII capitals", SHORT, ["", "EVLERIMIZDEKI", ""]),
        copies("ASCII", SHORT, ["", "evlerimizdeki", ""]),
        copies("ASCII capitals", LIMIT, ["", "EVLERIMIZDEKI", ""]),
        copies("ASCII", LIMIT, ["", "evlerimizdeki", ""]),
        copies("Turkish capitals", LIMIT, ["", "ÇALIŞTIRILMIŞİĞ", ""]),
        copies("Turkish", LIMIT, ["", "çalıştırılmışiğ", ""]),
    ])
}

/// Words that are one link over and over: with `deki` the chain ends at the last, with `lerdeki` it goes
/// back to the first.
pub fn chains() -> Vec<Input> {
    ["deki", "lerdeki"].map(stacked).into()
}

// Copies of one word of the longest length that ends with a link as often as it fits behind `ev`.
fn stacked(link: &str) -> Input {
    let chain = link.repeat((LIMIT - "ev".len()) / link.len());
    let front = "b".repeat(LIMIT - "ev".len() - chain.len());
    Input {
        name: format!("{LIMIT} bytes, {link} over and over"),
        words: vec![format!("{front}ev{chain}"); COPIES],
    }
}

// Copies of one word of exactly `length` bytes: a front, a filler over and over, letters where no
// whole character fits, and a tail.
fn copies(make_up: &str, length: usize, [front, filler, tail]: [&str; 3]) -> Input {
    let room = length - front.len() - tail.len();
    let word = [front, &filled(filler, room), tail].concat();
    Input {
        name: format!("{length} bytes, {make_up}"),
        words: vec![word; COPIES],
    }
}

#[cfg(test)]
mod tests {
    use super::*;

    #[test]
    fn words_have_their_length() {
        for text in ["a", "ı", "乡", "\u{20061}", "ab乡"] {
            for length in [SHORT, LIMIT, BEYOND] {
                let input = copies("", length, ["ı", text, "乡"]);
                assert!(input.words.iter().all(|word| word.len() == length));
                assert_eq!(input.bytes(), length * COPIES);
            }
        }
        for input in chains() {
            assert!(input.words.iter().all(|word| word.len() == LIMIT));
            assert!(input.words[0].ends_with("deki"));
        }
    }

    #[cfg(feature = "oracle")]
    #[test]
    fn one_chain_is_taken_at_its_end_and_one_whole() {
        let left = |input: &Input| oracle::stem_noun_suffixes(&input.words[0]).text.len();
        let left: Vec<usize> = chains().iter().map(left).collect();
        assert_eq!(left[0], LIMIT - "deki".len());
        assert!(left[1] < 10, "{left:?}");
    }
}
