//! Byte strings that are no text, or nearly: random bytes, and words with some bytes damaged.

use super::random::{self, Random};

/// The first and the last byte of each kind that UTF-8 tells apart, and bytes inside the kinds.
pub const EDGE_BYTES: [u8; 24] = [
    0x00, 0x7F, 0x80, 0x8F, 0x90, 0x9F, 0xA0, 0xBF, 0xC0, 0xC1, 0xC2, 0xDF, 0xE0, 0xE1, 0xEC, 0xED,
    0xEE, 0xEF, 0xF0, 0xF1, 0xF3, 0xF4, 0xF5, 0xFF,
];

/// Overlong forms, surrogates, and code points above the last, each next to a form that is text.
pub const SEQUENCES: [&[u8]; 14] = [
    b"\xC0\x80",
    b"\xC1\xBF",
    b"\xC2\x80",
    b"\xE0\x9F\xBF",
    b"\xE0\xA0\x80",
    b"\xED\x9F\xBF",
    b"\xED\xA0\x80",
    b"\xED\xBF\xBF",
    b"\xEE\x80\x80",
    b"\xF0\x8F\xBF\xBF",
    b"\xF0\x90\x80\x80",
    b"\xF4\x8F\xBF\xBF",
    b"\xF4\x90\x80\x80",
    b"\xF8\x88\x80\x80\x80",
];

/// `count` random byte strings: half of any bytes, half of edge bytes, which are text more often.
pub fn each_random<E>(
    count: usize,
    mut random: Random,
    visit: &mut dyn FnMut(&[u8]) -> Result<(), E>,
) -> Result<(), E> {
    let mut bytes = Vec::new();
    for i in 0..count {
        bytes.clear();
        for _ in 0..4 + random.below(60) {
            let any = random.draw() as u8;
            bytes.push(if i % 2 == 0 {
                any
            } else {
                *random.pick(&EDGE_BYTES)
            });
        }
        visit(&bytes)?;
    }
    Ok(())
}

/// `count` damaged random texts, and as many damaged words of the vocabulary.
pub fn each_word<E>(
    vocabulary: &[String],
    count: usize,
    mut random: Random,
    visit: &mut dyn FnMut(&[u8]) -> Result<(), E>,
) -> Result<(), E> {
    if !vocabulary.is_empty() {
        for _ in 0..count {
            let word = random.pick(vocabulary).as_bytes();
            visit(&damage(word, &mut random))?;
        }
    }
    let words = Random::new(random.draw(), 0);
    random::each(count, words, &mut |word| {
        visit(&damage(word.as_bytes(), &mut random))
    })
}

/// One or two damages at random places; some leave the word text.
pub fn damage(word: &[u8], random: &mut Random) -> Vec<u8> {
    let mut bytes = word.to_vec();
    for _ in 0..1 + random.below(2) {
        let place = random.below(bytes.len() + 1);
        let byte = *random.pick(&EDGE_BYTES);
        match random.below(5) {
            0 => bytes.truncate(place),
            1 => bytes.insert(place, byte),
            2 => drop(bytes.splice(place..place, random.pick(&SEQUENCES).iter().copied())),
            _ if place == bytes.len() => bytes.push(byte),
            3 => drop(bytes.remove(place)),
            _ => bytes[place] = byte,
        }
    }
    bytes
}

#[cfg(test)]
mod tests {
    use super::*;
    use std::str::from_utf8;

    #[test]
    fn damaged_words_are_of_both_kinds() {
        let mut texts = 0;
        let words = ["evler".to_string(), "ağaç".to_string()];
        let _: Result<(), ()> = each_word(&words, 500, Random::new(1, 4), &mut |word| {
            texts += usize::from(from_utf8(word).is_ok());
            Ok(())
        });
        assert!(100 < texts && texts < 900, "{texts} of 1000");
    }

    #[test]
    fn random_bytes_are_of_both_kinds() {
        let mut texts = 0;
        let _: Result<(), ()> = each_random(100_000, Random::new(1, 3), &mut |bytes| {
            texts += usize::from(from_utf8(bytes).is_ok());
            Ok(())
        });
        assert!(0 < texts && texts < 100_000);
    }
}
