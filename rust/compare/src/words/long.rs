//! Words of every length up to the longest that the calls take, and one byte longer: of several make-ups,
//! which end in characters of every width, and at random. And longer ones for the UTF-8 check.

use super::endings::endings;
use super::letters::alphabet;
use super::random::{character, each_drawn, Random};
use super::Visit;
use fannavy::LIMIT;
use std::ops::RangeInclusive;

const LENGTHS: RangeInclusive<usize> = 0..=LIMIT + 1;
// For the UTF-8 check, which takes any: past many of its steps and parts.
const BEYOND: RangeInclusive<usize> = LIMIT + 2..=1100;
// One width throughout, or a mixture; with vowels or without.
const FILLERS: [&str; 9] = [
    "a",
    "b",
    "ı",
    "ğ",
    "乡",
    "\u{20061}",
    "ev",
    "köylü",
    "aß乡\u{20061}",
];
const TAILS: [&str; 8] = [
    "",
    "lar",
    "mişsinizcesine",
    "sınızdır",
    "d",
    "ğ",
    "乡",
    "\u{20061}",
];

// What the noun stage takes over and over, and what can stand behind it.
const LINKS: [&str; 7] = [
    "deki",
    "ınki",
    "lerdeki",
    "larındaki",
    "lerimizdeki",
    "sününki",
    "乡lardaki",
];
const NOUN_TAILS: [&str; 7] = ["", "ler", "na", "nde", "lerimizden", "dıysa", "d"];

/// Every filler with every tail at every length that has room for it, padded by the letter b before or
/// after the filler.
pub fn each<E>(visit: Visit<E>) -> Result<(), E> {
    filled(LENGTHS, &FILLERS, &TAILS, visit)
}

/// The same at lengths that only the UTF-8 check takes.
pub fn each_beyond<E>(visit: Visit<E>) -> Result<(), E> {
    filled(BEYOND, &FILLERS, &TAILS, visit)
}

/// The same of chains before ki that are as long as the word.
pub fn each_chain<E>(visit: Visit<E>) -> Result<(), E> {
    filled(LENGTHS, &LINKS, &NOUN_TAILS, visit)
}

/// `count` words of random characters before up to three endings, of each length in turn.
pub fn each_random<E>(count: usize, mut random: Random, visit: Visit<E>) -> Result<(), E> {
    let letters = alphabet();
    let endings = endings();
    let mut lengths = LENGTHS.cycle();
    each_drawn(count, visit, |word| {
        let length = lengths.next().expect("one more turn");
        let tail: String = (0..random.below(4))
            .map(|_| random.pick(&endings).as_str())
            .collect();
        let tail = if tail.len() <= length { &tail } else { "" };
        while word.len() + tail.len() < length {
            let ch = character(&mut random, &letters);
            if word.len() + ch.len_utf8() + tail.len() <= length {
                word.push(ch);
            }
        }
        word.push_str(tail);
    })
}

fn filled<E>(
    lengths: RangeInclusive<usize>,
    fillers: &[&str],
    tails: &[&str],
    visit: Visit<E>,
) -> Result<(), E> {
    for length in lengths {
        for filler in fillers {
            for tail in tails {
                let Some(room) = length.checked_sub(tail.len()) else {
                    continue;
                };
                let fill = filler.repeat(room / filler.len());
                let pad = "b".repeat(room % filler.len());
                visit(&format!("{pad}{fill}{tail}"))?;
                visit(&format!("{fill}{pad}{tail}"))?;
            }
        }
    }
    Ok(())
}

#[cfg(test)]
mod tests {
    use super::*;

    // How many words of each length end in a character of so many bytes.
    fn count(each: fn(Visit<()>) -> Result<(), ()>) -> Vec<[usize; 5]> {
        let mut counts = vec![[0; 5]; LIMIT + 2];
        let _ = each(&mut |word| {
            let width = word.chars().last().map_or(0, char::len_utf8);
            counts[word.len()][width] += 1;
            Ok(())
        });
        counts
    }

    #[test]
    fn every_length_ends_in_every_width_that_fits() {
        for (length, widths) in count(each).iter().enumerate() {
            let fits = |width: usize| match length {
                0 => width == 0,
                _ => (1..=length).contains(&width),
            };
            for (width, &words) in widths.iter().enumerate() {
                assert_eq!(words > 0, fits(width), "{length} bytes, {width}");
            }
        }
    }

    #[test]
    fn every_length_has_as_many_words() {
        let all = |counts: Vec<[usize; 5]>, tails: &[&str], words: usize| {
            let longest = tails.iter().map(|tail| tail.len()).max().expect("a tail");
            let counts = &counts[longest..];
            assert!(counts
                .iter()
                .all(|widths| widths.iter().sum::<usize>() == words));
        };
        all(count(each), &TAILS, FILLERS.len() * TAILS.len() * 2);
        all(
            count(each_chain),
            &NOUN_TAILS,
            LINKS.len() * NOUN_TAILS.len() * 2,
        );
    }

    #[test]
    fn random_words_are_of_each_length_in_turn() {
        let mut counts = [0; LIMIT + 2];
        let turns = 5;
        let _: Result<(), ()> = each_random(turns * (LIMIT + 2), Random::new(1, 12), &mut |word| {
            counts[word.len()] += 1;
            Ok(())
        });
        assert_eq!(counts, [turns; LIMIT + 2]);
    }

    #[cfg(feature = "oracle")]
    #[test]
    fn a_chain_as_long_as_the_word_is_taken() {
        let mut shortest = usize::MAX;
        let _: Result<(), ()> = each_chain(&mut |word| {
            if word.len() == LIMIT {
                shortest = shortest.min(oracle::stem_noun_suffixes(word).text.len());
            }
            Ok(())
        });
        assert!(shortest < 10, "{shortest}");
    }
}
