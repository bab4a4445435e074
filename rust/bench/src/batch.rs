//! A batch beside the suffix stage of each of its words, which the host joins: anew for each word, or in a
//! buffer that keeps the front.

use crate::measure::{in_turn, passes};
use compare::words::filled::filled;
use compare::words::letters::VOWELS;
use compare::words::read_vocabulary;
use fannavy::{LIMIT, TAILS, TAIL_LEAST};
use std::hint::black_box;
use std::path::Path;
use std::time::{Duration, Instant};

const COMPOUND: &str = "elektromanyetikuyum";
// Stems and endings; the last 16 characters of one with the other are a tail.
const STEMS: [&str; 8] = [
    "lulukdeğerlendirme",
    "süzlükgöstergeler",
    "laboratuvarlarımız",
    "sınıflandırılması",
    "ölçümyöntemlerimiz",
    "koruyucumalzemesi",
    "doğrulamabelgeleri",
    "uygunlukbeyannamesi",
];
// Endings in harmony with a stem, in the letters of turkish.sbl: A is a or e, I is ı or i, and a y that begins one
// stands after a vowel only.
const ENDINGS: [&str; 8] = [
    "dIr",
    "lAr",
    "yken",
    "ymIş",
    "sInIz",
    "ydIlAr",
    "ymIştIr",
    "ymIşcAsInA",
];
// The same behind every stem, in harmony with it or not; a y stands behind consonants too.
const UNCHANGED: [&str; 8] = [
    "dır",
    "ler",
    "yken",
    "ymiş",
    "sınız",
    "dılar",
    "mıştır",
    "ymüşcesine",
];
// Behind a stem the suffix stage removes none of these.
const OTHERS: [&str; 8] = ["sal", "nin", "da", "ye", "yla", "den", "nı", "ki"];
// Endings with one vowel, a byte for each letter.
const ONE_VOWEL: [&str; 8] = ["lar", "ler", "dir", "dur", "tir", "tur", "sin", "sun"];

/// A front and its tails.
struct Row {
    name: String,
    front: String,
    tails: Vec<String>,
}

/// The table, in Markdown; the error is a message about the vocabulary's file, or that the answers differ.
pub fn table(vocabulary: &Path, rounds: usize) -> Result<String, String> {
    let mut table = format!(
        "Nanoseconds a tail, median of {rounds} rounds: one batch of a slice that is there, and of one that the host builds; and the suffix stage of
each joined word, which the host builds anew, or behind the front that stays in a buffer. Ratio: the time of the batch of a slice that is there
over the host's; below 1, the batch is faster.

| front and tails | tails | bytes a word | batch | slice built | words built anew | ratio | front kept | ratio |
|---|--:|--:|--:|--:|--:|--:|--:|--:|"
    );
    let mut rows = rows();
    rows.push(of_vocabulary(&read_vocabulary(vocabulary)?)?);
    for row in rows {
        table.push('\n');
        table.push_str(&line(&row, rounds)?);
    }
    Ok(table)
}

fn rows() -> Vec<Row> {
    let row = |name: &str, front: &str, tails: &[String]| Row {
        name: name.to_string(),
        front: front.to_string(),
        tails: tails.to_vec(),
    };
    let far = LIMIT - TAIL_LEAST;
    let bare = filled("bcdfgkl", far);
    let vowel = format!("e{}", &bare[1..]);
    let (one_vowel, ordinary) = (one_vowel(), ends(&ENDINGS, harmonic));
    vec![
        row(
            &format!("{far} bytes, a vowel at the start"),
            &vowel,
            &one_vowel,
        ),
        row(&format!("{far} bytes without a vowel"), &bare, &one_vowel),
        row(
            "an ordinary compound, an ending on each tail",
            COMPOUND,
            &ordinary,
        ),
        row(
            "the same, eight endings alike behind every stem",
            COMPOUND,
            &ends(&UNCHANGED, joined),
        ),
        row(
            "the same, tails without an ending",
            COMPOUND,
            &ends(&OTHERS, joined),
        ),
        row("a short front, tails with endings", "ev", &ordinary),
        row("an ordinary compound, one tail", COMPOUND, &ordinary[..1]),
        row(
            "an ordinary compound, eight tails",
            COMPOUND,
            &ordinary[..ENDINGS.len()],
        ),
    ]
}

// Tails of consonants and an ending with one vowel.
fn one_vowel() -> Vec<String> {
    let letters = filled("bcdfghjklmnprstvyz", 2 * TAILS);
    let tail = |i: usize| {
        let ending = ONE_VOWEL[i % ONE_VOWEL.len()];
        let consonants = &letters[i..][..TAIL_LEAST - ending.len()];
        [consonants, ending].concat()
    };
    (0..TAILS).map(tail).collect()
}

// Tails as the vocabulary has them: the last 16 characters of words all over it, with endings and without.
fn of_vocabulary(words: &[String]) -> Result<Row, String> {
    let long = |word: &&String| characters(word) >= TAIL_LEAST;
    let long: Vec<&String> = words.iter().filter(long).collect();
    if long.len() < TAILS {
        return Err(format!(
            "the vocabulary has fewer than {TAILS} words of {TAIL_LEAST} characters"
        ));
    }
    let tail = |i: usize| last(long[i * long.len() / TAILS]);
    Ok(Row {
        name: "an ordinary compound, tails of the vocabulary".to_string(),
        front: COMPOUND.to_string(),
        tails: (0..TAILS).map(tail).collect(),
    })
}

// The last 16 characters of every stem with each of these.
fn ends(endings: &[&str], join: fn(&str, &str) -> String) -> Vec<String> {
    let words = STEMS
        .iter()
        .flat_map(|stem| endings.iter().map(move |ending| join(stem, ending)));
    words.map(|word| last(&word)).collect()
}

fn joined(stem: &str, ending: &str) -> String {
    [stem, ending].concat()
}

// The last vowel decides; no stem's last one is rounded.
fn harmonic(stem: &str, ending: &str) -> String {
    let mut vowels = stem.chars().rev().filter(|&ch| is_vowel(ch));
    let back = matches!(vowels.next(), Some('a' | 'ı'));
    let ending = match stem.chars().last() {
        Some(ch) if is_vowel(ch) => ending,
        _ => ending.trim_start_matches('y'),
    };
    let (a, i) = if back { ("a", "ı") } else { ("e", "i") };
    joined(stem, &ending.replace('A', a).replace('I', i))
}

fn is_vowel(ch: char) -> bool {
    VOWELS.contains(ch)
}

fn characters(word: &str) -> usize {
    word.chars().count()
}

fn last(word: &str) -> String {
    let more = characters(word) - TAIL_LEAST;
    word.chars().skip(more).collect()
}

fn line(row: &Row, rounds: usize) -> Result<String, String> {
    let slice = row.tails.join("\n");
    let bytes: usize = row
        .tails
        .iter()
        .map(|tail| row.front.len() + tail.len())
        .sum();
    let passes = passes(bytes);
    let sides: [&dyn Fn() -> usize; 4] = [
        &|| batch(&row.front, &slice),
        &|| batch(&row.front, &black_box(&row.tails).join("\n")),
        &|| anew(&row.front, &row.tails),
        &|| kept(&row.front, &row.tails),
    ];
    let times = in_turn(rounds, |side| time(sides[side], passes))
        .ok_or_else(|| format!("{}: the answers differ", row.name))?;
    let count = row.tails.len();
    let [batch, built, anew, kept] = times.map(|time| time / (count * passes) as f64);
    let bytes = bytes as f64 / count as f64;
    Ok(format!(
        "| {} | {count} | {bytes:.1} | {batch:.1} | {built:.1} | {anew:.1} | {:.2} | {kept:.1} | {:.2} |",
        row.name,
        batch / anew,
        batch / kept
    ))
}

// The time of some passes, and the sum of the answers.
fn time(side: &dyn Fn() -> usize, passes: usize) -> (Duration, usize) {
    let mut sum = 0usize;
    let start = Instant::now();
    for _ in 0..passes {
        sum = sum.wrapping_add(black_box(side()));
    }
    (start.elapsed(), sum)
}

// One call.
fn batch(front: &str, slice: &str) -> usize {
    let (front, slice) = (black_box(front).as_bytes(), black_box(slice).as_bytes());
    match fannavy::batch(front, slice) {
        Ok(batch) => batch.iter().map(|a| sum(a.kept, a.yes, a.flag)).sum(),
        Err(_) => REFUSED,
    }
}

// A call for each word, which is built anew.
fn anew(front: &str, tails: &[String]) -> usize {
    let front = black_box(front);
    let word = |tail: &String| stage([front, black_box(tail)].concat().as_bytes());
    tails.iter().map(word).sum()
}

// A call for each word; the front is copied once and stays.
fn kept(front: &str, tails: &[String]) -> usize {
    let front = black_box(front).as_bytes();
    let mut word = [0; LIMIT];
    word[..front.len()].copy_from_slice(front);
    let behind = |tail: &String| {
        let tail = black_box(tail).as_bytes();
        let n = front.len() + tail.len();
        word[front.len()..n].copy_from_slice(tail);
        stage(&word[..n])
    };
    tails.iter().map(behind).sum()
}

fn stage(word: &[u8]) -> usize {
    match fannavy::stage(word) {
        Ok(stage) => sum(stage.kept.len(), stage.yes, stage.flag),
        Err(_) => REFUSED,
    }
}

// No word here is refused; if one is, the sums differ.
const REFUSED: usize = 1 << 32;

// An answer as one number.
fn sum(kept: usize, yes: bool, flag: bool) -> usize {
    4 * kept + 2 * usize::from(yes) + usize::from(flag)
}

#[cfg(test)]
mod tests {
    use super::*;
    use std::collections::BTreeSet;

    #[test]
    fn tails_are_different_and_of_sixteen_characters() {
        for row in rows() {
            let mut tails = row.tails.iter();
            assert!(tails.all(|tail| characters(tail) == TAIL_LEAST));
            let different: BTreeSet<&String> = row.tails.iter().collect();
            assert_eq!(different.len(), row.tails.len(), "{}", row.name);
            assert!([1, ENDINGS.len(), TAILS].contains(&row.tails.len()));
        }
    }

    // Of how many words an ending is removed.
    fn removed(row: &Row) -> usize {
        let words = row.tails.iter().map(|tail| [&row.front[..], tail].concat());
        let stage = |word: &String| fannavy::stage(word.as_bytes()).expect("a word").yes;
        words.filter(stage).count()
    }

    #[test]
    fn endings_follow_the_stem() {
        assert_eq!(harmonic("göstergeler", "ymIştIr"), "göstergelermiştir");
        assert_eq!(harmonic("yapması", "ydIlAr"), "yapmasıydılar");
    }

    #[test]
    fn the_sides_agree() {
        for row in rows() {
            let sums = batch(&row.front, &row.tails.join("\n"));
            assert_eq!(sums, anew(&row.front, &row.tails), "{}", row.name);
            assert_eq!(sums, kept(&row.front, &row.tails), "{}", row.name);
        }
    }

    #[test]
    fn endings_are_where_they_should_be() {
        let removed: Vec<usize> = rows().iter().map(removed).collect();
        assert_eq!((removed[1], removed[2], removed[4]), (0, TAILS, 0));
        assert_eq!(removed[5..], [TAILS, 1, ENDINGS.len()]);
        for row in [0, 3] {
            assert!(removed[row] >= TAILS / 2, "{removed:?}");
        }
    }

    // Of how many words harmony holds past a vowel that is no partner.
    fn loans(row: &Row) -> usize {
        let words = row.tails.iter().map(|tail| [&row.front[..], tail].concat());
        let loan = |word: &String| {
            let stage = fannavy::stage(word.as_bytes()).expect("a word");
            stage.loan
        };
        words.filter(loan).count()
    }

    #[test]
    fn endings_of_an_ordinary_compound_are_in_harmony() {
        let rows = rows();
        assert_eq!(loans(&rows[2]), 0);
        assert!(loans(&rows[3]) > 0);
    }

    #[test]
    fn tails_come_from_all_over_the_vocabulary() {
        let words: Vec<String> = (0..1000).map(|i| format!("kısaca{i:016}")).collect();
        let row = of_vocabulary(&words).expect("long words");
        assert_eq!(
            (row.tails[0].as_str(), row.tails.len()),
            (&words[0][7..], TAILS)
        );
        assert_eq!(row.tails[TAILS - 1], words[984][7..]);
        assert!(of_vocabulary(&words[..TAILS - 1]).is_err());
        assert!(of_vocabulary(&vec!["kısa".to_string(); TAILS]).is_err());
    }
}
