//! Batches for the suffix stage, none of which is refused: a front, and a slice of up to 64 tails.

use super::fronts;
use super::random::Random;
use super::tails::{self, Pieces};
use fannavy::{LIMIT, TAILS, TAIL_LEAST};

/// A front, and tails in a slice.
pub struct Batch {
    pub front: Vec<u8>,
    pub slice: Vec<u8>,
}

impl Batch {
    /// The last tail may be closed by a line feed, as the others are, or not.
    pub fn new(front: &[u8], list: &[impl AsRef<[u8]>], closed: bool) -> Batch {
        let list: Vec<&[u8]> = list.iter().map(AsRef::as_ref).collect();
        let mut slice = list.join(&b'\n');
        if closed && !list.is_empty() {
            slice.push(b'\n');
        }
        let front = front.to_vec();
        Batch { front, slice }
    }
}

/// What a source calls with each batch.
pub type Visit<'a, E> = &'a mut dyn FnMut(&Batch) -> Result<(), E>;

/// Every word of 16 characters or more, cut before each tail that it has, with up to 63 such tails of words
/// before it.
pub fn each_cut<E>(vocabulary: &[String], visit: Visit<E>) -> Result<(), E> {
    let mut list: Vec<&str> = Vec::new();
    for word in vocabulary {
        let places: Vec<usize> = word.char_indices().map(|(place, _)| place).collect();
        for &place in places.iter().rev().skip(TAIL_LEAST - 1) {
            let (front, tail) = word.split_at(place);
            // 1 to 64 tails, this one first.
            if list.len() == TAILS {
                list.clear();
            }
            list.retain(|other| front.len() + other.len() <= LIMIT);
            list.insert(0, tail);
            let closed = list.len().is_multiple_of(3);
            visit(&Batch::new(front.as_bytes(), &list, closed))?;
        }
    }
    Ok(())
}

/// Every number of tails, with a line feed at the end and without.
pub fn each_count<E>(visit: Visit<E>) -> Result<(), E> {
    let list = tails::bare();
    for count in 0..=TAILS {
        for front in ["", "ev", "aeıioöuüb"] {
            for closed in [false, true] {
                let list = &list[count * TAILS / 2..][..count];
                visit(&Batch::new(front.as_bytes(), list, closed))?;
            }
        }
    }
    Ok(())
}

/// Every set of vowels in the front, before tails whose only vowel is an ending's.
pub fn each_set<E>(visit: Visit<E>) -> Result<(), E> {
    let bare = tails::bare();
    let vowels =
        ["lar", "ler", "sın", "sin", "sun", "sün"].map(|end| format!("bbbbbbbbbbbbb{end}"));
    let mut others = bare.chunks(TAILS - vowels.len()).cycle();
    for front in fronts::sets() {
        let others = others.next().unwrap_or_default();
        let list = [&vowels, others].concat();
        visit(&Batch::new(front.as_bytes(), &list, false))?;
    }
    Ok(())
}

/// Every chain of endings behind consonants, with every fixed front; and behind a vowel, with one of them.
pub fn each_chain<E>(visit: Visit<E>) -> Result<(), E> {
    let fronts = fronts::fixed();
    let bare = tails::bare();
    for front in &fronts {
        for list in bare.chunks(TAILS) {
            visit(&Batch::new(front.as_bytes(), list, true))?;
        }
    }
    let voiced = tails::voiced();
    for (list, front) in voiced.chunks(TAILS).zip(fronts.iter().cycle()) {
        visit(&Batch::new(front.as_bytes(), list, false))?;
    }
    Ok(())
}

/// `count` random fronts before up to 64 random tails, the joined words often as long as may be.
pub fn each_random<E>(count: usize, mut random: Random, visit: Visit<E>) -> Result<(), E> {
    let pieces = Pieces::all();
    for _ in 0..count {
        visit(&drawn(&pieces, &mut random))?;
    }
    Ok(())
}

/// A random batch.
pub fn drawn(pieces: &Pieces, random: &mut Random) -> Batch {
    let long = random.below(6) == 0;
    let list: Vec<String> = (0..random.below(TAILS + 1))
        .map(|_| pieces.random(random, long))
        .collect();
    let longest = list.iter().map(String::len).max().unwrap_or(0);
    let front = fronts::random(random, &pieces.letters, LIMIT - longest);
    Batch::new(front.as_bytes(), &list, random.below(2) == 0)
}

#[cfg(test)]
mod tests {
    use super::*;
    use crate::tails::{number, tails};

    type Source<'a> = &'a dyn Fn(Visit<()>) -> Result<(), ()>;

    #[test]
    fn none_is_refused_and_every_number_of_tails_is_there() {
        let words = ["a", "bilgisayarlaştırılmışlar", &"ab".repeat(LIMIT / 2)].map(str::to_string);
        let sources: [(&str, Source); 5] = [
            ("cut", &|visit| each_cut(&words, visit)),
            ("count", &|visit| each_count(visit)),
            ("set", &|visit| each_set(visit)),
            ("chain", &|visit| each_chain(visit)),
            ("random", &|visit| {
                each_random(1000, Random::new(1, 13), visit)
            }),
        ];
        for (name, source) in sources {
            let mut counts = [[0; 2]; TAILS + 1];
            let _ = source(&mut |batch| {
                assert_eq!(number(&batch.front, &batch.slice, [TAILS; 3]), 0);
                let closed = usize::from(batch.slice.ends_with(b"\n"));
                counts[tails(&batch.slice).count()][closed] += 1;
                Ok(())
            });
            let has = |count: usize| counts[count] != [0, 0];
            match name {
                "cut" => assert!((1..=9).all(has)),
                "count" | "random" => assert!((0..=TAILS).all(has)),
                _ => assert!(has(TAILS)),
            }
        }
    }

    #[test]
    fn joined_words_reach_the_limit() {
        let mut reached = 0;
        let _: Result<(), ()> = each_random(1000, Random::new(1, 13), &mut |batch| {
            let most = tails(&batch.slice).map(<[u8]>::len).max().unwrap_or(0);
            reached += usize::from(batch.front.len() + most == LIMIT);
            Ok(())
        });
        assert!(reached > 100, "{reached}");
    }
}
