//! Words about as long as the suffix stage looks back, of 15 to 18 characters: a front of one or two
//! letters, a pile of endings, and a chain that a branch can take.

use super::chains;
use super::letters::alphabet;
use super::piles;
use super::random::Random;
use super::Visit;

const LEAST: usize = 15;
const MOST: usize = 18;

/// `count` such words.
pub fn each<E>(count: usize, mut random: Random, visit: Visit<E>) -> Result<(), E> {
    let letters = alphabet();
    let forms = counted(piles::forms());
    let chains = counted(chains::all());
    let mut word = String::new();
    let mut done = 0;
    while done < count {
        let front = 1 + random.below(2);
        let (chain, length) = random.pick(&chains);
        let mut characters = front + length;
        word.clear();
        word.extend((0..front).map(|_| random.pick(&letters)));
        while characters < LEAST {
            let (form, length) = random.pick(&forms);
            word.push_str(form);
            characters += length;
        }
        word.push_str(chain);
        if characters <= MOST {
            visit(&word)?;
            done += 1;
        }
    }
    Ok(())
}

// Texts, each with the number of its characters.
fn counted(texts: Vec<String>) -> Vec<(String, usize)> {
    let count = |text: String| {
        let length = text.chars().count();
        (text, length)
    };
    texts.into_iter().map(count).collect()
}

#[cfg(test)]
mod tests {
    use super::*;

    #[test]
    fn lengths_are_near_sixteen() {
        let mut counts = [0; MOST + 1];
        let _: Result<(), ()> = each(1000, Random::new(1, 6), &mut |word| {
            counts[word.chars().count()] += 1;
            Ok(())
        });
        assert!(counts[LEAST..].iter().all(|&count| count > 100));
        assert_eq!(counts[LEAST..].iter().sum::<usize>(), 1000);
    }
}
