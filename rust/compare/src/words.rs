//! The words that both sides are fed. Each source visits its words one by one, the same ones for the
//! same sizes, and stops at the visitor's first error.

pub mod batches;
pub mod chains;
pub mod damaged;
pub mod endings;
pub mod filled;
pub mod fronts;
pub mod headings;
pub mod letters;
pub mod links;
pub mod long;
pub mod named;
pub mod nouns;
pub mod odometer;
pub mod piles;
pub mod random;
pub mod refused_batches;
pub mod sixteen;
pub mod tails;

use random::Random;
use std::fs;
use std::path::Path;

// Random words are short; one for so many of them is of any length.
const SHORTER: usize = 6;
// A batch has up to 64 words; there is one for so many random words.
const BATCH: usize = 8;

/// What a source calls with each word that is text.
pub type Visit<'a, E> = &'a mut dyn FnMut(&str) -> Result<(), E>;

/// How many words of each source; see `--help`.
#[derive(Clone, Copy)]
pub struct Sizes {
    pub seed: u64,
    pub letters: usize,
    pub piles: usize,
    pub random: usize,
}

impl Default for Sizes {
    fn default() -> Sizes {
        Sizes {
            seed: 1,
            letters: 4,
            piles: 300_000,
            random: 300_000,
        }
    }
}

impl Sizes {
    /// Over 100 million words for each of the stages.
    pub fn long() -> Sizes {
        Sizes {
            seed: 1,
            letters: 5,
            piles: 22_000_000,
            random: 25_000_000,
        }
    }
}

pub struct Words {
    vocabulary: Vec<String>,
    // Snowball's stems of these words, or none.
    published: Vec<String>,
    sizes: Sizes,
}

impl Words {
    /// The error is a message about the vocabulary's file, or that of its stems.
    pub fn new(vocabulary: Option<&Path>, sizes: Sizes) -> Result<Words, String> {
        let (vocabulary, published) = match vocabulary {
            Some(path) => {
                let vocabulary = read_vocabulary(path)?;
                let published = read_published(path, vocabulary.len())?;
                (vocabulary, published)
            }
            None => (Vec::new(), Vec::new()),
        };
        Ok(Words {
            vocabulary,
            published,
            sizes,
        })
    }

    /// Every word that is text, source by source.
    pub fn texts<E>(&self, visit: Visit<E>) -> Result<(), E> {
        for word in &self.vocabulary {
            visit(word)?;
        }
        letters::each(self.sizes.letters, visit)?;
        piles::each(self.sizes.piles, self.random(1), visit)?;
        random::each(self.sizes.random, self.random(2), visit)?;
        long::each_random(self.sizes.random / SHORTER, self.random(12), visit)?;
        long::each(visit)
    }

    /// The words for the stages: every word that is text, and more that they tell apart.
    pub fn for_stages<E>(&self, visit: Visit<E>) -> Result<(), E> {
        self.texts(visit)?;
        named::each(visit)?;
        chains::each(visit)?;
        piles::each_of_four(self.sizes.piles, self.random(5), visit)?;
        sixteen::each(self.sizes.piles, self.random(6), visit)
    }

    /// Words for the noun stage: noun endings by themselves, in piles and in chains before ki.
    pub fn nouns<E>(&self, visit: Visit<E>) -> Result<(), E> {
        named::each_noun(visit)?;
        nouns::each(visit)?;
        nouns::each_pile(visit)?;
        nouns::each_random_pile(self.sizes.piles, self.random(9), visit)?;
        links::each(visit)?;
        links::each_random(self.sizes.piles, self.random(10), visit)?;
        long::each_chain(visit)
    }

    /// The words for the noun stage: every word that is text, and nouns.
    pub fn for_nouns<E>(&self, visit: Visit<E>) -> Result<(), E> {
        self.texts(visit)?;
        self.nouns(visit)
    }

    /// The words for the whole run: those for the stages, nouns, and nouns below the endings of a
    /// nominal verb.
    pub fn for_whole<E>(&self, visit: Visit<E>) -> Result<(), E> {
        self.for_stages(visit)?;
        self.nouns(visit)?;
        nouns::each_below_verb(visit)?;
        nouns::each_random_below_verb(self.sizes.piles, self.random(11), visit)
    }

    /// The words for the fold: those for the stages, random headings, and one letter over and over.
    pub fn for_fold<E>(&self, visit: Visit<E>) -> Result<(), E> {
        self.for_stages(visit)?;
        headings::each_random(self.sizes.random, self.random(8), visit)?;
        headings::each_run(visit)
    }

    /// Fronts and tails for the batch, none refused.
    pub fn batches<E>(&self, visit: batches::Visit<E>) -> Result<(), E> {
        batches::each_cut(&self.vocabulary, visit)?;
        batches::each_count(visit)?;
        batches::each_set(visit)?;
        batches::each_chain(visit)?;
        batches::each_random(self.sizes.random / BATCH, self.random(13), visit)
    }

    /// Fronts and tails of which most are refused.
    pub fn refused_batches<E>(&self, visit: batches::Visit<E>) -> Result<(), E> {
        refused_batches::each_pair(visit)?;
        refused_batches::each_length(visit)?;
        refused_batches::each_parted(visit)?;
        refused_batches::each_damaged(self.sizes.random / BATCH, self.random(14), visit)
    }

    /// Byte strings, most of which are no text: random bytes, and words with some bytes damaged.
    pub fn byte_strings<E>(&self, visit: &mut dyn FnMut(&[u8]) -> Result<(), E>) -> Result<(), E> {
        damaged::each_random(self.sizes.random, self.random(3), visit)?;
        damaged::each_word(&self.vocabulary, self.sizes.random, self.random(4), visit)
    }

    /// Some words of every kind: so many of each random source of short words, one in 16 of the
    /// vocabulary, and those made of every length.
    pub fn some<E>(
        &self,
        count: usize,
        visit: &mut dyn FnMut(&[u8]) -> Result<(), E>,
    ) -> Result<(), E> {
        let few = self.vocabulary.iter().step_by(16);
        for word in few {
            visit(word.as_bytes())?;
        }
        damaged::each_random(count, self.random(7), visit)?;
        damaged::each_word(&self.vocabulary, count, self.random(7), visit)?;
        let visit = &mut |word: &str| visit(word.as_bytes());
        piles::each_of_four(count, self.random(7), visit)?;
        sixteen::each(count, self.random(7), visit)?;
        nouns::each_random_pile(count, self.random(7), visit)?;
        nouns::each_random_below_verb(count, self.random(7), visit)?;
        links::each_random(count, self.random(7), visit)?;
        random::each(count, self.random(7), visit)?;
        long::each(visit)
    }

    pub fn vocabulary(&self) -> &[String] {
        &self.vocabulary
    }

    /// The vocabulary's words with the stems that Snowball published; none where these are not there.
    pub fn published(&self) -> impl Iterator<Item = (&str, &str)> {
        let stems = self.published.iter().map(String::as_str);
        self.vocabulary.iter().map(String::as_str).zip(stems)
    }

    /// A generator for each source, so that the size of one does not change the words of another.
    pub fn random(&self, source: u64) -> Random {
        Random::new(self.sizes.seed, source)
    }
}

// The stems beside the vocabulary, in output.txt as Snowball has them, where that is there.
fn read_published(vocabulary: &Path, count: usize) -> Result<Vec<String>, String> {
    let path = vocabulary.with_file_name("output.txt");
    if !path.is_file() {
        return Ok(Vec::new());
    }
    let stems = read_vocabulary(&path)?;
    match stems.len() {
        length if length == count => Ok(stems),
        length => Err(format!(
            "{}: {length} stems of {count} words",
            path.display()
        )),
    }
}

/// The words of a file, one to a line.
pub fn read_vocabulary(path: &Path) -> Result<Vec<String>, String> {
    let text = fs::read_to_string(path)
        .map_err(|error| format!("the vocabulary {}: {error}", path.display()))?;
    Ok(text.lines().map(str::to_string).collect())
}
