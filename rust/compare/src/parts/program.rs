//! The program stemlist as a child process, its whole output held to the oracle's listing byte by
//! byte. Each line is one comparison.

use crate::child::{self, Feed, Input};
use crate::listed::{Held, List};
use crate::report::{Difference, Report};
use crate::words::damaged::EDGE_BYTES;
use crate::words::headings::{self, capitals};
use crate::words::random::Random;
use crate::words::Words;
use fannavy::LIMIT;
use std::path::Path;
use std::time::Duration;

// A program that gives neither output nor its end for so long hangs.
const PATIENCE: Duration = Duration::from_secs(60);
// Lists are fed one after the other, each of about so many bytes.
const LIST: usize = 4 << 20;
// Writes of a size that ends neither with a character nor with one of the reader's own blocks.
const WRITES: [Feed; 6] = [
    Feed::Packets(7),
    Feed::Pipe(7),
    Feed::Packets(4095),
    Feed::Pipe(4095),
    Feed::Pipe(65_535),
    Feed::Pipe(65_537),
];
// One line in so many is fed byte by byte.
const FEWER: usize = 8;
const WHOLE: Feed = Feed::Pipe(1 << 16);
// A line longer than any block.
const VERY_LONG: usize = 10_000_000;
const RANDOM: usize = 4_000_000;
const STREAM: usize = 300_000_000;
// Some words of each source for the lists that are fed more than once.
const SOME: usize = 2000;

pub fn run(words: &Words, program: &Path, report: &mut Report) -> Result<(), Difference> {
    let mut runs = Runs { program, report };
    runs.all_words(words)?;
    let mixed = mixed(words);
    runs.in_writes(&mixed)?;
    runs.headings(&mixed)?;
    runs.lengths()?;
    runs.random_bytes(words.random(8))?;
    runs.stream(words, mixed)
}

struct Runs<'a> {
    program: &'a Path,
    report: &'a mut Report,
}

impl Runs<'_> {
    // One run of the program over a list.
    fn hold(
        &mut self,
        name: &str,
        list: &List,
        times: usize,
        feed: Feed,
    ) -> Result<(), Difference> {
        let input = Input {
            bytes: &list.input,
            times,
            feed,
        };
        let mut held = Held::new(list, times);
        let mut told = 0;
        let outcome = child::run(self.program, list.arguments, input, PATIENCE, |block| {
            let go_on = held.take(block);
            self.report.lines(held.lines() - told);
            told = held.lines();
            go_on
        });
        let end = held.end(name);
        let Err(message) = outcome else { return end };
        // A program that ends badly or hangs may also lack output.
        Err(match end {
            Ok(()) => {
                let well = "ends well and silent".to_string();
                Difference::new(name.to_string(), Vec::new(), message, well)
            }
            Err(difference) => difference.and(&message),
        })
    }

    fn once(&mut self, name: &str, input: Vec<u8>) -> Result<(), Difference> {
        self.hold(name, &List::new(input), 1, WHOLE)
    }

    // Every word that is text, nouns, and every byte string.
    fn all_words(&mut self, words: &Words) -> Result<(), Difference> {
        let mut list = Vec::new();
        let mut number = 0;
        let mut add = |word: &[u8]| {
            list.extend_from_slice(word);
            list.push(b'\n');
            if list.len() < LIST {
                return Ok(());
            }
            number += 1;
            self.once(
                &format!("list {number} of words"),
                std::mem::take(&mut list),
            )
        };
        words.for_nouns(&mut |word| add(word.as_bytes()))?;
        words.byte_strings(&mut add)?;
        self.once("last list of words", list)
    }

    // The same list in writes of several sizes, its last line closed and unclosed, and part of it
    // byte by byte.
    fn in_writes(&mut self, mixed: &[u8]) -> Result<(), Difference> {
        for last in ["", "evler"] {
            let list = List::new([mixed, last.as_bytes()].concat());
            for feed in WRITES {
                self.hold(&format!("a list by {feed:?}"), &list, 1, feed)?;
            }
            let lines = mixed.split_inclusive(|&byte| byte == b'\n');
            let mut fewer = lines.step_by(FEWER).collect::<Vec<_>>().concat();
            fewer.extend_from_slice(last.as_bytes());
            let list = List::new(fewer);
            self.hold("a list byte by byte", &list, 1, Feed::Packets(1))?;
        }
        Ok(())
    }

    // Headings, which the program folds, and the mixed list as it is and in capitals, in writes of two
    // sizes.
    fn headings(&mut self, mixed: &[u8]) -> Result<(), Difference> {
        let mut list = mixed.to_vec();
        list.extend_from_slice(capitals(&String::from_utf8_lossy(mixed)).as_bytes());
        let mut add = |word: &str| {
            list.extend_from_slice(word.as_bytes());
            list.push(b'\n');
            Ok(())
        };
        headings::each(&mut add)?;
        headings::each_run(&mut add)?;
        let list = List::folded(list);
        self.hold("a list of headings", &list, 1, WHOLE)?;
        self.hold("a list of headings by sevens", &list, 1, Feed::Pipe(7))
    }

    // Lines of every length up to a byte past the limit, and a very long one, of several make-ups, by
    // themselves and beside others, closed and unclosed.
    fn lengths(&mut self) -> Result<(), Difference> {
        self.once("no input", Vec::new())?;
        for length in (0..=LIMIT + 1).chain([VERY_LONG]) {
            for (filler, last) in [("a", "r"), ("ı", ""), ("\u{20061}", "\t"), ("\0", "\r")] {
                let mut line = filler.repeat(length / filler.len() + 1).into_bytes();
                // Where no whole character fits, the line is no text.
                line.truncate(length.saturating_sub(last.len()));
                line.extend(last.bytes().take(length));
                for (before, after) in [("", ""), ("", "\n"), ("evler\n", ""), ("\n", "\nsiniz")] {
                    let name = format!(
                        "{length} bytes of {filler:?} and {last:?} between {before:?} and {after:?}"
                    );
                    let input = [before.as_bytes(), &line, after.as_bytes()].concat();
                    self.once(&name, input)?;
                }
            }
        }
        Ok(())
    }

    // Any bytes, and bytes that make more lines, more tabs and more text.
    fn random_bytes(&mut self, mut random: Random) -> Result<(), Difference> {
        let any = (0..RANDOM).map(|_| random.draw() as u8).collect();
        self.once("random bytes", any)?;
        let mut bytes = Vec::with_capacity(RANDOM + 4);
        while bytes.len() < RANDOM {
            match random.below(40) {
                0..4 => bytes.push(b'\n'),
                4 => bytes.push(b'\t'),
                5 => bytes.push(*random.pick(&EDGE_BYTES)),
                6..16 => bytes.extend_from_slice(random.pick(&["ı", "ğ", "ş", "乡"]).as_bytes()),
                _ => bytes.push(*random.pick(b"aeiuydlrmnksz")),
            }
        }
        self.once("random lines", bytes)
    }

    // More than any block or counter of a program that does not go on and on.
    fn stream(&mut self, words: &Words, mixed: Vec<u8>) -> Result<(), Difference> {
        let mut input = mixed;
        for word in words.vocabulary() {
            input.extend_from_slice(word.as_bytes());
            input.push(b'\n');
        }
        let list = List::new(input);
        let times = STREAM.div_ceil(list.input.len());
        self.hold("a long stream", &list, times, WHOLE)
    }
}

// Some words of each source, and words with bytes that a reader of lines might take for something
// else; every line is closed.
fn mixed(words: &Words) -> Vec<u8> {
    let mut list = Vec::new();
    let added: Result<(), ()> = words.some(SOME, &mut |word| {
        list.extend_from_slice(word);
        list.push(b'\n');
        Ok(())
    });
    debug_assert!(added.is_ok());
    for odd in [
        "\t", "\0", "\r", "\u{FEFF}", "\n", "\n\n", "\r\n\t", " ", "\u{2028}",
    ] {
        for word in ["", "ev", "evler", "kanaddır", "arabayken", "adakina"] {
            list.extend_from_slice(format!("{odd}{word}\n{word}{odd}\na{odd}a{word}\n").as_bytes());
        }
    }
    list
}
