//! A list of words and the oracle's listing of it, to which a program's output is held byte by byte.

use crate::folded::folded;
use crate::report::Difference;
use fannavy::LIMIT;

// As much of a wrong line as is shown.
const WRONG: usize = 8192;

/// The bytes of a list, its listing, and the arguments that ask for it.
pub struct List {
    pub input: Vec<u8>,
    pub arguments: &'static [&'static str],
    listing: Vec<u8>,
}

impl List {
    pub fn new(input: Vec<u8>) -> List {
        let listing = listing(&input);
        List {
            input,
            arguments: &[],
            listing,
        }
    }

    /// The words listed as their folded forms; those that the fold refuses, as they stand.
    pub fn folded(input: Vec<u8>) -> List {
        let lines: Vec<_> = input.split(|&byte| byte == b'\n').map(small).collect();
        List {
            listing: listing(&lines.join(&b'\n')),
            arguments: &["--fold"],
            input,
        }
    }
}

fn listing(input: &[u8]) -> Vec<u8> {
    let mut listing = Vec::with_capacity(4 * input.len());
    listing::list(input, &mut listing).expect("memory can be written");
    listing
}

fn small(word: &[u8]) -> Vec<u8> {
    match str::from_utf8(word) {
        Ok(text) if word.len() <= LIMIT => folded(text).into_bytes(),
        _ => word.to_vec(),
    }
}

/// An output as far as it is there, beside the listing of a list so many times over.
pub struct Held<'a> {
    list: &'a List,
    total: usize,
    // How many bytes agreed, and how many lines are closed in them.
    seen: usize,
    lines: u64,
    // The rest of the first wrong line, from the first wrong byte on.
    wrong: Option<Vec<u8>>,
}

impl Held<'_> {
    pub fn new(list: &List, times: usize) -> Held<'_> {
        Held {
            list,
            total: list.listing.len() * times,
            seen: 0,
            lines: 0,
            wrong: None,
        }
    }

    /// How many lines agreed.
    pub fn lines(&self) -> u64 {
        self.lines
    }

    /// Takes more output; false where no more is needed, since a whole line is wrong.
    pub fn take(&mut self, mut block: &[u8]) -> bool {
        while self.wrong.is_none() && !block.is_empty() {
            let expected = self.expected();
            let length = block.len().min(expected.len());
            let same = agreement(&block[..length], &expected[..length]);
            let closed = block[..same].iter().filter(|&&byte| byte == b'\n');
            self.lines += closed.count() as u64;
            self.seen += same;
            block = &block[same..];
            if same < length || length == 0 {
                self.wrong = Some(Vec::new());
            }
        }
        let Some(wrong) = &mut self.wrong else {
            return true;
        };
        for &byte in block {
            if byte == b'\n' || wrong.len() == WRONG {
                return false;
            }
            wrong.push(byte);
        }
        true
    }

    /// Whether the output, which has ended, was all of the listing and no more.
    pub fn end(&self, run: &str) -> Result<(), Difference> {
        if self.wrong.is_none() && self.seen == self.total {
            return Ok(());
        }
        let at = format!("{run}, line {}", self.lines + 1);
        let shown = |line: &[u8]| format!("{:?}", String::from_utf8_lossy(line));
        let wrong = self.wrong.as_deref().unwrap_or_default();
        if self.seen == self.total {
            let none = "no more lines".to_string();
            return Err(Difference::new(at, Vec::new(), shown(wrong), none));
        }
        let place = self.place();
        let lines = self.list.listing[..place].iter();
        let number = lines.filter(|&&byte| byte == b'\n').count();
        let line = nth(&self.list.listing, number);
        let start = line.as_ptr() as usize - self.list.listing.as_ptr() as usize;
        let proved = [&self.list.listing[start..place], wrong].concat();
        let ends = if self.wrong.is_none() {
            " and no more output"
        } else {
            ""
        };
        let word = nth(&self.list.input, number).to_vec();
        let proved = format!("{}{ends}", shown(&proved));
        Err(Difference::new(at, word, proved, shown(line)))
    }

    // Where in the listing the next byte stands.
    fn place(&self) -> usize {
        self.seen % self.list.listing.len()
    }

    // The rest of the listing; nothing where all of it is there.
    fn expected(&self) -> &[u8] {
        if self.seen == self.total {
            return &[];
        }
        &self.list.listing[self.place()..]
    }
}

// How many first bytes agree, of two slices of one length.
fn agreement(one: &[u8], other: &[u8]) -> usize {
    if one == other {
        return one.len();
    }
    one.iter().zip(other).take_while(|(a, b)| a == b).count()
}

// The line of this number, from 0.
fn nth(lines: &[u8], number: usize) -> &[u8] {
    let mut lines = lines.split(|&byte| byte == b'\n');
    lines.nth(number).unwrap_or_default()
}

#[cfg(test)]
mod tests {
    use super::*;

    const GOOD: &str = "ev\tN\tN\t1\tev\tev\tev\nevler\tY\tY\t0\tev\tev\tev\n";

    // The report of an output that comes in blocks of each size.
    fn report(times: usize, output: &str) -> Option<String> {
        let list = List::new(b"ev\nevler\n".to_vec());
        let reports = [1, 2, 7, 1000].map(|size| {
            let mut held = Held::new(&list, times);
            output.as_bytes().chunks(size).all(|block| held.take(block));
            held.end("test").err().map(|found| found.to_string())
        });
        assert!(reports.iter().all(|report| *report == reports[0]));
        reports.into_iter().next().flatten()
    }

    fn reported(times: usize, output: &str, what: &str) {
        let report = report(times, output).expect("a difference");
        assert!(report.contains(what), "{report}");
    }

    #[test]
    fn words_are_folded_but_those_that_are_refused() {
        let long = "İ".repeat(LIMIT / 2 + 1);
        let folded = List::folded(format!("EV\nevler\n{long}\na\tB").into_bytes());
        let want = format!("{GOOD}!\t1\n!\t4\n");
        assert_eq!(String::from_utf8(folded.listing).as_deref(), Ok(&*want));
    }

    #[test]
    fn the_listing_agrees() {
        assert_eq!(report(1, GOOD), None);
        assert_eq!(report(3, &GOOD.repeat(3)), None);
        assert_eq!(report(0, ""), None);
    }

    #[test]
    fn the_first_wrong_line_is_given() {
        let wrong = GOOD.replace("\tev\n", "\teb\n");
        reported(1, &wrong, "test, line 1\n");
        reported(1, &wrong, "bytes    65 76 (2)");
        reported(1, &wrong, r#"Fannavy  "ev\tN\tN\t1\tev\tev\teb""#);
        reported(1, &wrong, r#"Rust     "ev\tN\tN\t1\tev\tev\tev""#);
        reported(3, &[GOOD, &wrong].concat(), "test, line 3\n");
        let wrong = GOOD.replace("Y\t0", "Y\t1");
        reported(2, &[GOOD, &wrong].concat(), "test, line 4\n");
        reported(1, &wrong, r#""evler\tY\tY\t1\tev\tev\tev""#);
        let shorter = GOOD.replace("0\tev\tev\tev", "0\tev\tev\te");
        reported(1, &shorter, r#""evler\tY\tY\t0\tev\tev\te""#);
        let fewer = GOOD.replace("0\tev\tev\tev", "0\tev\tev");
        reported(1, &fewer, r#""evler\tY\tY\t0\tev\tev""#);
    }

    #[test]
    fn too_little_and_too_much_is_seen() {
        reported(1, "", r#""" and no more output"#);
        reported(1, &GOOD[..GOOD.len() - 1], "line 2\n");
        reported(2, GOOD, "test, line 3\n");
        reported(1, &[GOOD, "ev\n"].concat(), "no more lines");
        reported(0, "\n", "no more lines");
    }
}
