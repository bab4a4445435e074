//! What a part found: its count of comparisons, and the first word on which the two sides differ.

use crate::lent::Lent;
use crate::output::Output;
use crate::progress::Progress;
use std::fmt::{self, Debug, Display, Formatter};
use std::sync::Arc;

// Progress is told once in so many words.
const WORDS: u64 = 256;
// As many bytes of a word as are shown; a longer one is cut.
const SHOWN: usize = 2000;

/// The first difference of a part: which call, on which word, with both answers.
pub struct Difference {
    call: String,
    word: Vec<u8>,
    proved: String,
    rust: String,
}

impl Difference {
    /// What `call` names differs on a word; both answers as they are shown.
    pub fn new(call: String, word: Vec<u8>, proved: String, rust: String) -> Difference {
        Difference {
            call,
            word,
            proved,
            rust,
        }
    }

    /// More to be said about the proved side.
    pub fn and(mut self, message: &str) -> Difference {
        self.proved = format!("{}; {message}", self.proved);
        self
    }
}

impl Display for Difference {
    fn fmt(&self, f: &mut Formatter) -> fmt::Result {
        let shown = &self.word[..self.word.len().min(SHOWN)];
        let more = if shown.len() < self.word.len() {
            " .."
        } else {
            ""
        };
        let hex: Vec<String> = shown.iter().map(|b| format!("{b:02x}")).collect();
        let text = String::from_utf8_lossy(shown);
        writeln!(f, "  call     {}", self.call)?;
        writeln!(
            f,
            "  bytes    {}{more} ({})",
            hex.join(" "),
            self.word.len()
        )?;
        writeln!(f, "  as text  {text:?}{more}")?;
        writeln!(f, "  Fannavy  {}", self.proved)?;
        write!(f, "  Rust     {}", self.rust)
    }
}

/// A part's running count.
pub struct Report {
    comparisons: u64,
    words: u64,
    told: u64,
    progress: Arc<Progress>,
}

impl Report {
    pub fn new(part: &'static str) -> Report {
        Report::on(Arc::new(Progress::new(part)))
    }

    /// A count from 0 for a thread of the same part.
    pub fn fork(&self) -> Report {
        Report::on(self.progress.clone())
    }

    /// Takes over the count of a thread.
    pub fn join(&mut self, thread: Report) {
        self.comparisons += thread.comparisons;
    }

    pub fn comparisons(&self) -> u64 {
        self.comparisons
    }

    /// Counts one comparison of two answers; `call` names it where they differ.
    pub fn same<T: PartialEq + Debug>(
        &mut self,
        lent: &Lent,
        call: impl Display,
        proved: T,
        rust: T,
    ) -> Result<(), Difference> {
        self.comparisons += 1;
        if proved == rust {
            return Ok(());
        }
        Err(Difference {
            call: call.to_string(),
            word: lent.word().to_vec(),
            proved: format!("{proved:?}"),
            rust: format!("{rust:?}"),
        })
    }

    /// Counts lines of an output that agree.
    pub fn lines(&mut self, count: u64) {
        self.comparisons += count;
        self.progress.add(count, count);
    }

    /// What was lent must be as it was.
    pub fn untouched(&self, lent: &Lent) -> Result<(), Difference> {
        if lent.is_untouched() {
            return Ok(());
        }
        Err(Difference {
            call: "lent bytes after the calls".to_string(),
            word: lent.word().to_vec(),
            proved: "the word or a guard byte beside it was changed".to_string(),
            rust: "unchanged".to_string(),
        })
    }

    /// After a call that gave an answer of `length` bytes nothing else may have changed.
    pub fn stays(
        &self,
        lent: &Lent,
        call: impl Display,
        output: &Output,
        length: usize,
    ) -> Result<(), Difference> {
        self.untouched(lent)?;
        if output.stays_past(length) {
            return Ok(());
        }
        Err(Difference {
            call: call.to_string(),
            word: lent.word().to_vec(),
            proved: format!(
                "changed outside the answer: {:?}",
                output.changes_past(length)
            ),
            rust: "unchanged".to_string(),
        })
    }

    /// Ends a word.
    pub fn done(&mut self, lent: &Lent) -> Result<(), Difference> {
        self.words += 1;
        if self.words.is_multiple_of(WORDS) {
            self.progress.add(WORDS, self.comparisons - self.told);
            self.told = self.comparisons;
        }
        self.untouched(lent)
    }

    fn on(progress: Arc<Progress>) -> Report {
        Report {
            comparisons: 0,
            words: 0,
            told: 0,
            progress,
        }
    }
}
