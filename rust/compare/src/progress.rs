//! Progress on standard error, for a part that runs long.

use std::io::{stderr, IsTerminal, Write};
use std::sync::Mutex;
use std::time::{Duration, Instant};

const FIRST: Duration = Duration::from_secs(2);

/// The running count of one part, shown now and then; the threads of a part share it.
pub struct Progress {
    part: &'static str,
    terminal: bool,
    count: Mutex<Count>,
}

struct Count {
    words: u64,
    comparisons: u64,
    next: Instant,
    shown: bool,
}

impl Progress {
    pub fn new(part: &'static str) -> Progress {
        Progress {
            part,
            terminal: stderr().is_terminal(),
            count: Mutex::new(Count {
                words: 0,
                comparisons: 0,
                next: Instant::now() + FIRST,
                shown: false,
            }),
        }
    }

    /// So many more words and comparisons are done.
    pub fn add(&self, words: u64, comparisons: u64) {
        let Ok(mut count) = self.count.lock() else {
            return;
        };
        count.words += words;
        count.comparisons += comparisons;
        if Instant::now() >= count.next {
            self.show(&mut count);
        }
    }

    // One line that is written over on a terminal, a line every five seconds elsewhere. A
    // standard error that cannot be written is no reason to stop.
    fn show(&self, count: &mut Count) {
        let line = format!(
            "{}: {} words, {} comparisons ..",
            self.part, count.words, count.comparisons
        );
        let _ = if self.terminal {
            write!(stderr(), "\r{line}")
        } else {
            writeln!(stderr(), "{line}")
        };
        count.shown = true;
        count.next = Instant::now() + Duration::from_secs(if self.terminal { 1 } else { 5 });
    }
}

impl Drop for Progress {
    // Leaves the terminal's line empty for what is printed next.
    fn drop(&mut self) {
        if self.terminal && self.count.get_mut().is_ok_and(|count| count.shown) {
            let _ = write!(stderr(), "\r{:79}\r", "");
        }
    }
}
