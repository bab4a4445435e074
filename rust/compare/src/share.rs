//! The words of a part shared out over the machine's cores.

use crate::report::{Difference, Report};
use std::panic::resume_unwind;
use std::sync::atomic::{AtomicU64, Ordering::Relaxed};
use std::thread;

// Threads take blocks of so many words in turn.
const BLOCK: u64 = 512;

/// A difference and the number of its word.
pub struct Found {
    number: u64,
    difference: Difference,
}

/// Why a thread stops before its last word: a difference, or one at an earlier word elsewhere.
pub type Stop = Option<Found>;

/// Runs over the words of a source on every core. Each thread goes through all of them and visits
/// those that are its own by their numbers, so that the counts and the first difference do not
/// depend on the threads.
pub fn share_out<W: ?Sized, V>(
    source: impl Fn(&mut dyn FnMut(&W) -> Result<(), Stop>) -> Result<(), Stop> + Sync,
    report: &mut Report,
    visitor: impl Fn() -> V + Sync,
) -> Result<(), Difference>
where
    V: FnMut(&W, &mut Report) -> Result<(), Difference>,
{
    let threads = thread::available_parallelism().map_or(1, |threads| threads.get() as u64);
    let first = AtomicU64::new(u64::MAX);
    let work = |share: u64, mut report: Report| {
        let mut visit = visitor();
        let mut words = 0;
        let outcome = source(&mut |word| {
            let number = words;
            words += 1;
            if number / BLOCK % threads != share {
                return Ok(());
            }
            if number > first.load(Relaxed) {
                return Err(None);
            }
            visit(word, &mut report).map_err(|difference| {
                first.fetch_min(number, Relaxed);
                Some(Found { number, difference })
            })
        });
        (report, outcome)
    };
    let outcomes: Vec<_> = thread::scope(|scope| {
        let spawn = |share| {
            let report = report.fork();
            let work = &work;
            scope.spawn(move || work(share, report))
        };
        let workers: Vec<_> = (0..threads).map(spawn).collect();
        let join = |worker: thread::ScopedJoinHandle<_>| {
            worker.join().unwrap_or_else(|panic| resume_unwind(panic))
        };
        workers.into_iter().map(join).collect()
    });
    gather(outcomes, report)
}

// Adds up the threads' counts; the difference is that of the earliest word.
fn gather(
    outcomes: Vec<(Report, Result<(), Stop>)>,
    report: &mut Report,
) -> Result<(), Difference> {
    let mut first: Option<Found> = None;
    for (thread, outcome) in outcomes {
        report.join(thread);
        if let Err(Some(found)) = outcome {
            if first
                .as_ref()
                .is_none_or(|first| found.number < first.number)
            {
                first = Some(found);
            }
        }
    }
    first.map_or(Ok(()), |found| Err(found.difference))
}

#[cfg(test)]
mod tests {
    use super::*;
    use crate::lent::Lent;

    const WORDS: u64 = 10 * BLOCK;

    // Visits the words "0", "1" .., of which those from `bad` on differ.
    fn run(bad: u64) -> (u64, Option<String>) {
        let mut report = Report::new("test");
        let source = |visit: &mut dyn FnMut(&str) -> Result<(), Stop>| {
            (0..WORDS).try_for_each(|number| visit(&number.to_string()))
        };
        let outcome = share_out(source, &mut report, || {
            let mut lent = Lent::new(b"");
            move |word: &str, report: &mut Report| {
                lent.set(word.as_bytes());
                let good = word.parse().is_ok_and(|number: u64| number < bad);
                report.same(&lent, word, good, true)
            }
        });
        let difference = outcome.err().map(|difference| difference.to_string());
        (report.comparisons(), difference)
    }

    #[test]
    fn every_word_is_visited_once() {
        assert_eq!(run(u64::MAX), (WORDS, None));
    }

    #[test]
    fn the_earliest_difference_is_given() {
        for bad in [0, 1, BLOCK - 1, BLOCK, 3 * BLOCK + 7, WORDS - 1] {
            let difference = run(bad).1.expect("a difference");
            assert!(
                difference.contains(&format!("call     {bad}\n")),
                "{difference}"
            );
        }
    }
}
