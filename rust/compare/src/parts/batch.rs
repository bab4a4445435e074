//! The batch: each entry held to the crate's suffix stage on the joined word, and its refusals to the rule.

use crate::lent::Lent;
use crate::report::{Difference, Report};
use crate::share::{share_out, Stop};
use crate::tails::{self, tails};
use crate::tray::{Entry, Tray};
use crate::words::batches::{Batch, Visit};
use crate::words::refused_batches;
use crate::words::Words;
use fannavy::TAILS;
use std::str::from_utf8;

type Outcome = Result<(), Difference>;
type Rooms = [usize; 3];
type Number<'a> = &'a (dyn Fn(&[u8], &[u8], Rooms) -> u32 + Sync);
type Stage<'a> = &'a (dyn Fn(&str, &str) -> Entry + Sync);

// Sizes of the three buffers: just enough, and more; one too few in each.
const ENOUGH: [Rooms; 2] = [[TAILS; 3], [TAILS + 1, TAILS + 6, 2 * TAILS]];
const AROUND: [Rooms; 5] = [
    [TAILS; 3],
    [TAILS - 1, TAILS, TAILS],
    [TAILS, TAILS - 1, TAILS],
    [TAILS, TAILS, TAILS - 1],
    [TAILS + 1; 3],
];

// In the call's place: the number of a batch, and the entry of a front and a tail.
#[derive(Clone, Copy)]
struct Rust<'a> {
    number: Number<'a>,
    stage: Stage<'a>,
}

const RUST: Rust = Rust {
    number: &tails::number,
    stage: &stage,
};

pub fn run(words: &Words, report: &mut Report) -> Outcome {
    entries(words, report, RUST)?;
    refusals(words, report, RUST)
}

fn entries(words: &Words, report: &mut Report, rust: Rust) -> Outcome {
    let batches = |visit: Visit<_>| words.batches(visit);
    on_batches(batches, report, Lent::among_vowels, &ENOUGH, rust)
}

fn refusals(words: &Words, report: &mut Report, rust: Rust) -> Outcome {
    on_batches(
        refused_batches::each_cause,
        report,
        Lent::new,
        &all_rooms(),
        rust,
    )?;
    let batches = |visit: Visit<_>| words.refused_batches(visit);
    on_batches(batches, report, Lent::new, &AROUND, rust)
}

// Every three sizes of buffers.
fn all_rooms() -> Vec<Rooms> {
    let sizes = [0, 1, TAILS - 1, TAILS, TAILS + 1, 3 * TAILS];
    let pairs = sizes.into_iter().flat_map(|l| sizes.map(|a| (l, a)));
    pairs.flat_map(|(l, a)| sizes.map(|f| [l, a, f])).collect()
}

// The crate's stage of the joined word.
#[cfg(feature = "oracle")]
fn stage(front: &str, tail: &str) -> Entry {
    let word = [front, tail].concat();
    let rust = oracle::stem_nominal_verb_suffixes(&word);
    entry(rust.text.len(), rust.yes, rust.flag)
}

// Without the crate, the archive's own call on it.
#[cfg(not(feature = "oracle"))]
fn stage(front: &str, tail: &str) -> Entry {
    let word = [front, tail].concat();
    let own = fannavy::stage(word.as_bytes()).expect("a word that is not refused");
    entry(own.kept.len(), own.yes, own.flag)
}

fn entry(kept: usize, yes: bool, flag: bool) -> Entry {
    let kept = u8::try_from(kept).expect("a word within the limit");
    [kept, yes.into(), flag.into()]
}

// Each batch with buffers of each of these sizes gives what the Rust gives.
fn on_batches(
    source: impl Fn(Visit<Stop>) -> Result<(), Stop> + Sync,
    report: &mut Report,
    lent: fn(&[u8]) -> Lent,
    rooms: &[Rooms],
    rust: Rust,
) -> Outcome {
    share_out(source, report, || {
        let mut tray = Tray::new(lent);
        move |batch: &Batch, report: &mut Report| {
            tray.set(batch);
            let entries = told(batch, rust);
            for &rooms in rooms {
                let expected = match (rust.number)(&batch.front, &batch.slice, rooms) {
                    0 => Ok(&entries[..]),
                    number => Err(number),
                };
                tray.gives(rooms, expected, report)?;
            }
            tray.done(report)
        }
    })
}

// The entries of a batch; none where it is refused whatever the buffers.
fn told(batch: &Batch, rust: Rust) -> Vec<Entry> {
    let Batch { front, slice } = batch;
    if tails::number(front, slice, [TAILS; 3]) != 0 {
        return Vec::new();
    }
    let text = |bytes| from_utf8(bytes).expect("what is not refused is text");
    let entry = |tail| (rust.stage)(text(front), text(tail));
    tails(slice).map(entry).collect()
}

#[cfg(test)]
mod tests {
    use super::*;
    use crate::words::letters::VOWELS;
    use crate::words::Sizes;
    use fannavy::{LIMIT, TAIL_LEAST};

    fn words() -> Words {
        let sizes = Sizes {
            random: 10_000,
            ..Sizes::default()
        };
        Words::new(None, sizes).expect("no vocabulary, no message")
    }

    // Whether another stage in the Rust's place is noticed.
    fn stage_differs(stage: Stage) -> bool {
        let rust = Rust { stage, ..RUST };
        entries(&words(), &mut Report::new("test"), rust).is_err()
    }

    // The stage behind another front, as much kept more as that one is shorter.
    fn behind(other: &str, front: &str, tail: &str) -> Entry {
        let [kept, yes, flag] = stage(other, tail);
        let kept = usize::from(kept) + front.len() - other.len();
        [kept as u8, yes, flag]
    }

    #[test]
    fn the_rule_agrees() {
        assert!(!stage_differs(&stage));
        assert!(refusals(&words(), &mut Report::new("test"), RUST).is_ok());
    }

    #[test]
    fn another_front_is_noticed() {
        let last = |front: &str| front.rfind(|ch| VOWELS.contains(ch));
        assert!(stage_differs(&|front, tail| behind("", front, tail)));
        // The last vowel alone, all but the last, and what stands near.
        assert!(stage_differs(&|front, tail| {
            behind(last(front).map_or("", |place| &front[place..]), front, tail)
        }));
        assert!(stage_differs(&|front, tail| {
            behind(last(front).map_or("", |place| &front[..place]), front, tail)
        }));
        assert!(stage_differs(&|front, tail| {
            let far = front.char_indices().rev().nth(50);
            behind(far.map_or(front, |(place, _)| &front[place..]), front, tail)
        }));
        for vowel in VOWELS.chars() {
            let without = |front: &str, tail: &str| {
                let place = last(front).unwrap_or(0);
                let before = front[..place].replace(vowel, "");
                behind(&[&before, &front[place..]].concat(), front, tail)
            };
            assert!(stage_differs(&without), "{vowel} before the last vowel");
        }
    }

    #[test]
    fn another_entry_is_noticed() {
        type Change = fn(&str, &str, Entry) -> Entry;
        let changes: [(&str, Change); 5] = [
            ("characters", |front, tail, [kept, yes, flag]| {
                let word = [front, tail].concat();
                let kept = word[..usize::from(kept)].chars().count();
                [kept as u8, yes, flag]
            }),
            ("the tail's bytes", |front, _, [kept, yes, flag]| {
                [kept - front.len() as u8, yes, flag]
            }),
            ("answers and flags", |_, _, [kept, yes, flag]| {
                [kept, flag, yes]
            }),
            ("always yes", |_, _, [kept, _, flag]| [kept, 1, flag]),
            ("always true", |_, _, [kept, yes, _]| [kept, yes, 1]),
        ];
        for (what, change) in changes {
            let stage = |front: &str, tail: &str| change(front, tail, stage(front, tail));
            assert!(stage_differs(&stage), "{what}");
        }
    }

    #[test]
    fn another_refusal_is_noticed() {
        type Rule = fn(&[u8], &[u8], Rooms) -> u32;
        // The first tails, as one that looks at no more would see them.
        fn first(slice: &[u8], count: usize) -> Vec<u8> {
            let lines = slice.split_inclusive(|&byte| byte == b'\n');
            lines.take(count).flatten().copied().collect()
        }
        let rules: [(&str, Rule); 9] = [
            ("3 before 6", |front, slice, rooms| {
                match tails::number(front, slice, rooms) {
                    6 if rooms.iter().any(|&room| room < TAILS) => 3,
                    number => number,
                }
            }),
            ("6 before 2", |front, slice, rooms| {
                match tails::number(front, slice, rooms) {
                    2 if tails(slice).count() > TAILS => 6,
                    number => number,
                }
            }),
            ("2 before 1", |front, slice, rooms| {
                match tails::number(front, slice, rooms) {
                    1 if from_utf8(front).is_err() => 2,
                    number => number,
                }
            }),
            (
                "the first 64 tails",
                |front, slice, rooms| match tails::number(front, &first(slice, TAILS), rooms) {
                    0 | 3 if tails(slice).count() > TAILS => 6,
                    number => number,
                },
            ),
            (
                "as many entries as tails",
                |front, slice, rooms| match tails::number(front, slice, rooms) {
                    3 if rooms.iter().all(|&room| room >= tails(slice).count()) => 0,
                    number => number,
                },
            ),
            (
                "bytes for characters",
                |front, slice, rooms| match tails::number(front, slice, rooms) {
                    6 if tails(slice).all(|tail| tail.len() >= TAIL_LEAST) => 0,
                    number => number,
                },
            ),
            (
                "front and tails alone",
                |front, slice, rooms| match tails::number(front, slice, rooms) {
                    1 if tails(slice).chain([front]).all(|word| word.len() <= LIMIT) => 0,
                    number => number,
                },
            ),
            ("joined words alone", |front, slice, rooms| {
                let mut joined = tails(slice).map(|tail| [front, tail].concat());
                match tails::number(front, slice, rooms) {
                    2 if joined.all(|word| from_utf8(&word).is_ok()) => 0,
                    number => number,
                }
            }),
            (
                "an empty tail more at the end",
                |front, slice, rooms| match tails::number(front, slice, rooms) {
                    0 | 3 if slice.ends_with(b"\n") => 6,
                    number => number,
                },
            ),
        ];
        for (what, number) in rules {
            let rust = Rust {
                number: &number,
                ..RUST
            };
            let outcome = refusals(&words(), &mut Report::new("test"), rust);
            assert!(outcome.is_err(), "{what}");
        }
    }
}
