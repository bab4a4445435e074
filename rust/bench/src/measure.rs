//! Times of the two sides over the same words, round by round in turn.

use crate::inputs::Input;
use crate::pairs::{Output, Pair};
use fannavy::{fold_room, LIMIT};
use std::array;
use std::hint::black_box;
use std::str::from_utf8;
use std::time::{Duration, Instant};

// A round goes over the words as often as it takes to see this many bytes.
const BYTES: usize = 2 << 20;

/// The median time of each side for one word, in nanoseconds.
pub struct Times {
    pub proved: f64,
    pub rust: f64,
    /// The Rust's where it takes text and a host has bytes, as for the proved side.
    pub from_bytes: Option<f64>,
}

/// Both sides over these words; the error is a message that they gave different answers.
pub fn measure(pair: &Pair, input: &Input, rounds: usize) -> Result<Times, String> {
    let from_bytes = |word: &str, output: &mut Output| {
        let text = from_utf8(word.as_bytes());
        text.map_or(0, |text| (pair.rust)(text, output))
    };
    let sides: [&Side; 3] = [&pair.proved, &pair.rust, &from_bytes];
    let passes = passes(input.bytes());
    let times = in_turn(rounds, |side| time(sides[side], &input.words, passes))
        .ok_or_else(|| format!("{} on {}: the answers differ", pair.name, input.name))?;
    let words = (input.words.len() * passes) as f64;
    let [proved, rust, from_bytes] = times.map(|time| time / words);
    Ok(Times {
        proved,
        rust,
        from_bytes: pair.takes_text.then_some(from_bytes),
    })
}

/// How often a round goes over so many bytes.
pub fn passes(bytes: usize) -> usize {
    BYTES.div_ceil(bytes.max(1))
}

/// The median time of each side in nanoseconds over this many rounds, after one that is not counted.
/// `time` gives the time of a side and the sum of its answers; none where the sums differ.
pub fn in_turn<const N: usize>(
    rounds: usize,
    time: impl Fn(usize) -> (Duration, usize),
) -> Option<[f64; N]> {
    let mut times = [(); N].map(|()| Vec::new());
    for round in 0..=rounds {
        let measured: [_; N] = array::from_fn(&time);
        if measured.iter().any(|(_, sum)| *sum != measured[0].1) {
            return None;
        }
        if round > 0 {
            for (times, (time, _)) in times.iter_mut().zip(measured) {
                times.push(time);
            }
        }
    }
    Some(times.map(median))
}

type Side<'a> = dyn Fn(&str, &mut Output) -> usize + 'a;

// The time of some passes over the words, and the sum of the answers.
fn time(call: &Side, words: &[String], passes: usize) -> (Duration, usize) {
    let mut output: Output = [0; fold_room(LIMIT)];
    let mut sum = 0usize;
    let start = Instant::now();
    for _ in 0..passes {
        for word in words {
            sum = sum.wrapping_add(black_box(call(black_box(word), &mut output)));
        }
    }
    (start.elapsed(), sum)
}

/// In nanoseconds.
pub fn median(mut times: Vec<Duration>) -> f64 {
    times.sort_unstable();
    times[times.len() / 2].as_nanos() as f64
}
