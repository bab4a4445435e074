//! The program stemlist beside an equal one in Rust, this one run again with `--list`: both read the
//! same file and write to /dev/null.

use crate::measure::median;
use std::fs::{self, File};
use std::io::{stdin, stdout, BufReader, BufWriter};
use std::path::{Path, PathBuf};
use std::process::{Command, Stdio};
use std::time::{Duration, Instant};
use std::{env, io};

/// The argument that makes this program the Rust one.
pub const LIST: &str = "--list";
// The vocabulary is repeated to about so many bytes.
const BYTES: usize = 20_000_000;
const ROUNDS: usize = 7;
const BUFFER: usize = 1 << 16;

/// Lists standard input on standard output by the crate's own stages, each once for a word.
pub fn list() -> io::Result<()> {
    let input = BufReader::with_capacity(BUFFER, stdin().lock());
    let output = BufWriter::with_capacity(BUFFER, stdout().lock());
    listing::list(input, output)
}

/// The table of both programs, in Markdown; the error is a message.
pub fn table(program: &Path, vocabulary: &Path) -> Result<String, String> {
    let said = |error: io::Error| format!("the programs: {error}");
    let rust = env::current_exe().map_err(said)?;
    // Beside this program, in cargo's folder.
    let file = rust.with_extension("words");
    let words = fs::read(vocabulary).map_err(said)?;
    let times = BYTES.div_ceil(words.len().max(1));
    fs::write(&file, words.repeat(times)).map_err(said)?;
    let sides = [command(program, &[]), command(&rust, &[LIST])];
    let measured = measure(sides, vocabulary, &file).map_err(said);
    let _ = fs::remove_file(&file);
    let lines = words.iter().filter(|&&byte| byte == b'\n').count() * times;
    Ok(lay_out(measured??, words.len() * times, lines))
}

struct Side {
    program: PathBuf,
    arguments: &'static [&'static str],
}

fn command(program: &Path, arguments: &'static [&'static str]) -> Side {
    Side {
        program: program.to_path_buf(),
        arguments,
    }
}

impl Side {
    fn reading(&self, file: &Path) -> io::Result<Command> {
        let mut command = Command::new(&self.program);
        command.args(self.arguments).stdin(File::open(file)?);
        Ok(command)
    }
}

// The median time of each side in nanoseconds, or that their listings differ.
fn measure(
    sides: [Side; 2],
    vocabulary: &Path,
    file: &Path,
) -> io::Result<Result<[f64; 2], String>> {
    let [one, other] = &sides;
    let listing = |side: &Side| side.reading(vocabulary)?.output();
    if listing(one)?.stdout != listing(other)?.stdout {
        return Ok(Err("the programs: the listings differ".to_string()));
    }
    let mut times: [Vec<Duration>; 2] = Default::default();
    for round in 0..=ROUNDS {
        for (side, times) in sides.iter().zip(&mut times) {
            let start = Instant::now();
            let status = side.reading(file)?.stdout(Stdio::null()).status()?;
            let time = start.elapsed();
            if !status.success() {
                let program = side.program.display();
                return Ok(Err(format!("{program} ended with {status}")));
            }
            // The first round is not counted.
            if round > 0 {
                times.push(time);
            }
        }
    }
    Ok(Ok(times.map(median)))
}

fn lay_out(nanoseconds: [f64; 2], bytes: usize, words: usize) -> String {
    let [proved, rust] = nanoseconds;
    let million = 1e6;
    let rates = |time: f64| {
        let seconds = time / 1e9;
        let [bytes, words] = [bytes, words].map(|count| count as f64 / million / seconds);
        format!("{bytes:.1} | {words:.2}")
    };
    let size = bytes as f64 / million;
    format!(
        "Million bytes and million words of input a second, median of {ROUNDS} runs over the vocabulary repeated to {size:.1} million
bytes, to /dev/null. Ratio: Fannavy's time over the Rust's; below 1, Fannavy is faster.

| program | Fannavy, MB/s | words | Rust, MB/s | words | ratio |
|---|--:|--:|--:|--:|--:|
| stemlist | {} | {} | {:.2} |",
        rates(proved),
        rates(rust),
        proved / rust
    )
}
