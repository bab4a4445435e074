//! A program run as a child process: fed on its standard input from a thread, its standard output
//! handed on as it comes, and killed where it hangs.

use std::io::{self, PipeWriter, Read, Write};
use std::os::fd::OwnedFd;
use std::os::unix::net::UnixDatagram;
use std::path::Path;
use std::process::{Child, ChildStderr, Command, ExitStatus, Stdio};
use std::sync::mpsc::{self, RecvTimeoutError, SyncSender};
use std::thread;
use std::time::{Duration, Instant};

// As much of a program's complaint as is shown.
const COMPLAINT: u64 = 4096;

/// How standard input is parted into writes, of so many bytes each.
#[derive(Clone, Copy, Debug)]
pub enum Feed {
    /// Through a pipe, where the reader may find several writes at once.
    Pipe(usize),
    /// As packets of a socket, where each read gives one write, and an empty one ends the input. A
    /// read that has no room for a whole packet loses the rest of it.
    Packets(usize),
}

/// Standard input: the bytes, so many times over.
#[derive(Clone, Copy)]
pub struct Input<'a> {
    pub bytes: &'a [u8],
    pub times: usize,
    pub feed: Feed,
}

/// Runs the program until its output ends or `take` says no, and kills it where it gives neither
/// output nor its end for `limit`. The error is a message: it could not be run, hung, ended badly
/// or complained.
pub fn run(
    program: &Path,
    arguments: &[&str],
    input: Input,
    limit: Duration,
    take: impl FnMut(&[u8]) -> bool,
) -> Result<(), String> {
    let failed = |error: io::Error| format!("{}: {error}", program.display());
    let (stdin, sender) = open(input.feed).map_err(failed)?;
    let mut child = Command::new(program)
        .args(arguments)
        .stdin(stdin)
        .stdout(Stdio::piped())
        .stderr(Stdio::piped())
        .spawn()
        .map_err(failed)?;
    let stderr = child.stderr.take();
    // The threads own what they use, and those of a program that hangs are not waited for: a
    // process that it started may hold its pipes open after it.
    let bytes = input.bytes.to_vec();
    // A program that does not read to the end says so by its output.
    thread::spawn(move || sender.feed(&bytes, input.times, input.feed));
    let complaint = thread::spawn(|| stderr.map_or(String::new(), complaint));
    let ended = follow(&mut child, limit, take);
    // This does nothing to a program that has ended.
    let _ = child.kill().and_then(|()| child.wait());
    match ended.map_err(failed)? {
        Some(status) => judge(status, &complaint.join().unwrap_or_default()),
        None => Ok(()),
    }
}

// Hands on the output, and waits for the end; none where `take` said no.
fn follow(
    child: &mut Child,
    limit: Duration,
    mut take: impl FnMut(&[u8]) -> bool,
) -> io::Result<Option<ExitStatus>> {
    let Some(stdout) = child.stdout.take() else {
        return Ok(None);
    };
    let (sender, blocks) = mpsc::sync_channel(1);
    thread::spawn(|| send_on(stdout, sender));
    loop {
        match blocks.recv_timeout(limit) {
            Ok(block) => {
                if !take(&block?) {
                    return Ok(None);
                }
            }
            Err(RecvTimeoutError::Disconnected) => return wait(child, limit).map(Some),
            Err(RecvTimeoutError::Timeout) => return Err(hangs(limit)),
        }
    }
}

// Sends the output on in blocks, until it ends or no more is taken.
fn send_on(mut stdout: impl Read, blocks: SyncSender<io::Result<Vec<u8>>>) {
    let mut block = vec![0; 1 << 16];
    loop {
        let read = match stdout.read(&mut block) {
            Ok(0) => return,
            Ok(count) => Ok(block[..count].to_vec()),
            Err(error) if error.kind() == io::ErrorKind::Interrupted => continue,
            Err(error) => Err(error),
        };
        if blocks.send(read).is_err() {
            return;
        }
    }
}

// The end of a program whose output has ended, which should come in a moment.
fn wait(child: &mut Child, limit: Duration) -> io::Result<ExitStatus> {
    let start = Instant::now();
    while start.elapsed() < limit {
        if let Some(status) = child.try_wait()? {
            return Ok(status);
        }
        thread::sleep(Duration::from_millis(1));
    }
    Err(hangs(limit))
}

fn hangs(limit: Duration) -> io::Error {
    let message = format!("neither output nor its end for {limit:?}, killed");
    io::Error::new(io::ErrorKind::TimedOut, message)
}

fn judge(status: ExitStatus, complaint: &str) -> Result<(), String> {
    if !status.success() {
        return Err(format!("ended with {status}, standard error {complaint:?}"));
    }
    if !complaint.is_empty() {
        return Err(format!("wrote to standard error {complaint:?}"));
    }
    Ok(())
}

fn complaint(stderr: ChildStderr) -> String {
    let mut text = Vec::new();
    let _ = stderr.take(COMPLAINT).read_to_end(&mut text);
    String::from_utf8_lossy(&text).into_owned()
}

enum Sender {
    Pipe(PipeWriter),
    Packets(UnixDatagram),
}

// Both ends of a standard input.
fn open(feed: Feed) -> io::Result<(Stdio, Sender)> {
    Ok(match feed {
        Feed::Pipe(_) => {
            let (reader, writer) = io::pipe()?;
            (reader.into(), Sender::Pipe(writer))
        }
        Feed::Packets(_) => {
            let (reader, writer) = UnixDatagram::pair()?;
            (OwnedFd::from(reader).into(), Sender::Packets(writer))
        }
    })
}

impl Sender {
    fn feed(mut self, bytes: &[u8], times: usize, feed: Feed) -> io::Result<()> {
        let (Feed::Pipe(size) | Feed::Packets(size)) = feed;
        for _ in 0..times {
            for piece in bytes.chunks(size) {
                self.send(piece)?;
            }
        }
        match self {
            Sender::Pipe(_) => Ok(()),
            Sender::Packets(socket) => socket.send(&[]).map(drop),
        }
    }

    fn send(&mut self, piece: &[u8]) -> io::Result<()> {
        match self {
            Sender::Pipe(pipe) => pipe.write_all(piece),
            Sender::Packets(socket) => socket.send(piece).map(drop),
        }
    }
}

#[cfg(test)]
mod tests {
    use super::*;

    const FEEDS: [Feed; 3] = [Feed::Pipe(3), Feed::Packets(1), Feed::Packets(3)];
    const PATIENCE: Duration = Duration::from_secs(60);

    fn through(program: &str, bytes: &[u8], times: usize, feed: Feed) -> (Vec<u8>, bool) {
        let mut output = Vec::new();
        let input = Input { bytes, times, feed };
        let outcome = run(Path::new(program), &[], input, PATIENCE, |block| {
            output.extend_from_slice(block);
            true
        });
        (output, outcome.is_ok())
    }

    #[test]
    fn what_is_fed_comes_back() {
        for feed in FEEDS {
            assert_eq!(through("cat", b"", 1, feed), (Vec::new(), true));
            let expected = (b"abcdabcd".to_vec(), true);
            assert_eq!(through("cat", b"abcd", 2, feed), expected);
        }
    }

    #[test]
    fn a_bad_end_is_told() {
        for feed in FEEDS {
            assert_eq!(through("false", b"abcd", 9, feed), (Vec::new(), false));
            assert!(!through("/no/such/program", b"", 1, feed).1);
        }
    }

    #[test]
    fn a_run_can_be_stopped() {
        let input = Input {
            bytes: &[b'a'; 1000],
            times: 1_000_000,
            feed: Feed::Pipe(1000),
        };
        assert!(run(Path::new("cat"), &[], input, PATIENCE, |_| false).is_ok());
    }

    #[test]
    fn a_program_that_hangs_is_killed() {
        for commands in ["exec sleep 60", "exec sleep 60 >&- 2>&-"] {
            let input = Input {
                bytes: commands.as_bytes(),
                times: 1,
                feed: Feed::Pipe(100),
            };
            let patience = Duration::from_millis(200);
            let outcome = run(Path::new("sh"), &[], input, patience, |_| true);
            let message = outcome.expect_err("it hangs");
            assert!(message.contains("neither output"), "{message}");
        }
    }
}
