//! The service program behind a pipe.

use crate::requests::Exchange;
use std::io::{Read, Write};
use std::process::{Child, ChildStdin, ChildStdout, Command, Stdio};
use std::thread;
use std::time::{Duration, Instant};

/// A service program that runs.
pub struct Piped {
    child: Child,
    requests: ChildStdin,
    answers: Answers,
}

/// What the program answers.
struct Answers {
    from: ChildStdout,
    buffer: Vec<u8>,
}

/// Bytes that are read at once.
const BUFFER: usize = 1 << 16;

/// Where fewer bytes than these have come, the reader of a stream lets more gather
/// for a while; else each answer of a few bytes would wake it, and that takes the
/// service longer than the answer.
const FEW: usize = 1_000;
const WHILE: Duration = Duration::from_micros(100);

/// Starts the program, lets `work` talk to it, ends its input and waits for it. It
/// has to end well, and to answer nothing more.
pub fn with_service<T>(
    program: &str,
    work: impl FnOnce(&mut Piped) -> Result<T, String>,
) -> Result<T, String> {
    let mut child = Command::new(program)
        .stdin(Stdio::piped())
        .stdout(Stdio::piped())
        .spawn()
        .map_err(|error| format!("{program}: {error}"))?;
    let mut piped = Piped {
        requests: child.stdin.take().expect("a pipe"),
        answers: Answers {
            from: child.stdout.take().expect("a pipe"),
            buffer: vec![0; BUFFER],
        },
        child,
    };
    let done = match work(&mut piped) {
        Ok(value) => piped.end().map(|()| value),
        Err(wrong) => {
            piped.stop();
            Err(wrong)
        }
    };
    done.map_err(|wrong| format!("{program}: {wrong}"))
}

impl Piped {
    /// Sends one request and waits for the answer, which has to be this one.
    pub fn ask(&mut self, request: &str, answer: &str) -> Result<(), String> {
        let sent = self.requests.write_all(request.as_bytes());
        sent.map_err(|error| error.to_string())?;
        self.answers.read(answer.as_bytes(), 1, Duration::ZERO)
    }

    /// Sends the requests so many times from a thread of its own and reads the
    /// answers. The time until the last one is there.
    pub fn stream(&mut self, exchange: &Exchange, times: u64) -> Result<Duration, String> {
        let Piped {
            child,
            requests,
            answers,
        } = self;
        let bytes = exchange.requests.as_bytes();
        let start = Instant::now();
        thread::scope(|scope| {
            let writer = scope.spawn(|| (0..times).try_for_each(|_| requests.write_all(bytes)));
            let read = answers.read(exchange.answers.as_bytes(), times, WHILE);
            let elapsed = start.elapsed();
            if read.is_err() {
                // so that the writer does not wait for a program that waits for us
                let _ = child.kill();
            }
            let written = writer.join().expect("a writer that does not panic");
            read?;
            written.map_err(|error| error.to_string())?;
            Ok(elapsed)
        })
    }

    /// Ends the input and waits.
    fn end(self) -> Result<(), String> {
        let Piped {
            mut child,
            requests,
            mut answers,
        } = self;
        drop(requests);
        let mut rest = Vec::new();
        let read = answers.from.read_to_end(&mut rest);
        read.map_err(|error| error.to_string())?;
        let status = child.wait().map_err(|error| error.to_string())?;
        if !rest.is_empty() {
            return Err(format!("more answers: {}", start_of(&rest)));
        }
        if !status.success() {
            return Err(status.to_string());
        }
        Ok(())
    }

    /// After something went wrong.
    fn stop(mut self) {
        let _ = self.child.kill();
        let _ = self.child.wait();
    }
}

impl Answers {
    /// Reads these, so many times, with a pause where few bytes have come.
    fn read(&mut self, answers: &[u8], times: u64, pause: Duration) -> Result<(), String> {
        let mut left = answers.len() as u64 * times;
        let mut place = 0;
        while left > 0 {
            let room = left.min(BUFFER as u64) as usize;
            let read = self.from.read(&mut self.buffer[..room]);
            let got = read.map_err(|error| error.to_string())?;
            if got == 0 {
                return Err("the answers end too early".into());
            }
            place = compare(&self.buffer[..got], answers, place)?;
            left -= got as u64;
            if got < FEW && left > 0 {
                thread::sleep(pause);
            }
        }
        Ok(())
    }
}

/// Compares the bytes with these answers again and again, from a place of theirs
/// on. The place behind the last one.
fn compare(mut bytes: &[u8], answers: &[u8], mut place: usize) -> Result<usize, String> {
    while !bytes.is_empty() {
        let both = bytes.len().min(answers.len() - place);
        let expected = &answers[place..place + both];
        if &bytes[..both] != expected {
            let (bytes, expected) = (start_of(bytes), start_of(expected));
            return Err(format!("an answer differs: {bytes} for {expected}"));
        }
        bytes = &bytes[both..];
        place = (place + both) % answers.len();
    }
    Ok(place)
}

/// The first bytes as text.
fn start_of(bytes: &[u8]) -> String {
    let shown = &bytes[..bytes.len().min(60)];
    format!("{:?}", String::from_utf8_lossy(shown))
}
