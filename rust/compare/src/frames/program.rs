//! The program under test as a process, connected by pipes.

use std::fmt::{self, Display};
use std::io::{self, Read, Write};
use std::path::PathBuf;
use std::process::{Child, ChildStdin, ChildStdout, Command, ExitStatus, Stdio};
use std::sync::mpsc::{self, Receiver, RecvTimeoutError, Sender};
use std::thread;
use std::time::{Duration, Instant};

/// The path of the program, and how long to wait for an answer.
pub struct Program {
    pub path: PathBuf,
    pub timeout: Duration,
}

/// The output of a run, and how it failed, if it did.
pub struct Output {
    pub answers: Vec<u8>,
    pub failure: Option<Failure>,
}

#[derive(Debug)]
pub enum Failure {
    /// The program could not be started or waited for.
    System(io::Error),
    /// There was no answer in time.
    Timeout,
    /// The output ended before the input.
    Ended,
    Status(ExitStatus),
}

impl Display for Failure {
    fn fmt(&self, f: &mut fmt::Formatter<'_>) -> fmt::Result {
        match self {
            Failure::System(error) => write!(f, "the program cannot be run: {error}"),
            Failure::Timeout => f.write_str("no answer in time"),
            Failure::Ended => f.write_str("the output ended too early"),
            Failure::Status(status) => write!(f, "the program ended with {status}"),
        }
    }
}

impl Program {
    /// Runs the program, sends its input with `send`, and waits for its end.
    pub fn run(&self, send: impl FnOnce(&mut Client)) -> Output {
        match self.start() {
            Ok(mut client) => {
                send(&mut client);
                client.finish()
            }
            Err(error) => Output { answers: Vec::new(), failure: Some(Failure::System(error)) },
        }
    }

    fn start(&self) -> io::Result<Client> {
        let mut child = Command::new(&self.path).stdin(Stdio::piped()).stdout(Stdio::piped()).spawn()?;
        let (stdin, stdout) = (child.stdin.take(), child.stdout.take());
        let (input, pieces) = mpsc::channel();
        let (blocks, output) = mpsc::channel();
        thread::spawn(move || write_pieces(stdin.expect("a pipe"), &pieces));
        thread::spawn(move || read_blocks(stdout.expect("a pipe"), &blocks));
        let timeout = self.timeout;
        Ok(Client {
            child,
            input: Some(input),
            output,
            received: Vec::new(),
            lines: 0,
            failure: None,
            timeout,
        })
    }
}

/// Writes each piece at once. A program that stops reading is detected by its answers.
fn write_pieces(mut stdin: ChildStdin, pieces: &Receiver<Vec<u8>>) {
    for piece in pieces {
        if stdin.write_all(&piece).is_err() {
            return;
        }
    }
}

fn read_blocks(mut stdout: ChildStdout, blocks: &Sender<Vec<u8>>) {
    let mut block = vec![0; 65_536];
    while let Ok(length @ 1..) = stdout.read(&mut block) {
        if blocks.send(block[..length].to_vec()).is_err() {
            return;
        }
    }
}

/// A run of the program. A process that is still running when its client is dropped is killed.
pub struct Client {
    child: Child,
    input: Option<Sender<Vec<u8>>>,
    output: Receiver<Vec<u8>>,
    received: Vec<u8>,
    /// The number of lines received.
    lines: usize,
    failure: Option<Failure>,
    timeout: Duration,
}

impl Client {
    pub fn send(&mut self, piece: &[u8]) {
        if let Some(input) = &self.input {
            // The writer has ended if the program no longer reads, which is detected by its answers.
            let _ = input.send(piece.to_vec());
        }
    }

    /// Waits until this many lines have been received in total, and returns whether they have.
    pub fn wait_for(&mut self, lines: usize) -> bool {
        let deadline = Instant::now() + self.timeout;
        while self.failure.is_none() && self.lines < lines {
            self.failure = match self.receive(deadline) {
                Ok(()) => None,
                Err(RecvTimeoutError::Timeout) => Some(Failure::Timeout),
                Err(RecvTimeoutError::Disconnected) => Some(Failure::Ended),
            };
        }
        self.failure.is_none()
    }

    /// Ends the input and returns everything that was received.
    fn finish(mut self) -> Output {
        self.input = None;
        if self.failure.is_none() {
            self.failure = self.receive_rest().err();
        }
        Output { answers: std::mem::take(&mut self.received), failure: self.failure.take() }
    }

    fn receive_rest(&mut self) -> Result<(), Failure> {
        let deadline = Instant::now() + self.timeout;
        loop {
            match self.receive(deadline) {
                Ok(()) => {}
                Err(RecvTimeoutError::Timeout) => return Err(Failure::Timeout),
                Err(RecvTimeoutError::Disconnected) => break,
            }
        }
        let status = self.child.wait().map_err(Failure::System)?;
        if status.success() { Ok(()) } else { Err(Failure::Status(status)) }
    }

    fn receive(&mut self, deadline: Instant) -> Result<(), RecvTimeoutError> {
        let left = deadline.saturating_duration_since(Instant::now());
        let block = self.output.recv_timeout(left)?;
        self.lines += block.iter().filter(|byte| **byte == b'\n').count();
        self.received.extend(block);
        Ok(())
    }
}

impl Drop for Client {
    fn drop(&mut self) {
        // Both fail only if the process has ended already.
        let _ = self.child.kill();
        let _ = self.child.wait();
    }
}
