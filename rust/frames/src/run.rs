//! Splits the input, which is processed in blocks, into lines, and answers them.

use crate::frame::Frame;
use crate::hex;
use crate::state::State;
use std::io::{self, ErrorKind, Read, Write};

/// "A line of at most 4,096 digits".
pub const MAX_LINE_LEN: usize = 4_096;

/// The number of bytes that are read at once.
const BLOCK: usize = 65_536;

const BAD_FRAME: [u8; 2] = [0xFF, 9];

/// The state of the protocol, and the current line as far as it was read. At most one byte more than the limit is stored.
#[derive(Default)]
pub struct Run {
    state: State,
    line: Vec<u8>,
}

impl Run {
    /// Processes the next block of the input and appends the answers to the lines that end in it.
    pub fn process(&mut self, block: &[u8], answers: &mut Vec<u8>) {
        let mut rest = block;
        while let Some(end) = rest.iter().position(|byte| *byte == b'\n') {
            self.append(&rest[..end]);
            self.end_line(answers);
            rest = &rest[end + 1..];
        }
        self.append(rest);
    }

    /// Ends the input and answers the last line if it lacks its newline.
    pub fn finish(&mut self, answers: &mut Vec<u8>) {
        if !self.line.is_empty() {
            self.end_line(answers);
        }
    }

    /// Appends to the current line.
    fn append(&mut self, part: &[u8]) {
        let capacity = MAX_LINE_LEN + 1 - self.line.len();
        self.line.extend_from_slice(&part[..part.len().min(capacity)]);
    }

    /// Answers the current line.
    fn end_line(&mut self, answers: &mut Vec<u8>) {
        answer(&mut self.state, &self.line, answers);
        self.line.clear();
    }
}

/// Appends the answer line and its newline.
fn answer(state: &mut State, line: &[u8], answers: &mut Vec<u8>) {
    let bytes = if line.len() > MAX_LINE_LEN { None } else { hex::read(line) };
    match bytes.as_deref().and_then(Frame::read) {
        None => hex::write(&BAD_FRAME, answers),
        Some(frame) => {
            let kind = 0x80 + frame.kind();
            match state.answer(frame) {
                Ok(payload) => {
                    hex::write(&[kind, 0], answers);
                    hex::write(payload.bytes(), answers);
                }
                Err(refusal) => hex::write(&[kind, refusal as u8], answers),
            }
        }
    }
    answers.push(b'\n');
}

/// The answers to a whole input.
pub fn answers(input: &[u8]) -> Vec<u8> {
    let (mut run, mut answers) = (Run::default(), Vec::new());
    run.process(input, &mut answers);
    run.finish(&mut answers);
    answers
}

/// Answers every line of the input. All answers so far are written before more input is read.
pub fn serve(mut input: impl Read, mut output: impl Write) -> io::Result<()> {
    let (mut run, mut answers, mut block) = (Run::default(), Vec::new(), vec![0; BLOCK]);
    loop {
        let length = match input.read(&mut block) {
            Ok(0) => break,
            Ok(length) => length,
            Err(error) if error.kind() == ErrorKind::Interrupted => continue,
            Err(error) => return Err(error),
        };
        run.process(&block[..length], &mut answers);
        output.write_all(&answers)?;
        output.flush()?;
        answers.clear();
    }
    run.finish(&mut answers);
    output.write_all(&answers)?;
    output.flush()
}
