//! Ways of sending an input to the program.

use crate::frames::program::{Client, Output, Program};
use std::thread;
use std::time::Duration;

#[derive(Clone, Copy)]
pub enum Sending {
    /// The whole input at once.
    Whole,
    /// Two pieces, the first one of this many bytes. The second is sent when all lines of the first have been answered, so
    /// that the program reads it as a separate block.
    InTwo(usize),
    /// Each line when the one before has been answered.
    LineByLine,
}

/// The expected output of the program, and its output up to its end or to an answer that is missing.
pub struct Run {
    pub expected: Vec<u8>,
    pub output: Output,
}

impl Sending {
    pub fn run(self, program: &Program, input: &[u8]) -> Run {
        let output = program.run(|client| match self {
            Sending::Whole => client.send(input),
            Sending::InTwo(place) => in_two(client, input.split_at(place)),
            Sending::LineByLine => line_by_line(client, input),
        });
        Run { expected: frames_original::answers(input), output }
    }
}

fn in_two(client: &mut Client, (first, second): (&[u8], &[u8])) {
    client.send(first);
    let lines = first.iter().filter(|byte| **byte == b'\n').count();
    if lines == 0 {
        // There is no answer that shows that the piece was read.
        thread::sleep(Duration::from_millis(2));
    }
    if client.wait_for(lines) {
        client.send(second);
    }
}

fn line_by_line(client: &mut Client, input: &[u8]) {
    for (at, line) in input.split_inclusive(|byte| *byte == b'\n').enumerate() {
        client.send(line);
        // A last line that lacks its newline is answered when the input ends.
        if line.ends_with(b"\n") && !client.wait_for(at + 1) {
            return;
        }
    }
}

#[cfg(test)]
mod tests {
    use super::Sending;
    use crate::frames::program::{Failure, Output, Program};
    use std::time::Duration;

    const INPUT: &[u8] = b"07\n0G\n07";

    fn output(program: &str, sending: Sending) -> Output {
        let program = Program { path: program.into(), timeout: Duration::from_secs(1) };
        sending.run(&program, INPUT).output
    }

    #[test]
    fn everything_is_sent() {
        let places = (0..=INPUT.len()).map(Sending::InTwo);
        for sending in places.chain([Sending::Whole, Sending::LineByLine]) {
            let Output { answers, failure } = output("cat", sending);
            assert!(answers == INPUT && failure.is_none());
        }
    }

    /// `tail` writes everything at the end of its input.
    #[test]
    fn a_delayed_answer_is_detected() {
        assert_eq!(output("tail", Sending::Whole).answers, INPUT);
        for sending in [Sending::LineByLine, Sending::InTwo(3)] {
            let Output { answers, failure } = output("tail", sending);
            assert!(answers.is_empty() && matches!(failure, Some(Failure::Timeout)));
        }
    }

    #[test]
    fn a_program_that_does_not_run_to_its_end() {
        assert!(matches!(output("true", Sending::LineByLine).failure, Some(Failure::Ended)));
        assert!(matches!(output("false", Sending::Whole).failure, Some(Failure::Status(_))));
        assert!(matches!(output("no/such/program", Sending::Whole).failure, Some(Failure::System(_))));
    }
}
