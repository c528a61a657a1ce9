//! Compares the entry of the library for one line with the Rust program of the protocol.

use crate::comparison::Comparison;
use crate::frames::script::{FirstLines, Script};
use crate::lent::Lent;
use crate::tally::Call;
use frames_original::Run;
use mudvizsor::ffi::frames::{MAX_ANSWER_LEN, OwnedState, line};

impl Comparison {
    /// Makes a call for each line of a script, up to the first difference.
    pub fn lines(&mut self, script: &Script) {
        let (mut state, mut out) = (OwnedState::new(), Lent::bytes(MAX_ANSWER_LEN));
        let (mut run, before) = (Run::default(), self.tally.differences());
        for (at, text) in script.lines.iter().enumerate() {
            let mut answer = Vec::new();
            run.process(&[text, &b"\n"[..]].concat(), &mut answer);
            let found = line(text, state.lend(), out.lend(MAX_ANSWER_LEN));
            let call = Call {
                name: "frames_line",
                given: &FirstLines(&script.lines[..=at]),
                capacity: Some(MAX_ANSWER_LEN),
            };
            self.tally.compare(call, Ok(answer.len()), found, out.first_wrong(&answer));
            if self.tally.differences() > before {
                return;
            }
        }
    }
}
