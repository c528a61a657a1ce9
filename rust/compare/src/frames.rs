//! Compares the program `frames`, and the entry of the library for one line of it, with the Rust program of the protocol:
//! random scripts, each in its own process and through the entry; then, for the program only, one long input, inputs in two
//! pieces, and lines sent one by one.

mod answers;
mod cuts;
mod difference;
mod entry;
mod generate;
mod program;
pub mod script;
mod scripts;
mod sending;

use crate::comparison::Comparison;
use crate::phase::{Limit, phase, random_phase_while};
use crate::tally::Given;
use answers::Answers;
use frames_original::load::Load;
use program::Program;
use sending::Sending;
use std::fmt::{self, Display};
use std::path::Path;
use std::time::Duration;
use texts::random::Random;

/// How long to wait for an answer.
const TIMEOUT: Duration = Duration::from_secs(20);

/// The number of frames of the long input, which the program reads in many blocks. More than 65,535 paths come out.
const LONG: usize = 150_000;

/// The minimum number of lines that are sent one by one.
const SINGLE_LINES: usize = 5_000;

/// Every phase continues after a wrong answer, and ends if the program does not answer or does not exit as it should.
pub fn run(comparison: &mut Comparison, program: &Path, seed: u64, limit: &Limit) {
    let program = &Program { path: program.to_path_buf(), timeout: TIMEOUT };
    let mut answers = Answers::default();
    random_phase_while(comparison, "scripts", seed, limit, |comparison, random| {
        let script = generate::script(random);
        comparison.lines(&script);
        scripts::compare(comparison, program, script, &mut answers)
    });
    println!("{answers}");
    phase(comparison, &format!("one input of {LONG} frames"), |comparison| long_input(comparison, program));
    cuts::run(comparison, program);
    phase(comparison, "lines sent one by one", |comparison| single_lines(comparison, program, seed));
}

fn long_input(comparison: &mut Comparison, program: &Program) {
    let input = Load { legs: 4, pairs: 8, frames: LONG }.input();
    let given = &Described { text: format!("the input of {LONG} frames"), lines: LONG };
    comparison.send_and_compare(program, given, &input, Sending::Whole);
}

/// Sends the lines of many scripts to one process, each one when the one before has been answered.
fn single_lines(comparison: &mut Comparison, program: &Program, seed: u64) {
    let random = &mut Random::new(seed);
    let mut lines: Vec<Vec<u8>> = Vec::new();
    while lines.len() < SINGLE_LINES {
        lines.extend(generate::script(random).lines);
    }
    let input = [lines.join(&b'\n'), b"\n".to_vec()].concat();
    let given = &Described { text: format!("{} lines sent one by one", lines.len()), lines: lines.len() };
    comparison.send_and_compare(program, given, &input, Sending::LineByLine);
}

/// An input that is too long to be shown.
struct Described {
    text: String,
    lines: usize,
}

impl Given for Described {
    fn size(&self) -> usize {
        self.lines
    }
}

impl Display for Described {
    fn fmt(&self, f: &mut fmt::Formatter<'_>) -> fmt::Result {
        write!(f, " {},", self.text)
    }
}
