//! Compares scripts, each in its own process, and finds the smallest one with a difference.

use crate::comparison::Comparison;
use crate::frames::answers::Answers;
use crate::frames::difference::Difference;
use crate::frames::program::Program;
use crate::frames::script::Script;
use crate::frames::sending::Sending;
use std::time::{Duration, Instant};

/// How long to search for a smaller script.
const SHRINKING: Duration = Duration::from_secs(30);

/// How long to wait for an answer during that search.
const SHRINKING_TIMEOUT: Duration = Duration::from_secs(1);

/// Compares a script; one with a difference of a new kind is made as small as possible. Returns whether the program can be
/// tested further.
pub fn compare(
    comparison: &mut Comparison,
    program: &Program,
    script: Script,
    answers: &mut Answers,
) -> bool {
    let run = Sending::Whole.run(program, &script.input());
    answers.count(&run.expected);
    match run.difference() {
        Some(difference) if !comparison.tally.has_difference(difference.name) => {
            let (smaller, difference) = smallest(program, script, difference);
            comparison.count_answers(&run, &smaller, Some(difference));
        }
        difference => comparison.count_answers(&run, &script, difference),
    }
    run.is_whole()
}

/// Removes the lines that are not needed for a difference of this kind; returns the script and that difference.
fn smallest(program: &Program, script: Script, mut difference: Difference) -> (Script, Difference) {
    let program = &Program { path: program.path.clone(), timeout: SHRINKING_TIMEOUT };
    let deadline = Instant::now() + SHRINKING;
    let script = script.shrunk(&mut |script| {
        let run = || Sending::Whole.run(program, &script.input());
        let found = if Instant::now() < deadline { run().difference() } else { None };
        match found.filter(|found| found.name == difference.name) {
            Some(found) => difference = found,
            None => return false,
        }
        true
    });
    (script, difference)
}
