//! The part `frames`, if the program to be compared is missing or gives wrong answers.

use std::process::{Command, Output};

fn compare(program: &str) -> Output {
    let arguments = ["--only", "frames", "--cases", "2", "--seed", "3", "--program", program];
    Command::new(env!("CARGO_BIN_EXE_compare")).args(arguments).output().expect("a run")
}

#[test]
fn a_missing_program_is_an_error() {
    let Output { status, stdout, stderr } = compare("no/such/program");
    assert_eq!(status.code(), Some(2));
    assert!(stdout.is_empty() && stderr.starts_with(b"there is no program no/such/program"));
}

/// A program that echoes its input.
#[test]
fn wrong_answers_are_counted_and_shown() {
    let Output { status, stdout, .. } = compare("/bin/cat");
    assert_eq!(status.code(), Some(1));
    let report = String::from_utf8(stdout).expect("text");
    let last = report.lines().last().expect("a summary");
    // Each of these runs differs in its first answer: two scripts, the long input, the inputs at each of 279 cuts, and the
    // lines one by one.
    assert!(last.starts_with("compare: ") && last.ends_with(" comparisons, 283 differences"), "{last}");
    // The first line of one of these scripts, which is all that remains of it.
    let line = "0100012F00012F";
    let wrong = format!("\n    {line}\n    answer 1: expected 8100\\n, found {line}\\n");
    assert!(report.contains(&wrong), "{report}");
}
