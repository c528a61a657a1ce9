//! Runs the program.

use std::io::Write;
use std::process::{Command, Stdio};

/// What the program wrote, and its exit status.
#[derive(Debug, PartialEq)]
pub struct Ran {
    pub out: String,
    pub errors: String,
    pub status: i32,
}

/// Runs the program with these arguments on this input.
pub fn run(arguments: &[&str], input: &[u8]) -> Ran {
    run_with_no_color("", arguments, input)
}

/// Runs the program with this value of the environment variable `NO_COLOR`.
pub fn run_with_no_color(value: &str, arguments: &[&str], input: &[u8]) -> Ran {
    let mut program = Command::new(env!("CARGO_BIN_EXE_scene-paths"));
    program.args(arguments).env("NO_COLOR", value);
    program.stdin(Stdio::piped()).stdout(Stdio::piped()).stderr(Stdio::piped());
    let mut child = program.spawn().expect("the program runs");
    // The program reads its input whole before it writes, or does not read it at all.
    let _ = child.stdin.take().expect("a pipe").write_all(input);
    let output = child.wait_with_output().expect("the program ends");
    let text = |bytes| String::from_utf8(bytes).expect("text");
    Ran {
        out: text(output.stdout),
        errors: text(output.stderr),
        status: output.status.code().expect("a status"),
    }
}
