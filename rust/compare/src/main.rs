//! `compare`: compares the library and the program `frames` with the original Rust code, call by call, line by line and
//! byte by byte. `compare --help` describes the options.

mod brackets;
mod calls;
mod carried;
mod cases;
mod comparison;
mod exhaustive;
mod facts;
mod frames;
mod joins;
mod lent;
mod makes;
mod many;
mod maps;
mod names;
mod options;
mod own_part;
mod parts;
mod phase;
mod record;
mod relocates;
mod routes;
mod tally;
mod text;
mod times;

use comparison::Comparison;
use options::Options;
use std::env;
use std::io::{self, Write};
use std::process::ExitCode;

fn main() -> ExitCode {
    if env::args().skip(1).any(|argument| argument == "--help" || argument == "-h") {
        // A reader that closes the pipe early is not an error.
        let _ = writeln!(io::stdout(), "{}", options::help());
        return ExitCode::SUCCESS;
    }
    let options = match Options::read(env::args().skip(1)) {
        Ok(options) => options,
        Err(message) => {
            eprintln!("{message}");
            return ExitCode::from(2);
        }
    };
    match &options.record {
        Some((inputs, answers)) => record(inputs, answers, options.seed),
        None => compare(&options),
    }
}

fn record(inputs: &str, answers: &str, seed: u64) -> ExitCode {
    match record::write(inputs, answers, seed) {
        Ok(()) => ExitCode::SUCCESS,
        Err(error) => {
            eprintln!("the sample was not written: {error}");
            ExitCode::FAILURE
        }
    }
}

fn compare(options: &Options) -> ExitCode {
    let comparison = &mut Comparison::new();
    for part in &options.parts {
        (part.run)(comparison, options);
    }
    let tally = &comparison.tally;
    println!("facts checked of the original's answers: {}", tally.facts());
    print!("{tally}");
    println!("compare: {} comparisons, {} differences", tally.comparisons(), tally.differences());
    if tally.differences() == 0 { ExitCode::SUCCESS } else { ExitCode::FAILURE }
}
