//! `bench`: times the library and the original Rust code on the same texts, the program `frames` and a Rust program of the
//! same protocol on the same inputs, two forms of a join on the same joins, and the calls that tell the rest beside the plain
//! calls, and prints tables of the ratios. `bench --help` describes the options.

mod calls;
mod carried;
mod clock;
mod frames;
mod inputs;
mod joins;
mod makes;
mod maps;
mod options;
mod routes;
mod table;

use options::{Options, Part};
use std::env;
use std::io::{self, Write};
use std::process::ExitCode;

fn main() -> ExitCode {
    let arguments: Vec<String> = env::args().skip(1).collect();
    if arguments == [frames::AS_THE_RUST_PROGRAM] {
        return ended(frames_original::serve(io::stdin().lock(), io::stdout().lock()));
    }
    if arguments.iter().any(|argument| argument == "--help" || argument == "-h") {
        // A reader that closes the pipe early is not an error.
        let _ = writeln!(io::stdout(), "{}", options::USAGE);
        return ExitCode::SUCCESS;
    }
    match Options::read(arguments.into_iter()) {
        Ok(options) => ended(print_tables(&options)),
        Err(message) => {
            eprintln!("{message}");
            ExitCode::from(2)
        }
    }
}

/// Prints each table under its name.
fn print_tables(options: &Options) -> io::Result<()> {
    for part in &options.parts {
        println!("\n{}\n", part.name());
        match part {
            Part::Calls => calls::print(),
            Part::Maps => maps::print(),
            Part::Makes => makes::print(),
            Part::Routes => routes::print(),
            Part::Frames => frames::print(options)?,
            Part::Joins => joins::print(&options.orders),
            Part::Carried => carried::print(),
        }
    }
    Ok(())
}

fn ended(result: io::Result<()>) -> ExitCode {
    match result {
        Ok(()) => ExitCode::SUCCESS,
        Err(error) => {
            eprintln!("bench: {error}");
            ExitCode::FAILURE
        }
    }
}
