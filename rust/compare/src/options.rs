//! The command-line options.

use crate::parts::{self, FRAMES, PARTS, Part};
use crate::phase::Limit;
use frames_original::program;
use std::path::PathBuf;
use std::time::Duration;

const USAGE: &str = "compare: compares the library and the program `frames` with the original Rust code

usage: compare [--only PART] [--seconds N | --cases N] [--seed S] [--program PATH]
       compare --record FILE_IN FILE_OUT [--seed S]

Makes the same calls on both sides, for all inputs of small sets and then for random inputs, and compares the replies and every
byte of the lent buffers. Prints the number of comparisons and differences, and the smallest input found for each kind of difference.

  --only PART       compare only this part
  --seconds N       try random cases for N seconds in each part (default 20)
  --cases N         try N random cases in each part instead
  --seed S          seed of the random cases (default 1)
  --program PATH    the program `frames` (default: the environment variable FRAMES, else target/bin/frames)
  --record IN OUT   compare nothing; write random cases to the file IN and the expected answers to OUT
  --help            print this text

For example:

  compare --only maps --cases 10000 --seed 7

The exit status is 0 if there are no differences, 1 if there are some (or if the files of --record cannot be written), and 2 if the
arguments are bad or the program `frames` is missing.
";

pub struct Options {
    pub parts: Vec<&'static Part>,
    pub limit: Limit,
    pub seed: u64,
    /// The program `frames`.
    pub program: PathBuf,
    /// The input file and the answer file, if a sample is to be recorded instead of a comparison.
    pub record: Option<(String, String)>,
}

/// The help text, which lists the parts.
pub fn help() -> String {
    format!("{USAGE}\nparts: {}", parts::all_names())
}

impl Options {
    /// Parses the arguments. The error is a message for the user.
    pub fn read(arguments: impl Iterator<Item = String>) -> Result<Self, String> {
        let limit = Limit::Time(Duration::from_secs(20));
        let parts = PARTS.iter().collect();
        let mut options = Options { parts, limit, seed: 1, program: program::usual(), record: None };
        options.parse(arguments).ok_or_else(help)?;
        if options.record.is_none() && options.parts.iter().any(|part| part.name == FRAMES) {
            program::check(&options.program)?;
        }
        Ok(options)
    }

    /// Sets the options from the arguments; `None` if an argument is unknown or has a bad value.
    fn parse(&mut self, mut arguments: impl Iterator<Item = String>) -> Option<()> {
        while let Some(argument) = arguments.next() {
            let value = arguments.next()?;
            match argument.as_str() {
                "--only" => self.parts = vec![PARTS.iter().find(|part| part.name == value)?],
                "--seconds" => self.limit = Limit::Time(Duration::from_secs(value.parse().ok()?)),
                "--cases" => self.limit = Limit::Cases(value.parse().ok()?),
                "--seed" => self.seed = value.parse().ok()?,
                "--program" => self.program = value.into(),
                "--record" => self.record = Some((value, arguments.next()?)),
                _ => return None,
            }
        }
        Some(())
    }
}
