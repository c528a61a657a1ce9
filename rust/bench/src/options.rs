//! The command-line options.

use frames_original::program;
use std::path::PathBuf;

pub const USAGE: &str = "bench: times the library against the original Rust code, and the program `frames` against a Rust program

usage: bench [--only PART] [--frames N] [--rounds N] [--program PATH] [--order ORDER]

Both sides get the same inputs and must give equal results. Prints a table of times and ratios for each part; the best round counts.

  --only PART       only this table: calls (single path calls), maps (mapping paths), makes (building maps), routes, frames,
                    joins (two forms of the join that replaces a prefix), or carried (the calls that tell the rest)
  --frames N        frames in each input of the table `frames` (default 1000000)
  --rounds N        rounds of the table `frames` (default 5)
  --program PATH    the program `frames` (default: the environment variable FRAMES, else target/bin/frames)
  --order ORDER     the order of the joins in the table `joins`: predictable or shuffled (default: a row for each)
  --help            print this text

For example:

  bench --only routes

The exit status is 0 if all tables were printed, 1 if a run failed, and 2 if the arguments are bad or the program `frames` is missing.";

/// One of the tables.
#[derive(Clone, Copy, PartialEq, Eq)]
pub enum Part {
    Calls,
    Maps,
    Makes,
    Routes,
    Frames,
    Joins,
    Carried,
}

impl Part {
    const ALL: [Part; 7] =
        [Part::Calls, Part::Maps, Part::Makes, Part::Routes, Part::Frames, Part::Joins, Part::Carried];

    pub fn name(self) -> &'static str {
        match self {
            Part::Calls => "calls",
            Part::Maps => "maps",
            Part::Makes => "makes",
            Part::Routes => "routes",
            Part::Frames => "frames",
            Part::Joins => "joins",
            Part::Carried => "carried",
        }
    }
}

/// The order in which the same joins are made.
#[derive(Clone, Copy, PartialEq, Eq)]
pub enum Order {
    /// Sorted, so that a branch goes the same way many times in a row.
    Predictable,
    Shuffled,
}

impl Order {
    const ALL: [Order; 2] = [Order::Predictable, Order::Shuffled];

    pub fn title(self) -> &'static str {
        match self {
            Order::Predictable => "predictable",
            Order::Shuffled => "shuffled",
        }
    }
}

pub struct Options {
    pub parts: Vec<Part>,
    /// The number of frames in each input of the programs.
    pub frames: usize,
    /// The number of rounds of the programs.
    pub rounds: usize,
    /// The program `frames`.
    pub program: PathBuf,
    /// The orders of the joins.
    pub orders: Vec<Order>,
}

impl Options {
    /// Parses the arguments. The error is a message for the user.
    pub fn read(arguments: impl Iterator<Item = String>) -> Result<Self, String> {
        let (parts, orders) = (Part::ALL.to_vec(), Order::ALL.to_vec());
        let mut options = Options { parts, frames: 1_000_000, rounds: 5, program: program::usual(), orders };
        options.parse(arguments).ok_or(USAGE)?;
        if options.parts.contains(&Part::Frames) {
            program::check(&options.program)?;
        }
        Ok(options)
    }

    /// Sets the options from the arguments; `None` if an argument is unknown or has a bad value.
    fn parse(&mut self, mut arguments: impl Iterator<Item = String>) -> Option<()> {
        while let Some(argument) = arguments.next() {
            let value = arguments.next()?;
            match argument.as_str() {
                "--only" => self.parts = vec![Part::ALL.into_iter().find(|part| part.name() == value)?],
                "--frames" => self.frames = value.parse().ok()?,
                "--rounds" => self.rounds = value.parse().ok()?,
                "--program" => self.program = value.into(),
                "--order" => self.orders = vec![Order::ALL.into_iter().find(|order| order.title() == value)?],
                _ => return None,
            }
        }
        Some(())
    }
}
