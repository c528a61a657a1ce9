//! Times the program `frames` and the Rust program of the same protocol, as whole processes that read and write files.

use crate::options::Options;
use crate::table::{head, ratio, row};
use frames_original::load::Load;
use std::fs::{self, File};
use std::io;
use std::path::PathBuf;
use std::process::Command;
use std::time::Instant;

/// With this as its only argument, `bench` acts as the Rust program of the protocol.
pub const AS_THE_RUST_PROGRAM: &str = "--as-the-rust-program";

/// The number of legs of each route, and the number of pairs of each leg.
const ROUTES: [(usize, usize); 4] = [(1, 8), (4, 8), (16, 8), (4, 64)];

/// A program and its output file.
struct Side {
    program: PathBuf,
    argument: Option<&'static str>,
    output: PathBuf,
}

/// Both programs, the Rust program first, and their input file.
struct Sides {
    sides: [Side; 2],
    input: PathBuf,
}

pub fn print(options: &Options) -> io::Result<()> {
    head(&[
        "legs",
        "pairs a leg",
        "mean bytes a line",
        "Rust program, ns a frame",
        "`frames`, ns a frame",
        "`frames` / Rust",
    ]);
    let folder = std::env::temp_dir().join(format!("bench-frames-{}", std::process::id()));
    fs::create_dir_all(&folder)?;
    let rust = (std::env::current_exe()?, Some(AS_THE_RUST_PROGRAM), "rust");
    let sides = [rust, (options.program.clone(), None, "frames")];
    let sides = sides.map(|(program, argument, name)| Side { program, argument, output: folder.join(name) });
    let sides = Sides { sides, input: folder.join("input") };
    let timed = ROUTES.iter().try_for_each(|(legs, pairs)| {
        sides.time_route(Load { legs: *legs, pairs: *pairs, frames: options.frames }, options.rounds)
    });
    fs::remove_dir_all(&folder)?;
    timed
}

impl Sides {
    /// Times the programs alternately and prints the best round. Their outputs must be equal.
    fn time_route(&self, load: Load, rounds: usize) -> io::Result<()> {
        let input = load.input();
        fs::write(&self.input, &input)?;
        let mut best = [f64::MAX; 2];
        for _ in 0..rounds {
            for (side, best) in self.sides.iter().zip(&mut best) {
                *best = best.min(side.seconds(File::open(&self.input)?)?);
            }
            self.outputs_agree()?;
        }
        let [rust, frames] = best.map(|seconds| seconds * 1e9 / load.frames as f64);
        let mean = input.len() / load.frames;
        row(&[
            load.legs.to_string(),
            load.pairs.to_string(),
            mean.to_string(),
            format!("{rust:.0}"),
            format!("{frames:.0}"),
            ratio(frames / rust),
        ]);
        Ok(())
    }

    fn outputs_agree(&self) -> io::Result<()> {
        let [one, other] = self.sides.each_ref().map(|side| fs::read(&side.output));
        if one? == other? { Ok(()) } else { Err(io::Error::other("the outputs differ")) }
    }
}

impl Side {
    /// Runs the program once and returns the seconds it took.
    fn seconds(&self, input: File) -> io::Result<f64> {
        let output = File::create(&self.output)?;
        let start = Instant::now();
        let status = Command::new(&self.program).args(self.argument).stdin(input).stdout(output).status();
        let seconds = start.elapsed().as_secs_f64();
        match status {
            Ok(status) if status.success() => Ok(seconds),
            Ok(status) => Err(io::Error::other(format!("{}: {status}", self.program.display()))),
            Err(error) => Err(io::Error::other(format!("{}: {error}", self.program.display()))),
        }
    }
}
