//! The parts of the comparison.

use crate::comparison::Comparison;
use crate::options::Options;
use crate::phase::random_phase;
use crate::{carried, cases, exhaustive, frames, makes, maps, names, relocates, routes, times};

pub struct Part {
    pub name: &'static str,
    pub run: fn(&mut Comparison, &Options),
}

/// The part that runs the program `frames`.
pub const FRAMES: &str = "frames";

pub const PARTS: &[Part] = &[
    Part { name: "paths", run: paths },
    Part { name: "names", run: names },
    Part { name: "maps", run: maps },
    Part { name: "makes", run: makes },
    Part { name: "relocates", run: relocates },
    Part { name: "routes", run: routes },
    Part { name: "carried", run: carried },
    Part { name: "times", run: times },
    Part { name: FRAMES, run: frames },
];

/// The names of all parts, for the help text.
pub fn all_names() -> String {
    PARTS.iter().map(|part| part.name).collect::<Vec<_>>().join(", ")
}

fn paths(comparison: &mut Comparison, options: &Options) {
    exhaustive::run(comparison);
    random_phase(comparison, "cases", options.seed, &options.limit, cases::case);
    println!("legal texts that Path::new refuses: {}", comparison.refused_by_original.len());
}

fn names(comparison: &mut Comparison, options: &Options) {
    names::run(comparison);
    random_phase(
        comparison,
        "texts with names outside ASCII",
        options.seed,
        &options.limit,
        names::cases::case,
    );
}

fn maps(comparison: &mut Comparison, options: &Options) {
    maps::run(comparison, options.seed);
    random_phase(comparison, "lists", options.seed, &options.limit, maps::cases::case);
}

fn makes(comparison: &mut Comparison, options: &Options) {
    makes::run(comparison);
    random_phase(comparison, "maps made", options.seed, &options.limit, makes::cases::case);
}

fn relocates(comparison: &mut Comparison, options: &Options) {
    relocates::run(comparison);
    random_phase(comparison, "relocate lists", options.seed, &options.limit, relocates::cases::case);
}

fn routes(comparison: &mut Comparison, options: &Options) {
    routes::run(comparison, options.seed);
    random_phase(comparison, "routes", options.seed, &options.limit, routes::cases::case);
    println!("{}", comparison.reach);
}

fn carried(comparison: &mut Comparison, options: &Options) {
    carried::run(comparison, options.seed, &options.limit);
}

fn times(comparison: &mut Comparison, options: &Options) {
    times::run(comparison);
    random_phase(comparison, "offsets", options.seed, &options.limit, times::cases::case);
}

fn frames(comparison: &mut Comparison, options: &Options) {
    frames::run(comparison, &options.program, options.seed, &options.limit);
}
