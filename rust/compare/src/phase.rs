//! The phases of the comparison; each prints a line with its number of comparisons.

use crate::comparison::Comparison;
use std::time::{Duration, Instant};
use texts::random::Random;

/// When to stop with random cases.
pub enum Limit {
    Cases(u64),
    Time(Duration),
}

impl Limit {
    fn is_reached(&self, cases: u64, start: Instant) -> bool {
        match self {
            Limit::Cases(most) => cases >= *most,
            Limit::Time(longest) => start.elapsed() >= *longest,
        }
    }
}

pub fn phase(comparison: &mut Comparison, name: &str, run: impl FnOnce(&mut Comparison)) {
    let before = comparison.tally.comparisons();
    run(comparison);
    println!("{name}: {} comparisons", comparison.tally.comparisons() - before);
}

/// Tries random cases until the limit is reached.
pub fn random_phase(
    comparison: &mut Comparison,
    name: &str,
    seed: u64,
    limit: &Limit,
    case: impl Fn(&mut Comparison, &mut Random),
) {
    random_phase_while(comparison, name, seed, limit, |comparison, random| {
        case(comparison, random);
        true
    });
}

/// Tries random cases until the limit is reached or a case returns false.
pub fn random_phase_while(
    comparison: &mut Comparison,
    name: &str,
    seed: u64,
    limit: &Limit,
    mut case: impl FnMut(&mut Comparison, &mut Random) -> bool,
) {
    let random = &mut Random::new(seed);
    let start = Instant::now();
    let before = comparison.tally.comparisons();
    let mut cases = 0;
    let mut continues = true;
    while continues && !limit.is_reached(cases, start) {
        continues = case(comparison, random);
        cases += 1;
    }
    let made = comparison.tally.comparisons() - before;
    println!("{cases} random {name}, seed {seed}: {made} comparisons");
}
