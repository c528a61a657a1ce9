//! Compares the calls that build maps: on all small lists and maps, with flaws, and on random ones.

mod before;
pub mod calls;
pub mod cases;
mod numbers;
mod small;
mod table;

use crate::comparison::Comparison;
use crate::phase::phase;

pub fn run(comparison: &mut Comparison) {
    phase(comparison, "cases of the requirements on building maps", table::run);
    phase(comparison, "maps made of at most two pairs", small::at_most_two_pairs);
    phase(comparison, "maps made of three pairs", small::three_pairs);
    phase(comparison, "two small maps composed", small::composed);
    phase(comparison, "small maps rebased and deepened", small::moved);
    phase(comparison, "the maps' own numbers", numbers::run);
}
