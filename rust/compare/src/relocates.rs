//! Compares the calls for relocate lists: on the cases of the requirements, on all small lists, and on random lists with
//! flaws.

mod calls;
pub mod cases;
mod small;
mod table;

use crate::comparison::Comparison;
use crate::phase::phase;

pub fn run(comparison: &mut Comparison) {
    phase(comparison, "cases of the requirements on relocates", table::run);
    phase(comparison, "relocate lists of at most two pairs", small::lists_of_at_most_two);
    phase(comparison, "relocate lists of three pairs", small::lists_of_three);
}
