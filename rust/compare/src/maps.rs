//! Compares the calls that map a path: on all small lists of pairs, with flaws, and on random lists.

pub mod calls;
pub mod cases;
pub mod flaws;
pub mod list;
pub mod small;
mod table;

use crate::comparison::Comparison;
use crate::phase::phase;
use crate::text::Text;
use list::List;
use texts::random::Random;

/// The number of calls for each set of flaws.
const FLAWED: usize = 150;

pub fn run(comparison: &mut Comparison, seed: u64) {
    phase(comparison, "cases of the requirements on maps", table::run);
    phase(comparison, "lists of at most two pairs", |comparison| {
        small::lists_of_at_most_two(&mut |list, texts| every_path(comparison, list, texts));
    });
    phase(comparison, "lists of three pairs", |comparison| {
        small::lists_of_three(&mut |list, texts| every_path(comparison, list, texts));
    });
    phase(comparison, "every set of flaws", |comparison| {
        flaws::every_set(&mut Random::new(seed), FLAWED, &mut |list, text| {
            comparison.map(&list, &text);
            comparison.map_all(&list, &[text, Text::new(b"/A/C")]);
        });
    });
}

fn every_path(comparison: &mut Comparison, list: &List, texts: &[Text]) {
    comparison.list_facts(list);
    for text in texts {
        comparison.map(list, text);
    }
}
