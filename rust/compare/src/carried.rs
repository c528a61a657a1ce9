//! Compares the calls that also tell the rest, the part of a path that is carried over unaltered. The original has no
//! counterpart, so they are compared with a second reading of the requirements (`reader`), with the plain calls, and with the
//! paths themselves.

mod calls;
mod entries;
pub mod kinds;
mod reader;
mod table;

use crate::comparison::Comparison;
use crate::maps::calls::CAPACITIES;
use crate::maps::cases::list_and_paths;
use crate::phase::{Limit, phase, random_phase_while};
use crate::routes::cases::route_and_paths;
use crate::text::Text;
use crate::{cases, maps, routes};
use entries::EXPECTED;
use kinds::Kinds;
use std::mem;
use texts::MAX_PATH_LEN;
use texts::enumerate::{all_texts, legal_texts};
use texts::generate::length;
use texts::random::Random;

/// The number of calls for each set of flaws.
const FLAWED_LISTS: usize = 30;
const FLAWED_ROUTES: usize = 4;

/// Among so many random cases there is one of every kind.
const ENOUGH: u64 = 2_000;

/// Just enough for a path.
const PATH: &[usize] = &[MAX_PATH_LEN];

pub fn run(comparison: &mut Comparison, seed: u64, limit: &Limit) {
    // Only the cases of this part count.
    comparison.kinds = Kinds::default();
    phase(comparison, "cases of the rest", table::run);
    phase(comparison, "the rest of every pair of texts", every_pair_of_texts);
    phase(comparison, "the rest, lists of at most two pairs", |comparison| {
        maps::small::lists_of_at_most_two(&mut |list, texts| comparison.maps_carried(list, texts, PATH));
    });
    phase(comparison, "the rest, every set of flaws", |comparison| {
        maps::flaws::every_set(&mut Random::new(seed), FLAWED_LISTS, &mut |list, text| {
            comparison.maps_carried(&list, &[text], &CAPACITIES);
        });
    });
    phase(comparison, "the rest, routes of one leg and of two", |comparison| {
        routes::small::one_leg(&mut |route, texts| comparison.routes_carried(route, texts, PATH));
        routes::small::two_legs_of_one_pair(&mut |route, texts| {
            comparison.routes_carried(route, texts, PATH)
        });
    });
    phase(comparison, "the rest, every set of a route's flaws", |comparison| {
        routes::flaws::every_set(&mut Random::new(seed), FLAWED_ROUTES, &mut |route, text| {
            comparison.routes_carried(&route, &[text], &CAPACITIES);
        });
    });
    conclude(comparison, true);
    let mut cases = 0;
    random_phase_while(
        comparison,
        "texts, lists and routes with the rest",
        seed,
        limit,
        |comparison, random| {
            case(comparison, random);
            cases += 1;
            true
        },
    );
    conclude(comparison, cases >= ENOUGH);
}

/// Prints the numbers of the calls by kind, and starts to count anew. If `complete` is true, every kind must occur.
fn conclude(comparison: &mut Comparison, complete: bool) {
    let kinds = mem::take(&mut comparison.kinds);
    kinds.print(&EXPECTED);
    if complete {
        kinds.check(&EXPECTED, &mut comparison.tally);
    }
}

/// Every pair of short texts, most of them illegal, and of longer legal ones.
fn every_pair_of_texts(comparison: &mut Comparison) {
    let mut short = Vec::new();
    all_texts(b"/A{}=.", 4, &mut |bytes| short.push(Text::new(bytes)));
    let legal =
        |alphabet, longest| legal_texts(alphabet, longest).iter().map(|bytes| Text::new(bytes)).collect();
    for texts in [short, legal(b"/A1{}=.:", 9), legal(b"/A{}=.", 12), legal(b"/A.[]", 11)] {
        for text in &texts {
            for prefix in &texts {
                comparison.prefix_carried(text, prefix);
            }
        }
    }
}

/// A path and a text that often is a prefix of it, a list with some paths, and a route with some paths.
fn case(comparison: &mut Comparison, random: &mut Random) {
    let length = length(random);
    let [path, prefix, _] = cases::texts(random, length).map(|bytes| Text::new(&bytes));
    comparison.prefix_carried(&path, &prefix);
    let (list, texts) = list_and_paths(random);
    comparison.maps_carried(&list, &texts, &CAPACITIES);
    let (route, texts) = route_and_paths(random);
    comparison.routes_carried(&route, &texts, &CAPACITIES);
}

#[cfg(test)]
mod tests;
