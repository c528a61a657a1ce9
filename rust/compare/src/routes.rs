//! Compares the calls for routes: on all small routes, with flaws, and on random routes.

pub mod calls;
pub mod cases;
pub mod flaws;
pub mod lent_route;
pub mod reach;
pub mod small;
mod table;

use crate::comparison::Comparison;
use crate::phase::phase;
use crate::text::Text;
use calls::CAPACITIES;
use lent_route::Route;
use texts::MAX_PATH_LEN;
use texts::random::Random;

/// The number of calls for each set of flaws.
const FLAWED: usize = 15;

pub fn run(comparison: &mut Comparison, seed: u64) {
    phase(comparison, "cases of the requirements on routes", table::run);
    phase(comparison, "routes of one leg", |comparison| {
        small::one_leg(&mut |route, texts| every_path(comparison, route, texts));
    });
    phase(comparison, "routes of two legs", |comparison| {
        small::two_legs(&mut |route, texts| every_path(comparison, route, texts));
    });
    phase(comparison, "every set of a route's flaws", |comparison| {
        flaws::every_set(&mut Random::new(seed), FLAWED, &mut |route, text| {
            comparison.route(&route, &text, &CAPACITIES);
            comparison.route_all(&route, &[text, Text::new(b"/A/B/C")]);
        });
    });
}

fn every_path(comparison: &mut Comparison, route: &Route, texts: &[Text]) {
    for text in texts {
        comparison.route(route, text, &[MAX_PATH_LEN]);
    }
    comparison.route_all(route, texts);
}
