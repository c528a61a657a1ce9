//! The flaws of the input that a call for a route checks first, alone and together: of several flaws the one that is checked
//! first decides.

use crate::maps::flaws;
use crate::maps::list::MAX_PAIRS;
use crate::routes::lent_route::{LentRoute, MAX_LEGS, Route};
use crate::text::Text;
use texts::random::Random;

/// Puts a flaw into the route or the path of a call.
type Flaw = fn(&mut Random, &mut LentRoute, &mut Vec<u8>);

pub const FLAWS: [Flaw; 12] = [
    |random, route, path| flaws::long_path(random, &mut route.list, path),
    |random, route, path| flaws::illegal_path(random, &mut route.list, path),
    |random, route, path| flaws::long_end(random, &mut route.list, path),
    |random, route, path| flaws::place_outside(random, &mut route.list, path),
    |random, route, path| flaws::illegal_end(random, &mut route.list, path),
    |random, route, path| flaws::property_or_selection(random, &mut route.list, path),
    too_many_pairs,
    list_beyond_the_places,
    too_many_legs,
    count_beyond_the_legs,
    any_kind,
    garbage_after,
];

/// Numbers that overflow when multiplied by three or four, and would then wrap to a small number.
const FAR: [usize; 4] = [usize::MAX / 4 + 1, usize::MAX / 3 + 1, usize::MAX / 2 + 1, usize::MAX];

/// Visits so many routes and paths with each set of flaws.
pub fn every_set(random: &mut Random, rounds: usize, visit: &mut impl FnMut(Route, Text)) {
    for set in 0..1 << FLAWS.len() {
        for _ in 0..rounds {
            let (route, text) = with_flaws(random, set);
            visit(route, text);
        }
    }
}

/// A route and a path with the flaws given by the bits of `set`.
fn with_flaws(random: &mut Random, set: usize) -> (Route, Text) {
    let size = *random.pick(&[1, 2, 5]);
    let (there, back) = (vec![["/A/B", "/A/C"]; size], vec![["/A/C", "/A/B"]; size]);
    let count = *random.pick(&[1, 2, 3, MAX_LEGS]);
    let legs: Vec<(usize, &[_])> =
        [&there, &back].into_iter().cycle().take(count).map(|list| (random.below(3), &list[..])).collect();
    let mut route = LentRoute::packed(&legs);
    let mut path = b"/A/B/C".to_vec();
    for (at, flaw) in FLAWS.iter().enumerate() {
        if set >> at & 1 == 1 {
            flaw(random, &mut route, &mut path);
        }
    }
    (Route::new(route), Text::new(&path))
}

/// The index of the numbers of one of the present legs.
fn a_leg(random: &mut Random, route: &LentRoute) -> Option<usize> {
    (route.present() > 0).then(|| 3 * random.below(route.present()))
}

/// The list of one leg has more pairs than allowed, and all of them exist.
fn too_many_pairs(random: &mut Random, route: &mut LentRoute, _: &mut Vec<u8>) {
    let (Some(leg), false) = (a_leg(random, route), route.list.places.is_empty()) else {
        return;
    };
    let pairs = random.within(MAX_PAIRS + 1..=MAX_PAIRS + 3);
    let numbers = 4 * (route.legs[leg + 1] % MAX_PAIRS + pairs);
    let places = route.list.places.iter().copied().cycle();
    route.list.places = places.take(numbers.max(route.list.places.len())).collect();
    route.legs[leg + 1] %= MAX_PAIRS;
    route.legs[leg + 2] = pairs;
}

/// The list of one leg starts or ends after the places, just or far. For an empty list this is not a flaw.
fn list_beyond_the_places(random: &mut Random, route: &mut LentRoute, _: &mut Vec<u8>) {
    let Some(leg) = a_leg(random, route) else {
        return;
    };
    let pairs = route.list.places.len() / 4;
    let far = *random.pick(&FAR);
    match random.below(7) {
        0 => route.legs[leg + 2] = pairs.saturating_sub(route.legs[leg + 1]) + random.within(1..=3),
        1 => route.legs[leg + 1] = pairs + random.within(0..=2),
        2 => route.legs[leg + 1] = far,
        3 => route.legs[leg + 2] = far,
        4 => route.legs[leg + 1..leg + 3].copy_from_slice(&[far, far]),
        5 => route.legs[leg + 1..leg + 3].copy_from_slice(&[far, 0]),
        _ => route.list.places.truncate((4 * pairs).saturating_sub(random.within(1..=4))),
    }
}

/// Repeats the legs beyond the maximum number of legs.
fn too_many_legs(random: &mut Random, route: &mut LentRoute, _: &mut Vec<u8>) {
    let legs = random.within(MAX_LEGS + 1..=MAX_LEGS + 3);
    route.legs = route.legs.iter().copied().cycle().take(3 * legs).collect();
    route.count = route.legs.len() / 3;
}

/// The count exceeds the numbers of the legs; three times the largest counts overflows.
fn count_beyond_the_legs(random: &mut Random, route: &mut LentRoute, _: &mut Vec<u8>) {
    let present = route.present();
    match random.below(3) {
        0 => route.legs.truncate((3 * present).saturating_sub(random.within(1..=3))),
        1 => route.count = present + random.within(1..=3),
        _ => route.count = random.pick(&FAR).saturating_add(present),
    }
}

/// Not a flaw: one leg gets another kind.
fn any_kind(random: &mut Random, route: &mut LentRoute, _: &mut Vec<u8>) {
    if let Some(leg) = a_leg(random, route) {
        route.legs[leg] = *random.pick(&[0, 1, 2, 3, 255, 256, usize::MAX]);
    }
}

/// Not a flaw: numbers after those of the counted legs, and places after those of the pairs, are ignored. It is applied last,
/// so that a count that exceeds its slice is sometimes made valid by garbage.
fn garbage_after(random: &mut Random, route: &mut LentRoute, path: &mut Vec<u8>) {
    flaws::garbage_after_the_list(random, &mut route.list, path);
    for _ in 0..random.within(1..=7) {
        route.legs.push(random.within(0..=2 * MAX_PAIRS));
    }
}
