//! Random routes whose legs map the result of the leg before, so that many paths are mapped by several legs.

use crate::comparison::Comparison;
use crate::maps::cases::{Pair, count, lay_out, path_for};
use crate::routes::calls::{CAPACITIES, OUT};
use crate::routes::flaws::FLAWS;
use crate::routes::lent_route::{LentRoute, MAX_LEGS, Route};
use crate::text::Text;
use original::sdf::Path;
use texts::MAX_PATH_LEN;
use texts::ends::family;
use texts::generate::{continued, prefixes};
use texts::random::Random;

/// The number of paths for each route besides the one for which its legs are generated.
const OTHER_PATHS: usize = 2;

/// The number of lists that are tried for a leg until one maps the path.
const TRIES: usize = 8;

/// A leg before it is stored.
struct Leg {
    kind: usize,
    pairs: Vec<Pair>,
}

/// Tries a route with some paths.
pub fn case(comparison: &mut Comparison, random: &mut Random) {
    let (route, texts) = route_and_paths(random);
    for text in &texts {
        comparison.reach.count(&route, text);
        comparison.route(&route, text, &CAPACITIES);
    }
    comparison.route_all(&route, &texts);
}

/// A route, one in six flawed, and some paths.
pub fn route_and_paths(random: &mut Random) -> (Route, Vec<Text>) {
    let size = random.within(3..=12);
    let ends = family(random, size);
    let pair = [random.pick(&ends).clone(), random.pick(&ends).clone()];
    let mut path = path_for(random, &[pair]);
    let legs = legs(random, &ends, &path);
    let mut texts: Vec<Text> =
        (0..OTHER_PATHS).map(|_| Text::new(&other_path(random, &legs, &path))).collect();
    let mut lent = lay_out_legs(random, &legs);
    if random.one_in(6) {
        for _ in 0..random.within(1..=2) {
            let flaw = *random.pick(&FLAWS);
            flaw(random, &mut lent, &mut path);
        }
    }
    texts.push(Text::new(&path));
    (Route::new(lent), texts)
}

/// Legs of which most map the result of the leg before.
fn legs(random: &mut Random, ends: &[Vec<u8>], path: &[u8]) -> Vec<Leg> {
    let mut legs = Vec::new();
    let mut reached = Text::new(path);
    for _ in 0..leg_count(random) {
        let (leg, made) = leg_for(random, ends, &legs, &reached);
        legs.push(leg);
        if let Some(path) = made {
            reached = Text::new(path.as_str().as_bytes());
        }
    }
    legs
}

/// A number of legs, mostly small.
fn leg_count(random: &mut Random) -> usize {
    match random.below(10) {
        0 => random.within(0..=1),
        1..=6 => random.within(2..=5),
        7 | 8 => random.within(6..=MAX_LEGS - 1),
        _ => MAX_LEGS,
    }
}

/// A leg and its result for the path that reached it: the first leg tried that has one or, one time in twelve, any leg.
fn leg_for(random: &mut Random, ends: &[Vec<u8>], before: &[Leg], reached: &Text) -> (Leg, Option<Path>) {
    let mut tries = if random.one_in(12) { 1 } else { TRIES };
    loop {
        let leg = any_leg(random, ends, before, reached);
        let made = OUT.expected(&Route::packed(&[(leg.kind, &leg.pairs)]), reached).ok();
        tries -= 1;
        if made.is_some() || tries == 0 {
            return (leg, made);
        }
    }
}

/// A leg with a new list, or with the list of an earlier leg, or a part of that.
fn any_leg(random: &mut Random, ends: &[Vec<u8>], before: &[Leg], reached: &Text) -> Leg {
    let kind = if random.one_in(3) { *random.pick(&[2, 2, 3, 256, usize::MAX]) } else { random.below(2) };
    if before.is_empty() || !random.one_in(6) {
        return Leg { kind, pairs: list_for(random, ends, reached) };
    }
    let earlier = &random.pick(before).pairs;
    let end = if random.one_in(2) { earlier.len() } else { random.within(0..=earlier.len()) };
    let start = if random.one_in(2) { 0 } else { random.within(0..=end) };
    Leg { kind, pairs: earlier[start..end].to_vec() }
}

/// Pairs of the given ends; mostly one of them has a source that is a prefix of the path that reached the leg.
fn list_for(random: &mut Random, ends: &[Vec<u8>], reached: &Text) -> Vec<Pair> {
    let mut pairs: Vec<Pair> =
        (0..count(random)).map(|_| [random.pick(ends).clone(), random.pick(ends).clone()]).collect();
    let source = end_above(random, &reached.bytes);
    if pairs.is_empty() || source.is_empty() || random.one_in(6) {
        return pairs;
    }
    let target = match random.below(3) {
        0 => random.pick(ends).clone(),
        1 => [&b"/New"[..], if source == b"/" { b"" } else { &source }].concat(),
        _ => [random.pick(ends), &b"/New"[..]].concat(),
    };
    let at = random.below(pairs.len());
    pairs[at] = [source, if target.starts_with(b"//") { b"/New".to_vec() } else { target }];
    pairs
}

/// A prefix of the path without its selections that is an end.
fn end_above(random: &mut Random, path: &[u8]) -> Vec<u8> {
    let Some(path) = Text::new(path).path().map(Path::strip_variant_selections) else {
        return Vec::new();
    };
    let prim = path.prim_path();
    random.pick(&prefixes(prim.as_str().as_bytes())).to_vec()
}

/// A path that starts like the one for which the legs are generated, or one for the first or the last leg.
fn other_path(random: &mut Random, legs: &[Leg], path: &[u8]) -> Vec<u8> {
    let [Some(first), Some(last)] = [legs.first(), legs.last()] else {
        return path.to_vec();
    };
    match random.below(4) {
        0 => path_for(random, &first.pairs),
        1 => path_for(random, &last.pairs),
        _ => {
            let end = end_above(random, path);
            let length = (end.len() + random.below(30)).min(MAX_PATH_LEN);
            continued(random, &end, length)
        }
    }
}

/// Stores the lists in the order of their legs or in reverse, equal ones often only once, some after a pair that no leg
/// uses.
fn lay_out_legs(random: &mut Random, legs: &[Leg]) -> LentRoute {
    let mut pairs: Vec<Pair> = Vec::new();
    let mut numbers = vec![[0; 3]; legs.len()];
    let (reversed, shared) = (random.one_in(2), !random.one_in(4));
    for at in 0..legs.len() {
        let at = if reversed { legs.len() - 1 - at } else { at };
        let list = &legs[at].pairs;
        let first = match find(&pairs, list).filter(|_| shared) {
            Some(first) => first,
            None => append(random, &mut pairs, list),
        };
        numbers[at] = [legs[at].kind, first, list.len()];
    }
    LentRoute { list: lay_out(random, &pairs), legs: numbers.concat(), count: legs.len() }
}

/// The index of a list in the pairs.
fn find(pairs: &[Pair], list: &[Pair]) -> Option<usize> {
    if list.is_empty() { None } else { pairs.windows(list.len()).position(|part| part == list) }
}

/// Appends a list to the pairs, sometimes after a pair that is not used, and returns its index. An empty list may start
/// anywhere.
fn append(random: &mut Random, pairs: &mut Vec<Pair>, list: &[Pair]) -> usize {
    if list.is_empty() {
        return random.within(0..=pairs.len() + 2);
    }
    if random.one_in(4) {
        pairs.push([b"no path".to_vec(), b"/A.b".to_vec()]);
    }
    pairs.extend_from_slice(list);
    pairs.len() - list.len()
}
