//! Random lists of related ends, and paths that have some of these ends as prefixes.

use crate::comparison::Comparison;
use crate::maps::flaws::FLAWS;
use crate::maps::list::{LentList, List, MAX_PAIRS};
use crate::text::Text;
use texts::damage::damaged;
use texts::ends::{family, path_under};
use texts::random::Random;

pub type Pair = [Vec<u8>; 2];

/// The number of paths for each list.
const PATHS: usize = 4;

/// Tries a list with some paths.
pub fn case(comparison: &mut Comparison, random: &mut Random) {
    let (list, texts) = list_and_paths(random);
    comparison.list_facts(&list);
    for text in &texts {
        comparison.map(&list, text);
    }
    comparison.map_all(&list, &texts);
}

/// A list, one in six flawed, and some paths.
pub fn list_and_paths(random: &mut Random) -> (List, Vec<Text>) {
    let pairs = pairs(random);
    let lent = lay_out(random, &pairs);
    if random.one_in(6) {
        return flawed(random, &pairs, lent);
    }
    let texts = (0..PATHS).map(|_| Text::new(&path_for(random, &pairs)));
    (List::new(lent), texts.collect())
}

/// The list and a path with one or two flaws, and another path.
fn flawed(random: &mut Random, pairs: &[Pair], mut lent: LentList) -> (List, Vec<Text>) {
    let mut path = path_for(random, pairs);
    for _ in 0..random.within(1..=2) {
        let flaw = *random.pick(&FLAWS);
        flaw(random, &mut lent, &mut path);
    }
    let other = path_for(random, pairs);
    (List::new(lent), vec![Text::new(&path), Text::new(&other)])
}

/// Pairs with few different ends, so that keys are often equal.
pub fn pairs(random: &mut Random) -> Vec<Pair> {
    let count = count(random);
    let size = random.within(2..=count + 3);
    let ends = family(random, size);
    (0..count).map(|_| [random.pick(&ends).clone(), random.pick(&ends).clone()]).collect()
}

/// A number of pairs, mostly small.
pub fn count(random: &mut Random) -> usize {
    match random.below(10) {
        0..=6 => random.within(0..=5),
        7 | 8 => random.within(6..=20),
        _ => random.within(MAX_PAIRS - 3..=MAX_PAIRS),
    }
}

/// A path for one of the pairs, in either direction, one in twenty with a wrong byte.
pub fn path_for(random: &mut Random, pairs: &[Pair]) -> Vec<u8> {
    let any: Pair = [b"/A".to_vec(), b"/B".to_vec()];
    let [source, target] = if pairs.is_empty() { &any } else { random.pick(pairs) };
    let path = if random.one_in(2) {
        path_under(random, source, target)
    } else {
        path_under(random, target, source)
    };
    if random.one_in(20) { damaged(random, &path) } else { path }
}

/// Stores the ends consecutively, or scattered over the store.
pub fn lay_out(random: &mut Random, pairs: &[Pair]) -> LentList {
    let mark = random.one_in(2);
    if random.one_in(2) {
        return LentList::packed(pairs, mark);
    }
    let mut lent = LentList { count: pairs.len(), mark, ..LentList::default() };
    for end in pairs.iter().flatten() {
        let place = scattered(random, &mut lent, end);
        lent.places.extend(place);
    }
    lent
}

/// The place of an end whose bytes are in the store already, or are appended after a gap.
fn scattered(random: &mut Random, lent: &mut LentList, end: &[u8]) -> [usize; 2] {
    if end.is_empty() {
        return [random.within(0..=lent.store.len()), 0];
    }
    if let Some(start) = lent.store.windows(end.len()).take(300).position(|bytes| bytes == end) {
        return [start, end.len()];
    }
    for _ in 0..random.below(4) {
        lent.store.push(random.below(256) as u8);
    }
    lent.stored(end)
}
