//! Random lists of related ends, from which maps are built, rebased, deepened and composed.

use crate::comparison::Comparison;
use crate::makes::calls::Map;
use crate::maps::cases::{Pair, lay_out, pairs, path_for};
use crate::maps::flaws::FLAWS;
use crate::maps::list::{LentList, List};
use crate::text::Text;
use crate::times::special::FLOATS;
use texts::random::Random;

/// Two maps that share ends, each flawed one time in eight, and a source that one of them often has.
pub fn case(comparison: &mut Comparison, random: &mut Random) {
    let one = pairs(random);
    let other = related(random, &one);
    let mut source = end_for(random, &one);
    let map = map(random, &one, &mut source);
    let second = self::map(random, &other, &mut source);
    comparison.one_map(&map);
    let source = Text::new(&source);
    comparison.dropping_source(&map, &source);
    comparison.one_pair(&source, &Text::new(&end_for(random, &other)));
    comparison.rebase_target(&map, &source, &Text::new(&end_for(random, &other)));
    comparison.rebase_target(&second, &Text::new(&end_for(random, &other)), &source);
    comparison.deepen_to(&map, &source);
    comparison.deepen_to(&second, &Text::new(&path_for(random, &other)));
    comparison.two_maps(&map, &second);
    comparison.two_maps(&second, &map);
}

/// A list that often has ends of another one.
fn related(random: &mut Random, other: &[Pair]) -> Vec<Pair> {
    let mut list = pairs(random);
    for end in list.iter_mut().flatten() {
        if !other.is_empty() && random.one_in(2) {
            *end = any_end(random, other);
        }
    }
    list
}

fn any_end(random: &mut Random, pairs: &[Pair]) -> Vec<u8> {
    let pair = random.pick(pairs);
    random.pick(pair).clone()
}

/// One of the ends, or, one in four, any path.
fn end_for(random: &mut Random, pairs: &[Pair]) -> Vec<u8> {
    if pairs.is_empty() || random.one_in(4) {
        return path_for(random, pairs);
    }
    any_end(random, pairs)
}

fn map(random: &mut Random, pairs: &[Pair], text: &mut Vec<u8>) -> Map {
    let mut lent: LentList = lay_out(random, pairs);
    if random.one_in(8) {
        let flaw = *random.pick(&FLAWS);
        flaw(random, &mut lent, text);
    }
    Map { list: List::new(lent), time: time(random) }
}

/// A time offset, half of the time (0, 1).
fn time(random: &mut Random) -> [f64; 2] {
    if random.one_in(2) { [0.0, 1.0] } else { [*random.pick(FLOATS), *random.pick(FLOATS)] }
}
