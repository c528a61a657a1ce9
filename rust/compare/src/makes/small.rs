//! Every list of a few pairs over a few ends, with and without the mark: maps are built from them, rebased, deepened, and
//! composed with each other.

use crate::comparison::Comparison;
use crate::makes::calls::Map;
use crate::maps::list::List;
use crate::maps::small::{ENDS, FEW_ENDS, pairs};
use crate::text::Text;
use texts::MAX_PATH_LEN;

const IDENTITY: [f64; 2] = [0.0, 1.0];

/// Time offsets, used in turn: an identity with either zero, an offset, a scale, both, a NaN.
const TIMES: [[f64; 2]; 6] = [IDENTITY, [-0.0, 1.0], [3.5, 1.0], [0.0, 0.5], [-24.0, -2.0], [f64::NAN, 0.0]];

const THREE_ENDS: [&str; 4] = ["", "/", "/A", "/A/B"];

pub fn at_most_two_pairs(comparison: &mut Comparison) {
    let sources: Vec<Text> = FEW_ENDS.iter().map(|end| Text::new(end.as_bytes())).collect();
    for map in maps(&lists(&ENDS)) {
        comparison.one_map(&map);
        for source in &sources {
            comparison.dropping_source(&map, source);
        }
    }
    for [source, target] in pairs(&ENDS) {
        comparison.one_pair(&Text::new(source.as_bytes()), &Text::new(target.as_bytes()));
    }
}

pub fn three_pairs(comparison: &mut Comparison) {
    let pairs = pairs(&FEW_ENDS);
    for one in &pairs {
        for two in &pairs {
            for three in &pairs {
                for map in maps(&[vec![*one, *two, *three]]) {
                    comparison.one_map(&map);
                    comparison.dropping_source(&map, &Text::new(one[0].as_bytes()));
                }
            }
        }
    }
}

/// Tries every list of at most two pairs, rebased from each text to each, and deepened to each.
pub fn moved(comparison: &mut Comparison) {
    let ends = ENDS.iter().map(|end| Text::new(end.as_bytes()));
    let long = [b"/A/", [b'B'; MAX_PATH_LEN].as_slice()].concat();
    let others = [b"/A{v=p}B".as_slice(), b"/A/B.a", b"/A/B.a[/A]", b"/A/", &long].map(Text::new);
    let texts: Vec<Text> = ends.chain(others).collect();
    for map in maps(&lists(&ENDS)) {
        for one in &texts {
            comparison.deepen_to(&map, one);
            for other in &texts {
                comparison.rebase_target(&map, one, other);
            }
        }
    }
}

/// Composes maps of at most one pair over all ends, then of at most two pairs over a few ends.
pub fn composed(comparison: &mut Comparison) {
    let mut single = vec![vec![]];
    single.extend(pairs(&ENDS).into_iter().map(|pair| vec![pair]));
    every_two(comparison, &maps(&single));
    every_two(comparison, &maps(&lists(&THREE_ENDS)));
}

fn every_two(comparison: &mut Comparison, maps: &[Map]) {
    for outer in maps {
        for inner in maps {
            comparison.two_maps(outer, inner);
        }
    }
}

type Pair = [&'static str; 2];

/// Every list of at most two pairs over these ends.
fn lists(ends: &[&'static str]) -> Vec<Vec<Pair>> {
    let pairs = pairs(ends);
    let mut lists = vec![vec![]];
    for one in &pairs {
        lists.push(vec![*one]);
        lists.extend(pairs.iter().map(|other| vec![*one, *other]));
    }
    lists
}

/// Each list without and with the mark.
fn maps(lists: &[Vec<Pair>]) -> Vec<Map> {
    let both = lists.iter().flat_map(|list| [(list, false), (list, true)]);
    let map = |(at, (list, mark)): (usize, (&Vec<Pair>, bool))| Map {
        list: List::packed(list, mark),
        time: TIMES[at * 7 / 3 % TIMES.len()],
    };
    both.enumerate().map(map).collect()
}
