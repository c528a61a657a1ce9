//! Random relocate lists of related ends, some flawed, and paths below these ends.

use crate::comparison::Comparison;
use crate::maps::cases::{Pair, lay_out, pairs, path_for};
use crate::maps::flaws::FLAWS;
use crate::maps::list::List;
use crate::text::Text;
use texts::random::Random;

/// The number of paths for each list.
const PATHS: usize = 3;

/// Tries a list, one in six flawed, with some paths and skipped sources.
pub fn case(comparison: &mut Comparison, random: &mut Random) {
    let pairs = pairs(random);
    let mut lent = lay_out(random, &pairs);
    let mut path = path_for(random, &pairs);
    if random.one_in(6) {
        let flaw = *random.pick(&FLAWS);
        flaw(random, &mut lent, &mut path);
    }
    let list = &List::new(lent);
    comparison.statuses(list);
    every_path_call(comparison, list, &Text::new(&path), &skipped(random, &pairs));
    for _ in 1..PATHS {
        let path = path_for(random, &pairs);
        every_path_call(comparison, list, &Text::new(&path), &skipped(random, &pairs));
    }
}

fn every_path_call(comparison: &mut Comparison, list: &List, text: &Text, skipped: &Text) {
    comparison.shift(list, text);
    comparison.chain(list, None, text);
    comparison.chain(list, Some(skipped), text);
}

/// A skipped source, mostly one of the list.
fn skipped(random: &mut Random, pairs: &[Pair]) -> Text {
    if pairs.is_empty() || random.one_in(4) {
        return Text::new(&path_for(random, pairs));
    }
    let [source, _] = random.pick(pairs);
    Text::new(source)
}
