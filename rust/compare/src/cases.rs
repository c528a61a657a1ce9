//! Random cases for paths: a path, a text that often is a prefix of it, and a new prefix; and a target for the path's brackets.

use crate::comparison::Comparison;
use crate::text::Text;
use texts::damage::damaged;
use texts::generate::{legal_text, length, new_prefix_for, prefix_for, target_for};
use texts::random::Random;

pub fn case(comparison: &mut Comparison, random: &mut Random) {
    let length = length(random);
    let [path, old, new] = texts(random, length).map(|bytes| Text::new(&bytes));
    comparison.one_text(&path);
    comparison.facts(&path);
    comparison.has_prefix(&path, &old);
    comparison.prefix_facts(&path, &old);
    comparison.replace_prefix(&path, &old, &new);
    let target = Text::new(&target_for(random, &path.bytes));
    comparison.replace_embedded_target(&path, &target);
}

/// A path of `length` bytes, one in five with a wrong byte, and an old and a new prefix for it.
pub fn texts(random: &mut Random, length: usize) -> [Vec<u8>; 3] {
    let legal = legal_text(random, length);
    let path = if random.one_in(5) { damaged(random, &legal) } else { legal };
    let old = prefix_for(random, &path);
    let new = new_prefix_for(random, &path, &old);
    [path, old, new]
}
