//! Random texts with characters outside ASCII, in every call, and joins whose results end near the limit of length.

use crate::comparison::Comparison;
use crate::names::every_call::every_call;
use crate::text::Text;
use texts::MAX_PATH_LEN;
use texts::generate::{end_text, legal_text, length};
use texts::mixed::{append_characters, mixed_text, text_around_the_limit};
use texts::random::Random;

/// Prefixes, each with what comes before a name that follows it.
const OLD: [[&str; 2]; 9] = [
    ["", "/"],
    ["/", ""],
    ["/A", "/"],
    ["/é", "/"],
    ["/é", "."],
    ["/é", "{v=p}"],
    ["/A{v=p}", ""],
    ["/é{v=p}", ""],
    ["/A{v=p}{é=q}", "."],
];

/// The number of joins for each text.
const JOINS: usize = 5;

pub fn case(comparison: &mut Comparison, random: &mut Random) {
    let text = text(random);
    every_call(comparison, &Text::new(&text));
    for _ in 0..JOINS {
        let [path, old, new] = join(random).map(|bytes| Text::new(&bytes));
        comparison.has_prefix(&path, &old);
        comparison.prefix_facts(&path, &old);
        comparison.replace_prefix(&path, &old, &new);
    }
}

fn text(random: &mut Random) -> Vec<u8> {
    let length = length(random);
    match random.below(4) {
        0 => legal_text(random, length),
        1 => text_around_the_limit(random),
        _ => mixed_text(random, length),
    }
}

/// A path whose remainder begins with a character outside ASCII, its prefix, and a new one for which the result has about the
/// maximum length.
fn join(random: &mut Random) -> [Vec<u8>; 3] {
    let [old, separator] = *random.pick(&OLD);
    let mut path = format!("{old}{separator}").into_bytes();
    let end = path.len() + random.within(2..=24);
    append_characters(random, &mut path, end);
    path.extend(random.pick(&["", "", "/b", ".é", "{é=p}中", ".r[/é]"]).bytes());
    let rest = path.len() - old.len();
    let length = random.within(MAX_PATH_LEN - 3..=MAX_PATH_LEN + 2) - rest;
    let new_end = *random.pick(&["", "", "{v=p}", ".b"]);
    let new = [end_text(random, length - new_end.len()), new_end.into()].concat();
    [path, old.into(), new]
}

#[cfg(test)]
mod tests {
    use super::*;
    use crate::calls::replace_prefix;
    use crate::text::{MADE_NOT_LEGAL, MADE_TOO_LONG};
    use std::collections::BTreeMap;

    #[test]
    fn results_of_joins_are_on_both_sides_of_the_limit() {
        let (random, mut counts) = (&mut Random::new(1), BTreeMap::new());
        for _ in 0..5_000 {
            let [path, old, new] = join(random).map(|bytes| Text::new(&bytes));
            let answer = replace_prefix(&path, &old, &new).map(|made| made.as_str().len());
            *counts.entry(answer).or_insert(0) += 1;
        }
        for answer in [Ok(MAX_PATH_LEN - 1), Ok(MAX_PATH_LEN), Err(MADE_TOO_LONG), Err(MADE_NOT_LEGAL)] {
            assert!(counts.get(&answer).is_some_and(|count| *count > 100), "{answer:?} {counts:?}");
        }
    }
}
