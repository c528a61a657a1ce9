//! Related ends of pairs (sources and targets), and paths that have them as prefixes.

use crate::MAX_PATH_LEN;
use crate::generate::{continued, end_text, length};
use crate::random::Random;

/// There are only a few names, so that ends are often nested or equal.
const NAMES: [&str; 4] = ["A", "B", "AB", "c1"];

/// Names of which some begin or end with the same bytes.
const NAMES_OUTSIDE_ASCII: [&str; 5] = ["A", "é", "Aé", "è", "ĩ"];

/// Generates `size` ends, of which the first is `/`: nested, equal, nearly equal, empty, some near the length limit.
pub fn family(random: &mut Random, size: usize) -> Vec<Vec<u8>> {
    let with_long_ends = random.one_in(2);
    let names: &[&str] = if random.one_in(4) { &NAMES_OUTSIDE_ASCII } else { &NAMES };
    let mut family = vec![b"/".to_vec()];
    while family.len() < size {
        let name = random.pick(names);
        let end = relative(random, &family, name.as_bytes(), with_long_ends);
        family.push(end);
    }
    family
}

fn relative(random: &mut Random, family: &[Vec<u8>], name: &[u8], with_long_ends: bool) -> Vec<u8> {
    let other = random.pick(family);
    match random.below(10) {
        0 => Vec::new(),
        1 => other.clone(),
        2 => above(other).to_vec(),
        3 => fitting([other, name].concat(), other),
        4 | 5 if with_long_ends => long_end(random),
        4 => [b"/", name].concat(),
        _ => below(other, name),
    }
}

/// The end without its last name.
fn above(end: &[u8]) -> &[u8] {
    let slash = end.iter().rposition(|byte| *byte == b'/').unwrap_or(0);
    &end[..slash.max(1).min(end.len())]
}

/// The end with one more name.
fn below(end: &[u8], name: &[u8]) -> Vec<u8> {
    let separator: &[u8] = if end == b"/" { b"" } else { b"/" };
    fitting([end, separator, name].concat(), end)
}

/// An end of 200 to 255 bytes.
fn long_end(random: &mut Random) -> Vec<u8> {
    let length = random.within(200..=MAX_PATH_LEN);
    end_text(random, length)
}

/// `longer` if that is an end within the length limit, else `end`.
fn fitting(longer: Vec<u8>, end: &[u8]) -> Vec<u8> {
    if longer.len() <= MAX_PATH_LEN && longer.starts_with(b"/") { longer } else { end.to_vec() }
}

/// A path for a list that has the pair `from`, `to`: mostly `from` or a path below it. Often its length, or the length after
/// `from` is replaced by `to`, is near the limit.
pub fn path_under(random: &mut Random, from: &[u8], to: &[u8]) -> Vec<u8> {
    let length = match random.below(6) {
        0 => from.len(),
        1 | 2 => from.len() + random.below(12),
        3 => random.within(MAX_PATH_LEN - 2..=MAX_PATH_LEN),
        4 => (from.len() + random.within(MAX_PATH_LEN - 2..=MAX_PATH_LEN + 3)).saturating_sub(to.len()),
        _ => length(random),
    };
    let path = continued(random, from, length.min(MAX_PATH_LEN));
    if random.one_in(4) { with_selections(random, &path) } else { path }
}

/// `path` with some of its slashes replaced by a selection, within the length limit. A slash with which a path begins, also one
/// in brackets, is kept.
fn with_selections(random: &mut Random, path: &[u8]) -> Vec<u8> {
    let mut selected = path.to_vec();
    for at in (1..path.len()).rev() {
        let follows_a_name = path[at] == b'/' && path[at - 1] != b'[';
        if follows_a_name && selected.len() + 4 <= MAX_PATH_LEN && random.one_in(2) {
            selected.splice(at..=at, *b"{v=p}");
        }
    }
    selected
}

#[cfg(test)]
mod tests {
    use super::{above, family, path_under};
    use crate::MAX_PATH_LEN;
    use crate::legal::is_legal;
    use crate::random::Random;

    #[test]
    fn families_are_legal_ends() {
        let random = &mut Random::new(1);
        for _ in 0..2_000 {
            for end in family(random, 20) {
                assert!(is_legal(&end) && end.len() <= MAX_PATH_LEN, "{}", end.escape_ascii());
                assert!(!end.iter().any(|byte| b"{.".contains(byte)), "{}", end.escape_ascii());
            }
        }
    }

    #[test]
    fn paths_under_ends_are_legal() {
        let random = &mut Random::new(1);
        for _ in 0..2_000 {
            let ends = family(random, 6);
            for _ in 0..10 {
                let (from, to) = (random.pick(&ends), random.pick(&ends));
                let path = path_under(random, from, to);
                assert!(is_legal(&path) && path.len() <= MAX_PATH_LEN, "{}", path.escape_ascii());
            }
        }
    }

    #[test]
    fn some_paths_have_brackets_and_selections_in_them_or_before_them() {
        let (random, mut bracketed, mut inside, mut outside) = (&mut Random::new(1), 0, 0, 0);
        for _ in 0..10_000 {
            let path = path_under(random, b"/A/B", b"/C");
            let Some(at) = path.iter().position(|byte| *byte == b'[') else {
                continue;
            };
            bracketed += 1;
            inside += usize::from(path[at..].contains(&b'{'));
            outside += usize::from(path[..at].contains(&b'{'));
        }
        assert!(bracketed > 1_000 && inside > 500 && outside > 500, "{bracketed} {inside} {outside}");
    }

    #[test]
    fn some_families_have_names_outside_ascii() {
        let random = &mut Random::new(1);
        let outside = (0..1_000).filter(|_| !family(random, 6).concat().is_ascii()).count();
        assert!((200..700).contains(&outside), "{outside}");
    }

    #[test]
    fn above_removes_one_name() {
        for (end, expected) in [("", ""), ("/", "/"), ("/A", "/"), ("/A/B", "/A")] {
            assert_eq!(above(end.as_bytes()), expected.as_bytes());
        }
    }
}
