//! Calls whose lists before dropping are as long as possible: the buffers that the crate lends are large enough for them.

use super::*;

/// Pairs of ends of 255 bytes; the sources start with one letter, the targets with another.
fn longest(count: usize, source: char, target: char) -> Vec<(String, String)> {
    (0..count).map(|i| (end(source, i), end(target, i))).collect()
}

/// An end of 255 bytes that is not a prefix of another one.
fn end(first: char, i: usize) -> String {
    format!("{}{i:02}", named(first, MAX_PATH_LEN - 2))
}

fn made(pairs: Vec<(String, String)>) -> MapFunction {
    let count = pairs.len();
    let map = MapFunction::new(pairs).unwrap();
    assert_eq!(map.pairs().len(), count);
    map
}

/// Whether a call needs exactly this many bytes and pairs: with one fewer of either it is refused with 5, and only then.
fn needs(bytes: usize, pairs: usize, call: impl Fn(MapBuffers) -> Reply) -> bool {
    let is_short = |bytes, pairs| build(bytes, pairs, &call) == Err(Refusal::NoRoom);
    is_short(bytes - 1, pairs) && is_short(bytes, pairs - 1) && !is_short(bytes, pairs)
}

/// Each target gets the only target of the outer map as a prefix: 64 pairs, each as long as possible.
#[test]
fn targets_composed() {
    let outer = MapFunction::from_pair("/", end('T', 0)).unwrap();
    let inner = made(longest(MAX_PAIRS, 'S', 'M'));
    assert!(needs(MAX_PAIRS * COMPOSED_PAIR_BYTES, MAX_PAIRS, |buffers| {
        map_build::compose(outer.lent(), inner.lent(), buffers)
    }));
    assert_eq!(outer.compose(&inner), Err(Refusal::MadeTooLong));
}

/// Each source gets the only source of the inner map as a prefix; the pair of that source comes first, and its target is
/// empty.
#[test]
fn sources_composed() {
    let outer = made(longest(MAX_PAIRS - 1, 'M', 'T'));
    let inner = MapFunction::from_pair(end('S', 0), "/").unwrap();
    assert!(needs((MAX_PAIRS - 1) * COMPOSED_PAIR_BYTES + MAX_PATH_LEN, MAX_PAIRS, |buffers| {
        map_build::compose(outer.lent(), inner.lent(), buffers)
    }));
    assert_eq!(outer.compose(&inner), Err(Refusal::MadeTooLong));
}

#[test]
fn targets_rebased() {
    let (map, to) = (made(longest(MAX_PAIRS, 'S', 'T')), path(&end('U', 0)));
    for from in [Path::empty(), Path::root()] {
        assert!(needs(MAX_PAIRS * COMPOSED_PAIR_BYTES, MAX_PAIRS, |buffers| {
            map_build::rebase_target(map.lent(), from.as_bytes(), to.as_bytes(), buffers)
        }));
        assert_eq!(map.rebase_target(&from, &to), Err(Refusal::MadeTooLong));
    }
}

/// All pairs have the selected source, so each becomes the pair of the node and the image of the node under the last pair.
#[test]
fn sources_deepened() {
    let node = path(&end('N', 0));
    for source in ["", "/"] {
        let map = made((0..MAX_PAIRS).map(|i| (source.to_string(), end('T', i))).collect());
        assert!(needs(MAX_PAIRS * COMPOSED_PAIR_BYTES, MAX_PAIRS, |buffers| {
            map_build::deepen_to(map.lent(), node.as_bytes(), buffers)
        }));
        assert_eq!(map.deepen_to(&node), Err(Refusal::MadeTooLong));
    }
}

/// Each target gets the only target of the class as a prefix, and then the target of the transfer's pair with the source `/`.
/// That pair needs fewer bytes than the others, by 254, 255 and 255 in the three lists; all other bytes are used.
#[test]
fn targets_implied() {
    let pairs = longest(MAX_PAIRS - 1, 'S', 'T').into_iter().chain([("/".to_string(), end('U', 0))]);
    let transfer = made(pairs.collect());
    let class = MapFunction::from_pair("/", end('C', 0)).unwrap();
    let lent = MAX_PAIRS * IMPLIED_PAIR_BYTES.iter().sum::<usize>();
    assert!(needs(lent - (254 + 255 + 255), 3 * MAX_PAIRS, |buffers| {
        map_build::implied_class(transfer.lent(), class.lent(), buffers)
    }));
    assert_eq!(transfer.implied_class(&class), Err(Refusal::MadeTooLong));
}

/// The longest maps that are accepted: 64 pairs of 510 bytes, in every list.
#[test]
fn the_longest_maps() {
    let map = |source, target| made(longest(MAX_PAIRS, source, target));
    assert_eq!(map('M', 'T').compose(&map('S', 'M')), Ok(map('S', 'T')));

    let below = |top: &str, i: usize| format!("{top}/{}{i:02}", "n".repeat(MAX_PATH_LEN - top.len() - 3));
    let targets_below = |top| made((0..MAX_PAIRS).map(|i| (end('S', i), below(top, i))).collect());
    assert_eq!(targets_below("/A").rebase_target(&path("/A"), &path("/B")), Ok(targets_below("/B")));

    let and_one = |source: &str, target: &str| {
        let mut pairs = longest(MAX_PAIRS - 1, 'S', 'T');
        pairs.push((source.to_string(), target.to_string()));
        made(pairs)
    };
    let (node, target) = (below("/A", 0), below("/B", 0));
    assert_eq!(and_one("/A", "/B").deepen_to(&path(&node)), Ok(and_one(&node, &target)));

    let around =
        |name| made((0..MAX_PAIRS).map(|i| (end(name, i), end(name, (i + 1) % MAX_PAIRS))).collect());
    assert_eq!(map('S', 'T').implied_class(&around('S')), Ok(around('T').with_root_identity()));
}
