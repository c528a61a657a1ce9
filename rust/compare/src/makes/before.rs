//! The lists before redundant pairs are dropped, computed independently; if no dropping takes place, the resulting list.

use original::pcp::MapFunction;
use original::sdf::Path;

pub type Pairs = Vec<(Path, Path)>;

fn is_path_identity(map: &MapFunction) -> bool {
    map.path_pairs().is_empty() && map.has_root_identity()
}

/// The list of `inverse`: the ends exchanged.
pub fn exchanged(map: &MapFunction) -> Pairs {
    map.path_pairs().iter().map(|(source, target)| (target.clone(), source.clone())).collect()
}

/// The list of `compose`. If one side is the identity on paths, it is the list of the other.
pub fn composed(outer: &MapFunction, inner: &MapFunction) -> Pairs {
    if is_path_identity(outer) {
        return inner.path_pairs().to_vec();
    }
    if is_path_identity(inner) {
        return outer.path_pairs().to_vec();
    }
    composed_pairs(outer, inner)
}

/// The inner pairs with their targets mapped by the outer map, then the outer pairs whose sources map back to a source that
/// is not there yet.
fn composed_pairs(outer: &MapFunction, inner: &MapFunction) -> Pairs {
    let mut pairs: Pairs = Vec::new();
    for (source, target) in inner.path_pairs() {
        let mapped = if target.is_empty() { None } else { outer.map_source_to_target(target) };
        pairs.push((source.clone(), mapped.unwrap_or_default()));
    }
    for (source, target) in outer.path_pairs() {
        let Some(back) = inner.map_target_to_source(source) else {
            continue;
        };
        if pairs.iter().all(|(other, _)| *other != back) {
            pairs.push((back, target.clone()));
        }
    }
    pairs
}

/// The lists of `implied_class` for a transfer that is not the identity: those of the inverse, of the class after the inverse,
/// and of the transfer after that.
pub fn implied(transfer: &MapFunction, class: &MapFunction) -> Vec<Pairs> {
    let inverse = transfer.inverse();
    let after_inverse = class.compose(&inverse);
    vec![exchanged(transfer), composed(class, &inverse), composed(transfer, &after_inverse)]
}

/// The list of `rebase_target`: `from` replaced by `to` in the targets that have it as a prefix, or the pair of the two for
/// the identity.
pub fn rebased(map: &MapFunction, from: &Path, to: &Path) -> Pairs {
    if is_path_identity(map) {
        return vec![(from.clone(), to.clone())];
    }
    let rebased =
        |target: &Path| if target.has_prefix(from) { below(target, from, to) } else { target.clone() };
    map.path_pairs().iter().map(|(source, target)| (source.clone(), rebased(target))).collect()
}

/// The list of `deepen_to`: each pair with the source of the class becomes the pair of the node and its image under the class.
/// The list is unchanged if it has the node as a source, or no class.
pub fn deepened(map: &MapFunction, node: &Path) -> Pairs {
    let pairs = map.path_pairs();
    let Some((class, target)) = class_above(pairs, node) else {
        return pairs.to_vec();
    };
    if pairs.iter().any(|(source, _)| source == node) {
        return pairs.to_vec();
    }
    let deep = (node.clone(), below(node, class, target));
    pairs.iter().map(|pair| if pair.0 == *class { deep.clone() } else { pair.clone() }).collect()
}

/// The class: of the pairs whose source is a prefix of the node (an empty source counts), the last one with the most
/// elements.
fn class_above<'a>(pairs: &'a [(Path, Path)], node: &Path) -> Option<&'a (Path, Path)> {
    let mut class: Option<&(Path, Path)> = None;
    for pair in pairs {
        let is_deeper = class.is_none_or(|longest| longest.0.element_count() <= pair.0.element_count());
        if node.has_prefix(&pair.0) && is_deeper {
            class = Some(pair);
        }
    }
    class
}

fn below(path: &Path, old: &Path, new: &Path) -> Path {
    path.replace_prefix(old, new).expect("a prefix is replaced")
}
