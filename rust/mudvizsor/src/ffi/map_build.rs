//! The entries that build a map.
//!
//! The value of a successful reply is twice the number of pairs, plus one if the map has the mark.

use super::maps::List;
use super::{Reply, entry};

/// A map as it is lent to a call: its list of pairs, with the mark, and its time offset.
#[derive(Clone, Copy)]
pub struct Map<'a> {
    /// The pairs and the mark.
    pub list: List<'a>,
    /// The time offset: offset and scale.
    pub time: [f64; 2],
}

/// The buffers to which a map is written.
pub struct MapBuffers<'a> {
    /// The bytes of the ends: source, target, source, target, ..
    pub out: &'a mut [u8],
    /// The places of the ends, four numbers for each pair, as in [`List::places`].
    pub slots: &'a mut [usize],
    /// The time offset: offset and scale.
    pub time: &'a mut [f64; 2],
}

/// Builds the map of the pairs in canonical form. The mark of the list is ignored.
pub fn new(list: List, buffers: MapBuffers) -> Reply {
    let MapBuffers { out, slots, time } = buffers;
    entry!(mudvizsor_map_new: pairs list, out out, slots slots, time time,)
}

/// Builds the map with its mark set.
pub fn with_root_identity(map: Map, buffers: MapBuffers) -> Reply {
    let MapBuffers { out, slots, time } = buffers;
    entry!(mudvizsor_map_with_root_identity: map map, out out, slots slots, time time,)
}

/// Builds the composition: the inner map followed by the outer one.
pub fn compose(outer: Map, inner: Map, buffers: MapBuffers) -> Reply {
    let MapBuffers { out, slots, time } = buffers;
    entry!(mudvizsor_map_compose: map outer, map inner, out out, slots slots, time time,)
}

/// Builds the map of a class arc propagated across the transfer map: transfer after class after inverse of the transfer,
/// with the mark set.
pub fn implied_class(transfer: Map, class: Map, buffers: MapBuffers) -> Reply {
    let MapBuffers { out, slots, time } = buffers;
    entry!(mudvizsor_map_implied_class: map transfer, map class, out out, slots slots, time time,)
}

/// Builds the map of one pair, without the mark.
pub fn from_pair(source: &[u8], target: &[u8], buffers: MapBuffers) -> Reply {
    let MapBuffers { out, slots, time } = buffers;
    entry!(mudvizsor_map_from_pair: text source, text target, out out, slots slots, time time,)
}

/// Builds the map of one pair, with the mark.
pub fn from_pair_identity(source: &[u8], target: &[u8], buffers: MapBuffers) -> Reply {
    let MapBuffers { out, slots, time } = buffers;
    entry!(mudvizsor_map_from_pair_identity: text source, text target, out out, slots slots, time time,)
}

/// Builds the map with the source and target of each pair exchanged.
pub fn inverse(map: Map, buffers: MapBuffers) -> Reply {
    let MapBuffers { out, slots, time } = buffers;
    entry!(mudvizsor_map_inverse: map map, out out, slots slots, time time,)
}

/// Builds the map without the pairs that have this source.
pub fn dropping_source(map: Map, source: &[u8], buffers: MapBuffers) -> Reply {
    let MapBuffers { out, slots, time } = buffers;
    entry!(mudvizsor_map_dropping_source: map map, text source, out out, slots slots, time time,)
}

/// Builds the map with the prefix `from` replaced by `to` in every target that has it. A map that is the identity on paths
/// becomes the pair `from` to `to`, with the mark.
pub fn rebase_target(map: Map, from: &[u8], to: &[u8], buffers: MapBuffers) -> Reply {
    let MapBuffers { out, slots, time } = buffers;
    entry!(mudvizsor_map_rebase_target: map map, text from, text to, out out, slots slots, time time,)
}

/// Builds the map in which the pairs with the longest source that is a prefix of the node apply at the node, which is
/// `path` without its selections.
pub fn deepen_to(map: Map, path: &[u8], buffers: MapBuffers) -> Reply {
    let MapBuffers { out, slots, time } = buffers;
    entry!(mudvizsor_map_deepen_to: map map, text path, out out, slots slots, time time,)
}

/// The value is 1 if the map is not null, both ends of every pair are equal, and the time offset is (0, 1); else 0.
pub fn is_noop(map: Map) -> Reply {
    entry!(mudvizsor_map_is_noop: map map,)
}
