//! The entries that map a path.

use super::{Reply, entry};

/// A list of pairs as it is lent to a call.
#[derive(Clone, Copy)]
pub struct List<'a> {
    /// The bytes of the ends (sources and targets).
    pub store: &'a [u8],
    /// Four numbers for each pair: start and length of the source, start and length of the target.
    pub places: &'a [usize],
    /// The number of pairs.
    pub count: usize,
    /// The root-identity mark.
    pub mark: bool,
}

/// Which of the three mapping calls of a map to make.
#[derive(Debug, Clone, Copy, PartialEq, Eq)]
pub enum Direction {
    /// `map_source_to_target`.
    Out,
    /// `map_target_to_source`.
    Home,
    /// `translate_to_target`: from source to target without selections, if the result maps back through the same pair.
    Translated,
}

impl Direction {
    /// The number that the library has for it.
    fn number(self) -> usize {
        match self {
            Direction::Out => 0,
            Direction::Home => 1,
            Direction::Translated => 2,
        }
    }
}

/// Maps `path` and writes the result. The value is the length written.
pub fn apply(direction: Direction, list: List, path: &[u8], out: &mut [u8]) -> Reply {
    match direction {
        Direction::Out => entry!(mudvizsor_map_source_to_target: list list, text path, out out,),
        Direction::Home => entry!(mudvizsor_map_target_to_source: list list, text path, out out,),
        Direction::Translated => entry!(mudvizsor_translate_to_target: list list, text path, out out,),
    }
}

/// Maps `path` as [`apply`] does, and tells which part of it was carried over unaltered: the rest, from an index to the end of
/// `path`. The value is the length written, plus 256 times the index where the rest begins, plus 65,536 times its length.
pub fn apply_carried(direction: Direction, list: List, path: &[u8], out: &mut [u8]) -> Reply {
    match direction {
        Direction::Out => entry!(mudvizsor_map_source_to_target_carried: list list, text path, out out,),
        Direction::Home => entry!(mudvizsor_map_target_to_source_carried: list list, text path, out out,),
        Direction::Translated => {
            entry!(mudvizsor_translate_to_target_carried: list list, text path, out out,)
        }
    }
}

/// Many paths as they are lent to one call.
#[derive(Clone, Copy)]
pub struct Paths<'a> {
    /// The bytes of the paths.
    pub texts: &'a [u8],
    /// Two numbers for each path: start and length.
    pub spots: &'a [usize],
    /// The number of paths.
    pub count: usize,
}

/// Maps each path. The result for path i is written to `out` at byte 255 i, and the number of the [`Reply`] that [`apply`]
/// would return for it to element i of `replies`.
pub fn apply_all(
    direction: Direction,
    list: List,
    paths: Paths,
    out: &mut [u8],
    replies: &mut [usize],
) -> Reply {
    entry!(mudvizsor_map_all: list list, number direction.number(), paths paths, out out, slots replies,)
}
