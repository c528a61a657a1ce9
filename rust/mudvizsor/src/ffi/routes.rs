//! The entries that map a path over a route.

use super::maps::Paths;
use super::{Reply, entry};

/// A route as it is lent to a call: the lists of its legs share one store.
#[derive(Clone, Copy)]
pub struct Route<'a> {
    /// The bytes of the ends of all legs.
    pub store: &'a [u8],
    /// Four numbers for each pair: start and length of the source, start and length of the target.
    pub places: &'a [usize],
    /// Three numbers for each leg: its kind (0 a map, 1 a map with the root-identity mark, any other number a relocate
    /// list), the index of its first pair in `places`, and its number of pairs. Legs may share pairs.
    pub legs: &'a [usize],
    /// The number of legs.
    pub count: usize,
}

/// Maps `path` out over the legs, the first one first, and writes the result. The value is the length written.
pub fn route_out(route: Route, path: &[u8], out: &mut [u8]) -> Reply {
    entry!(mudvizsor_route_out: route route, text path, out out,)
}

/// Maps `path` home over the legs, the last one first, and writes the result. The value is the length written.
pub fn route_home(route: Route, path: &[u8], out: &mut [u8]) -> Reply {
    entry!(mudvizsor_route_home: route route, text path, out out,)
}

/// Maps `path` out as [`route_out`] does, and tells which part of it all legs carried over unaltered. The value is the length
/// written, plus 256 times the index where that part begins in `path`, plus 65,536 times its length.
pub fn route_out_carried(route: Route, path: &[u8], out: &mut [u8]) -> Reply {
    entry!(mudvizsor_route_out_carried: route route, text path, out out,)
}

/// Maps `path` home as [`route_home`] does, and tells which part of it all legs carried over unaltered. The value is that of
/// [`route_out_carried`].
pub fn route_home_carried(route: Route, path: &[u8], out: &mut [u8]) -> Reply {
    entry!(mudvizsor_route_home_carried: route route, text path, out out,)
}

/// Maps each path out, or home if `home` is true. The result for path i is written to `out` at byte 255 i, and the number of
/// the [`Reply`] that [`route_out`] or [`route_home`] would return for it to element i of `replies`.
pub fn route_all(route: Route, home: bool, paths: Paths, out: &mut [u8], replies: &mut [usize]) -> Reply {
    entry!(mudvizsor_route_all: route route, flag home, paths paths, out out, slots replies,)
}
