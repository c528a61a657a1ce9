//! The entries for relocate lists. The mark of a list is ignored.

use super::maps::List;
use super::{Reply, entry};

/// Writes the status byte of each pair. The value is the number of pairs.
pub fn analyze_relocate_occurrences(list: List, out: &mut [u8]) -> Reply {
    entry!(mudvizsor_analyze_relocate_occurrences: pairs list, out out,)
}

/// Follows the path through the relocates and writes where it ends. The value is 256 times the number of replacements, plus
/// the length written. If `skips` is true, pairs with the source `skipped` are ignored; else `skipped` is not read.
pub fn chain_through_relocates(
    list: List,
    skips: bool,
    skipped: &[u8],
    path: &[u8],
    out: &mut [u8],
) -> Reply {
    entry!(mudvizsor_chain_through_relocates: pairs list, flag skips, text skipped, text path, out out,)
}

/// Applies the relocate of the nearest ancestor to the endpoint, and writes the result, or the endpoint if there is none.
/// The value is the length written.
pub fn shift_through_nearest_ancestor(list: List, endpoint: &[u8], out: &mut [u8]) -> Reply {
    entry!(mudvizsor_shift_through_nearest_ancestor: pairs list, text endpoint, out out,)
}
