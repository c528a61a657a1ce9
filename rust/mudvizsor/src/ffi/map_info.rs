//! The entries that need only the number of pairs of a map, its mark and its time offset (offset and scale), not its list.
//!
//! For a map that is built the value of the reply is twice the number of its pairs, plus one if it has the mark, and its
//! time offset is written to `time`.

use super::Reply;

// SAFETY: these entries take plain numbers and write at most the two floats of `time`, which is borrowed mutably for the
// call, so they are safe to call with any arguments.
unsafe extern "C" {
    /// Builds the identity: no pairs, the mark, the time offset (0, 1).
    #[link_name = "mudvizsor_map_identity"]
    pub safe fn identity(time: &mut [f64; 2]) -> Reply;

    /// Builds the null map, which maps no path: no pairs, no mark, the time offset (0, 1).
    #[link_name = "mudvizsor_map_null"]
    pub safe fn null(time: &mut [f64; 2]) -> Reply;

    /// Returns whether the map has neither pairs nor the mark.
    #[link_name = "mudvizsor_map_is_null"]
    pub safe fn is_null(count: usize, mark: bool, offset: f64, scale: f64) -> bool;

    /// Returns whether the map has no pairs, but the mark.
    #[link_name = "mudvizsor_map_path_is_identity"]
    pub safe fn path_is_identity(count: usize, mark: bool, offset: f64, scale: f64) -> bool;

    /// Returns whether the map has no pairs, but the mark, and the time offset (0, 1).
    #[link_name = "mudvizsor_map_is_identity"]
    pub safe fn is_identity(count: usize, mark: bool, offset: f64, scale: f64) -> bool;

    /// Returns whether the map has the mark.
    #[link_name = "mudvizsor_map_has_root_identity"]
    pub safe fn has_root_identity(count: usize, mark: bool, offset: f64, scale: f64) -> bool;

    /// Writes the time offset of the map.
    #[link_name = "mudvizsor_map_time_offset"]
    pub safe fn time_offset(count: usize, mark: bool, offset: f64, scale: f64, time: &mut [f64; 2]);

    /// Builds the map with its time offset replaced. The caller keeps its list. Refused with 4 if `count` is more than 64.
    #[link_name = "mudvizsor_map_with_time_offset"]
    pub safe fn with_time_offset(
        count: usize,
        mark: bool,
        offset: f64,
        scale: f64,
        new_offset: f64,
        new_scale: f64,
        time: &mut [f64; 2],
    ) -> Reply;
}
