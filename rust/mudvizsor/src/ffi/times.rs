//! The entries for time offsets. A time offset is passed as two floats, offset and scale; a resulting one is written to
//! `out`.

// SAFETY: these entries take plain floats and write at most the two numbers of `out`, which is borrowed mutably for the
// call, so they are safe to call with any arguments.
unsafe extern "C" {
    /// Writes (offset, scale).
    #[link_name = "mudvizsor_layer_offset_new"]
    pub safe fn new(offset: f64, scale: f64, out: &mut [f64; 2]);

    /// Writes (0, scale).
    #[link_name = "mudvizsor_layer_offset_scale_only"]
    pub safe fn scale_only(scale: f64, out: &mut [f64; 2]);

    /// Returns whether both numbers are finite.
    #[link_name = "mudvizsor_layer_offset_is_valid"]
    pub safe fn is_valid(offset: f64, scale: f64) -> bool;

    /// Returns whether it is (0, 1); minus zero counts as 0.
    #[link_name = "mudvizsor_layer_offset_is_identity"]
    pub safe fn is_identity(offset: f64, scale: f64) -> bool;

    /// Returns whether both are valid and differ by less than 1e-6 in each number, or both are not valid and have the same
    /// bits.
    #[link_name = "mudvizsor_layer_offset_is_close"]
    pub safe fn is_close(offset: f64, scale: f64, other_offset: f64, other_scale: f64) -> bool;

    /// Writes the bit patterns of both numbers; that of every NaN is 0x7ff8_0000_0000_0000.
    #[link_name = "mudvizsor_layer_offset_to_bits"]
    pub safe fn to_bits(offset: f64, scale: f64, out: &mut [u64; 2]);

    /// Returns offset + scale × time.
    #[link_name = "mudvizsor_layer_offset_apply"]
    pub safe fn apply(offset: f64, scale: f64, time: f64) -> f64;

    /// Writes the inverse, or (0, 1) if the scale is zero.
    #[link_name = "mudvizsor_layer_offset_inverse"]
    pub safe fn inverse(offset: f64, scale: f64, out: &mut [f64; 2]);

    /// Returns whether both numbers are finite and the scale is greater than zero.
    #[link_name = "mudvizsor_layer_offset_is_valid_composition"]
    pub safe fn is_valid_composition(offset: f64, scale: f64) -> bool;

    /// Writes it unchanged, or (0, 1) if it cannot be composed.
    #[link_name = "mudvizsor_layer_offset_sanitized"]
    pub safe fn sanitized(offset: f64, scale: f64, out: &mut [f64; 2]);

    /// Writes the inner time offset followed by the outer one, which is given first.
    #[link_name = "mudvizsor_layer_offset_concatenate"]
    pub safe fn concatenate(offset: f64, scale: f64, inner_offset: f64, inner_scale: f64, out: &mut [f64; 2]);
}
