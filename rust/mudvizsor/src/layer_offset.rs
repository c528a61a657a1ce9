//! Time offsets.

use crate::ffi::times;

/// A time offset: maps the time `t` of a layer to the time `offset + scale * t` of the layer that uses it.
///
/// ```
/// use mudvizsor::LayerOffset;
///
/// let late = LayerOffset::new(10.0, 2.0);
/// assert_eq!(late.apply(5.0), 20.0);
/// assert_eq!(late.inverse().apply(20.0), 5.0);
/// ```
#[derive(Debug, Clone, Copy, PartialEq)]
pub struct LayerOffset {
    /// The number that is added after scaling.
    pub offset: f64,
    /// The factor of a time.
    pub scale: f64,
}

/// The default is [`LayerOffset::IDENTITY`].
impl Default for LayerOffset {
    fn default() -> Self {
        LayerOffset::IDENTITY
    }
}

impl LayerOffset {
    /// The identity (0, 1), which maps every time to itself.
    ///
    /// ```
    /// # use mudvizsor::LayerOffset;
    /// assert_eq!(LayerOffset::IDENTITY.apply(7.5), 7.5);
    /// ```
    pub const IDENTITY: LayerOffset = LayerOffset { offset: 0.0, scale: 1.0 };

    /// Creates a time offset from its two numbers.
    ///
    /// ```
    /// # use mudvizsor::LayerOffset;
    /// assert_eq!(LayerOffset::new(0.0, 1.0), LayerOffset::IDENTITY);
    /// ```
    pub fn new(offset: f64, scale: f64) -> Self {
        read_offset(|out| times::new(offset, scale, out))
    }

    /// Creates a time offset with this scale and the offset 0.
    ///
    /// ```
    /// # use mudvizsor::LayerOffset;
    /// assert_eq!(LayerOffset::scale_only(2.0).apply(3.0), 6.0);
    /// ```
    pub fn scale_only(scale: f64) -> Self {
        read_offset(|out| times::scale_only(scale, out))
    }

    /// Returns whether both numbers are finite.
    ///
    /// ```
    /// # use mudvizsor::LayerOffset;
    /// assert!(LayerOffset::new(1.0, 0.0).is_valid());
    /// assert!(!LayerOffset::new(f64::NAN, 1.0).is_valid());
    /// ```
    pub fn is_valid(self) -> bool {
        times::is_valid(self.offset, self.scale)
    }

    /// Returns whether it is (0, 1). Minus zero counts as 0.
    ///
    /// ```
    /// # use mudvizsor::LayerOffset;
    /// assert!(LayerOffset::new(-0.0, 1.0).is_identity());
    /// ```
    pub fn is_identity(self) -> bool {
        times::is_identity(self.offset, self.scale)
    }

    /// Returns whether both are [valid](Self::is_valid) and differ by less than 1e-6 in each number, or both are not valid
    /// and have the same [bits](Self::to_bits).
    ///
    /// ```
    /// # use mudvizsor::LayerOffset;
    /// assert!(LayerOffset::new(1e-7, 1.0).is_close(LayerOffset::IDENTITY));
    /// ```
    pub fn is_close(self, other: LayerOffset) -> bool {
        times::is_close(self.offset, self.scale, other.offset, other.scale)
    }

    /// Returns the bit patterns of both numbers; that of every NaN is 0x7ff8_0000_0000_0000.
    ///
    /// ```
    /// # use mudvizsor::LayerOffset;
    /// assert_eq!(LayerOffset::IDENTITY.to_bits(), (0, 1.0_f64.to_bits()));
    /// ```
    pub fn to_bits(self) -> (u64, u64) {
        let mut out = [0; 2];
        times::to_bits(self.offset, self.scale, &mut out);
        (out[0], out[1])
    }

    /// Returns `offset + scale * time`, the product being rounded before the sum.
    ///
    /// ```
    /// # use mudvizsor::LayerOffset;
    /// assert_eq!(LayerOffset::new(10.0, 2.0).apply(5.0), 20.0);
    /// ```
    pub fn apply(self, time: f64) -> f64 {
        times::apply(self.offset, self.scale, time)
    }

    /// Returns the inverse, or (0, 1) if the scale is zero, which has none.
    ///
    /// ```
    /// # use mudvizsor::LayerOffset;
    /// assert_eq!(LayerOffset::new(10.0, 2.0).inverse(), LayerOffset::new(-5.0, 0.5));
    /// assert_eq!(LayerOffset::new(10.0, -0.0).inverse(), LayerOffset::IDENTITY);
    /// ```
    pub fn inverse(self) -> Self {
        read_offset(|out| times::inverse(self.offset, self.scale, out))
    }

    /// Returns whether it can be composed: both numbers are finite and the scale is greater than zero.
    ///
    /// ```
    /// # use mudvizsor::LayerOffset;
    /// assert!(!LayerOffset::new(0.0, -1.0).is_valid_composition());
    /// ```
    pub fn is_valid_composition(self) -> bool {
        times::is_valid_composition(self.offset, self.scale)
    }

    /// Returns it unchanged, or (0, 1) if it [cannot be composed](Self::is_valid_composition).
    ///
    /// ```
    /// # use mudvizsor::LayerOffset;
    /// assert_eq!(LayerOffset::new(3.0, -1.0).sanitized(), LayerOffset::IDENTITY);
    /// ```
    pub fn sanitized(self) -> Self {
        read_offset(|out| times::sanitized(self.offset, self.scale, out))
    }

    /// Returns `inner` followed by this time offset, which is the outer one.
    ///
    /// ```
    /// # use mudvizsor::LayerOffset;
    /// let (outer, inner) = (LayerOffset::new(10.0, 2.0), LayerOffset::new(1.0, 3.0));
    /// assert_eq!(outer.concatenate(inner), LayerOffset::new(12.0, 6.0));
    /// ```
    pub fn concatenate(self, inner: LayerOffset) -> Self {
        read_offset(|out| times::concatenate(self.offset, self.scale, inner.offset, inner.scale, out))
    }
}

/// Makes a call that writes a time offset, and returns that time offset.
pub(crate) fn read_offset(call: impl FnOnce(&mut [f64; 2])) -> LayerOffset {
    let mut out = [0.0; 2];
    call(&mut out);
    LayerOffset::from(out)
}

/// Converts from `[offset, scale]`.
impl From<[f64; 2]> for LayerOffset {
    fn from([offset, scale]: [f64; 2]) -> Self {
        LayerOffset { offset, scale }
    }
}

/// Converts to `[offset, scale]`.
impl From<LayerOffset> for [f64; 2] {
    fn from(time: LayerOffset) -> Self {
        [time.offset, time.scale]
    }
}

#[cfg(test)]
mod tests {
    use super::*;

    /// The product is rounded before the sum.
    #[test]
    fn concatenating_rounds_twice() {
        let (outer, inner) =
            (LayerOffset::new(-1.0, 1.0 + f64::EPSILON), LayerOffset::new(1.0 - f64::EPSILON, 1.0));
        let expected = outer.offset + outer.scale * inner.offset;
        assert_eq!(outer.concatenate(inner).offset.to_bits(), expected.to_bits());
        assert_eq!(expected, 0.0, "a fused product would give another number");
    }

    #[test]
    fn calls_that_only_copy_give_plain_fields() {
        for (offset, scale) in [(0.0, 1.0), (-0.0, 3.5), (f64::INFINITY, -1e300)] {
            let plain = |offset| LayerOffset { offset, scale }.to_bits();
            assert_eq!(LayerOffset::new(offset, scale).to_bits(), plain(offset));
            assert_eq!(LayerOffset::scale_only(scale).to_bits(), plain(0.0));
        }
    }

    #[test]
    fn a_nan_has_one_pattern() {
        let other = f64::from_bits(0xfff8_0000_0000_0001);
        assert_eq!(LayerOffset::new(other, 1.0).to_bits().0, 0x7ff8_0000_0000_0000);
        assert!(LayerOffset::new(other, 1.0).is_close(LayerOffset::new(f64::NAN, 1.0)));
    }

    #[test]
    fn zero_of_either_sign_has_no_inverse() {
        for scale in [0.0, -0.0] {
            assert_eq!(LayerOffset::new(4.0, scale).inverse(), LayerOffset::IDENTITY);
        }
        assert_eq!(<[f64; 2]>::from(LayerOffset::default()), [0.0, 1.0]);
    }
}
