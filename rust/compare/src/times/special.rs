//! Floats that are special cases for time offsets.

/// Both zeros, ones, infinities, NaNs, the largest and the smallest, the tolerance and its neighbours, frame
/// rates, and numbers whose products, quotients and sums round.
pub const FLOATS: &[f64] = &[
    0.0,
    -0.0,
    1.0,
    -1.0,
    ABOVE_ONE,
    BELOW_ONE,
    2.0,
    -2.0,
    0.5,
    3.0,
    5.0,
    0.1,
    0.2,
    0.3,
    -0.1,
    1.0 / 3.0,
    f64::INFINITY,
    f64::NEG_INFINITY,
    f64::from_bits(0x7ff8_0000_0000_0000),
    f64::from_bits(0xfff8_0000_0000_0000),
    f64::from_bits(0x7ff8_0000_0000_0001),
    f64::from_bits(0x7ff0_0000_0000_0001),
    f64::MAX,
    f64::MIN,
    f64::MIN_POSITIVE,
    -f64::MIN_POSITIVE,
    LARGEST_SUBNORMAL,
    SMALLEST,
    -SMALLEST,
    1e-6,
    1e-6_f64.next_up(),
    1e-6_f64.next_down(),
    -1e-6,
    (-1e-6_f64).next_up(),
    (-1e-6_f64).next_down(),
    1.0 + 1e-6,
    1.0 - 1e-6,
    (1.0_f64 + 1e-6).next_down(),
    // The largest float whose square is finite, and the next one.
    1.340_780_792_994_259_6e154,
    1.340_780_792_994_259_7e154,
    1e-162,
    // Above this number an odd integer is not a float.
    9_007_199_254_740_992.0,
    9_007_199_254_740_991.0,
    24.0,
    23.976,
    1001.0 / 24000.0,
];

const ABOVE_ONE: f64 = 1.0 + f64::EPSILON;
const BELOW_ONE: f64 = 1.0 - f64::EPSILON / 2.0;
const LARGEST_SUBNORMAL: f64 = f64::from_bits(0x000f_ffff_ffff_ffff);
const SMALLEST: f64 = f64::from_bits(1);
