//! Random time offsets: any bits, special floats, and floats near another one.

use crate::comparison::Comparison;
use crate::times::special::FLOATS;
use texts::random::Random;

/// Tries two time offsets and a time with every call.
pub fn case(comparison: &mut Comparison, random: &mut Random) {
    let (offset, scale) = (float(random), float(random));
    let (other_offset, other_scale) = (float_near(random, offset), float_near(random, scale));
    comparison.scale_only(scale);
    comparison.one_offset([offset, scale]);
    comparison.apply([offset, scale], other_offset);
    comparison.two_offsets([offset, scale], [other_offset, other_scale]);
}

/// Any bits, one in four a special float, one in four of ordinary size.
fn float(random: &mut Random) -> f64 {
    match random.below(4) {
        0 => *random.pick(FLOATS),
        1 => ordinary(random),
        _ => f64::from_bits(random.bits()),
    }
}

/// A random float, or one next to `float`, or one that differs by about the tolerance.
fn float_near(random: &mut Random, float: f64) -> f64 {
    match random.below(4) {
        0 => f64::from_bits(float.to_bits().wrapping_add(random.bits() % 9).wrapping_sub(4)),
        1 => float + 1e-6 * (random.below(41) as f64 - 20.0) / 10.0,
        _ => self::float(random),
    }
}

/// A number of thousandths between -1000 and 1000.
fn ordinary(random: &mut Random) -> f64 {
    (random.below(2_000_001) as f64 - 1_000_000.0) / 1000.0
}
