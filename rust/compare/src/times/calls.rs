//! The calls for time offsets: the entry of the library and the function of the original. Results must agree bit for bit,
//! except that a NaN agrees with any NaN.

use crate::comparison::Comparison;
use crate::tally::{Call, Given};
use mudvizsor::ffi::times;
use original::sdf::LayerOffset;
use std::fmt::{self, Display};

/// Offset and scale.
type Offset = [f64; 2];

/// A call that returns a property of one time offset.
struct Test {
    name: &'static str,
    entry: extern "C" fn(f64, f64) -> bool,
    original: fn(&LayerOffset) -> bool,
}

const TESTS: [Test; 3] = [
    Test { name: "LayerOffset::is_valid", entry: times::is_valid, original: LayerOffset::is_valid },
    Test { name: "LayerOffset::is_identity", entry: times::is_identity, original: LayerOffset::is_identity },
    Test {
        name: "LayerOffset::is_valid_composition",
        entry: times::is_valid_composition,
        original: LayerOffset::is_valid_composition,
    },
];

/// A call that maps one time offset to another.
struct OffsetCall {
    name: &'static str,
    entry: extern "C" fn(f64, f64, &mut [f64; 2]),
    original: fn(LayerOffset) -> LayerOffset,
}

const OFFSET_CALLS: [OffsetCall; 3] = [
    OffsetCall { name: "LayerOffset::new", entry: times::new, original: |given| given },
    OffsetCall { name: "LayerOffset::inverse", entry: times::inverse, original: |given| given.inverse() },
    OffsetCall { name: "LayerOffset::sanitized", entry: times::sanitized, original: LayerOffset::sanitized },
];

impl Comparison {
    pub fn scale_only(&mut self, scale: f64) {
        let found = written(|out| times::scale_only(scale, out));
        self.offset("LayerOffset::scale_only", &[scale], LayerOffset::scale_only(scale), found);
    }

    /// Compares every call that takes just one time offset.
    pub fn one_offset(&mut self, one: Offset) {
        let [offset, scale] = one;
        let given = original(one);
        for test in &TESTS {
            self.test(test.name, &one, (test.original)(&given), (test.entry)(offset, scale));
        }
        for call in &OFFSET_CALLS {
            let found = written(|out| (call.entry)(offset, scale, out));
            self.offset(call.name, &one, (call.original)(given), found);
        }
        let mut bits = [0; 2];
        times::to_bits(offset, scale, &mut bits);
        let expected = <[u64; 2]>::from(given.to_bits()).map(f64::from_bits);
        self.floats("LayerOffset::to_bits", &one, expected, bits.map(f64::from_bits));
    }

    pub fn apply(&mut self, [offset, scale]: Offset, time: f64) {
        let expected = original([offset, scale]).apply(time);
        let found = times::apply(offset, scale, time);
        self.floats("LayerOffset::apply", &[offset, scale, time], [expected], [found]);
    }

    /// Compares every call that takes two time offsets.
    pub fn two_offsets(&mut self, one: Offset, other: Offset) {
        let ([offset, scale], [other_offset, other_scale]) = (one, other);
        let given = [offset, scale, other_offset, other_scale];
        let found = written(|out| times::concatenate(offset, scale, other_offset, other_scale, out));
        self.offset("LayerOffset::concatenate", &given, original(one).concatenate(&original(other)), found);
        let expected = original(one.map(with_one_nan)).is_close(&original(other.map(with_one_nan)));
        let found = times::is_close(offset, scale, other_offset, other_scale);
        self.test("LayerOffset::is_close", &given, expected, found);
    }

    fn offset(&mut self, name: &'static str, given: &[f64], expected: LayerOffset, found: Offset) {
        self.floats(name, given, [expected.offset, expected.scale], found);
    }

    fn floats<const N: usize>(
        &mut self,
        name: &'static str,
        given: &[f64],
        expected: [f64; N],
        found: [f64; N],
    ) {
        let agree = expected.into_iter().zip(found).all(|(expected, found)| is_same(expected, found));
        self.tally.values(Call { name, given: &Floats(given), capacity: None }, agree, expected, found);
    }

    fn test(&mut self, name: &'static str, given: &[f64], expected: bool, found: bool) {
        let call = Call { name, given: &Floats(given), capacity: None };
        self.tally.values(call, expected == found, expected, found);
    }
}

fn original([offset, scale]: Offset) -> LayerOffset {
    LayerOffset::new(offset, scale)
}

/// Makes a call with two lent floats and returns them. The floats on either side must not change.
fn written(call: impl FnOnce(&mut [f64; 2])) -> Offset {
    const MARGIN: f64 = 12345.678;
    let mut lent = [MARGIN; 4];
    let [before, out @ .., after] = &mut lent;
    call(out);
    assert_eq!([*before, *after], [MARGIN; 2], "memory next to the lent floats was written");
    *out
}

pub fn is_same(expected: f64, found: f64) -> bool {
    expected.to_bits() == found.to_bits() || expected.is_nan() && found.is_nan()
}

/// Replaces every NaN by the same one, for a call that compares bits: the requirements leave the bits of a NaN open.
fn with_one_nan(float: f64) -> f64 {
    if float.is_nan() { f64::NAN } else { float }
}

/// The input of a call that takes floats.
struct Floats<'a>(&'a [f64]);

impl Given for Floats<'_> {
    /// The number of bits from the highest one to the lowest one that is set.
    fn size(&self) -> usize {
        self.0.iter().map(|float| (u64::BITS - float.to_bits().trailing_zeros()) as usize).sum()
    }
}

impl Display for Floats<'_> {
    fn fmt(&self, f: &mut fmt::Formatter<'_>) -> fmt::Result {
        self.0.iter().try_for_each(|float| write!(f, " {float:?} ({:#018x})", float.to_bits()))?;
        f.write_str(":")
    }
}
