//! Compares the calls for time offsets: on all offsets of special floats, and on random ones.

pub mod calls;
pub mod cases;
pub mod special;

use crate::comparison::Comparison;
use crate::phase::phase;
use special::FLOATS;

pub fn run(comparison: &mut Comparison) {
    phase(comparison, "offsets of special floats, alone and with a time", |comparison| {
        for &scale in FLOATS {
            comparison.scale_only(scale);
        }
        for_all_offsets(|one| {
            comparison.one_offset(one);
            for &time in FLOATS {
                comparison.apply(one, time);
            }
        });
    });
    phase(comparison, "pairs of offsets of special floats", |comparison| {
        for_all_offsets(|one| for_all_offsets(|other| comparison.two_offsets(one, other)));
    });
}

fn for_all_offsets(mut visit: impl FnMut([f64; 2])) {
    for &offset in FLOATS {
        for &scale in FLOATS {
            visit([offset, scale]);
        }
    }
}
