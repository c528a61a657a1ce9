//! Times both sides alternately.

use std::sync::OnceLock;
use std::time::{Duration, Instant};

/// The number of rounds, of which the best counts.
const ROUNDS: usize = 15;

/// The number of runs of each side in a round.
const REPEATS: usize = 5;

/// The nanoseconds of one call on each side: the original, or another reference, and what is measured against it.
#[derive(Clone, Copy)]
pub struct Times {
    pub reference: f64,
    pub measured: f64,
}

impl Times {
    pub fn ratio(self) -> f64 {
        self.measured / self.reference
    }
}

/// Returns the best times of all rounds for one call, where each run makes the given number of calls.
pub fn best_times(calls: usize, mut reference: impl FnMut(), mut measured: impl FnMut()) -> Times {
    let mut best = Times { reference: f64::MAX, measured: f64::MAX };
    for _ in 0..ROUNDS {
        best.reference = best.reference.min(time(calls, &mut reference));
        best.measured = best.measured.min(time(calls, &mut measured));
    }
    best
}

fn time(calls: usize, run: &mut impl FnMut()) -> f64 {
    let start = Instant::now();
    for _ in 0..REPEATS {
        run();
    }
    start.elapsed().as_nanos() as f64 / (REPEATS * calls) as f64
}

/// The cycles of the processor's time-stamp counter in a nanosecond, measured once; `None` if there is no such counter.
pub fn cycles_per_nanosecond() -> Option<f64> {
    static RATE: OnceLock<Option<f64>> = OnceLock::new();
    *RATE.get_or_init(|| {
        let (start, first) = (Instant::now(), time_stamp()?);
        while start.elapsed() < Duration::from_millis(50) {}
        let (elapsed, last) = (start.elapsed(), time_stamp()?);
        Some((last - first) as f64 / elapsed.as_nanos() as f64)
    })
}

#[cfg(target_arch = "x86_64")]
fn time_stamp() -> Option<u64> {
    // SAFETY: the instruction reads a register that every x86-64 processor has; it reads and writes no memory.
    Some(unsafe { std::arch::x86_64::_rdtsc() })
}

#[cfg(not(target_arch = "x86_64"))]
fn time_stamp() -> Option<u64> {
    None
}
