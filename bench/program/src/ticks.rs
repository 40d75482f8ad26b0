//! Time by the processor's counter: one call is timed in some nanoseconds.

use std::arch::x86_64::{_mm_lfence, _rdtsc};
use std::time::{Duration, Instant};

/// What ran before is done, and what comes after has not begun.
#[inline(always)]
pub fn ticks() -> u64 {
    // SAFETY: every x86-64 has both.
    unsafe {
        _mm_lfence();
        let ticks = _rdtsc();
        _mm_lfence();
        ticks
    }
}

pub struct Timer {
    ticks_a_ns: f64,
    /// Ticks that timing nothing takes.
    empty: u64,
}

impl Timer {
    pub fn new() -> Self {
        let (start, first) = (Instant::now(), ticks());
        while start.elapsed() < Duration::from_millis(200) {}
        let ticks_a_ns = (ticks() - first) as f64 / start.elapsed().as_nanos() as f64;
        let mut empty: Vec<u64> = (0..10_001).map(|_| timed(|| ()).0).collect();
        Self { ticks_a_ns, empty: median(&mut empty) }
    }

    pub fn ns(&self, ticks: u64) -> f64 {
        ticks.saturating_sub(self.empty) as f64 / self.ticks_a_ns
    }
}

#[inline(always)]
pub fn timed<T>(call: impl FnOnce() -> T) -> (u64, T) {
    let start = ticks();
    let answer = std::hint::black_box(call());
    (ticks() - start, answer)
}

/// The middle one; 0 of none.
pub fn median(samples: &mut [u64]) -> u64 {
    samples.sort_unstable();
    samples.get(samples.len() / 2).copied().unwrap_or(0)
}
