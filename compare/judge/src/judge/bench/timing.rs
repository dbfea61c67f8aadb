//! Times work: once, or in batches of which the best counts.

use std::time::{Duration, Instant};

/// Repetitions timed together: long against reading the clock, short against a time slice, so that
/// the best of many batches was not interrupted.
const BATCH: u32 = 64;

/// What a number of repetitions took, and a sum over what came out.
pub struct Part {
    pub took: Duration,
    pub sum: u64,
}

/// Times `work`, which answers its part of the sum.
pub fn timed(work: impl FnOnce() -> u64) -> Part {
    let start = Instant::now();
    let sum = work();
    Part { took: start.elapsed(), sum }
}

/// Makes `count` repetitions in batches. `batch` makes those from its first number on.
pub fn in_batches(count: u32, mut batch: impl FnMut(u32, u32) -> Part) -> Result<(), String> {
    let (mut best, mut sum, mut first) = (f64::INFINITY, 0u64, 0);
    while first < count {
        let size = BATCH.min(count - first);
        let part = batch(first, size);
        best = best.min(part.took.as_nanos() as f64 / f64::from(size));
        sum = sum.wrapping_add(part.sum);
        first += size;
    }
    println!("{best:.1} {sum}");
    Ok(())
}
