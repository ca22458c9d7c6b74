//! The clock: what each contender took, round by round.

use std::time::Instant;

/// What one contender took in each round, in nanoseconds a record or a call.
pub struct Times(pub Vec<f64>);

impl Times {
    pub fn median(&mut self) -> f64 {
        self.0.sort_by(f64::total_cmp);
        self.0[self.0.len() / 2]
    }

    /// The shortest, which a busy machine disturbs the least.
    pub fn shortest(&self) -> f64 {
        self.0.iter().copied().fold(f64::INFINITY, f64::min)
    }
}

/// What so many units of work took, in nanoseconds a unit.
pub fn timed(units: usize, work: impl FnOnce()) -> f64 {
    let start = Instant::now();
    work();
    start.elapsed().as_nanos() as f64 / units as f64
}

/// How many rounds a line of so many records is timed for; an odd number, for the median.
pub fn rounds(records: usize) -> usize {
    (100_000_000 / records).clamp(11, 401) | 1
}
