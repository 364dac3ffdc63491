//! Measuring.

use std::hint::black_box;
use std::time::Instant;

/// Microseconds of one run, and its result.
pub fn timed(work: &mut dyn FnMut() -> u16) -> (f64, u16) {
    let start = Instant::now();
    let result = black_box(work());
    (start.elapsed().as_secs_f64() * 1e6, result)
}

/// The times of one thing over all repetitions.
#[derive(Default, Clone)]
pub struct Times(pub Vec<f64>);

impl Times {
    pub fn median(&self) -> f64 {
        let mut sorted = self.0.clone();
        sorted.sort_by(f64::total_cmp);
        sorted[sorted.len() / 2]
    }

    pub fn least(&self) -> f64 {
        self.0.iter().copied().fold(f64::INFINITY, f64::min)
    }
}
