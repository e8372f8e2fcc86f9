//! Two programs timed in turns.
use std::time::{Duration, Instant};

/// Nanoseconds a run of each, the least of nine measurements that take turns; of three where a run is long.
pub fn both(mut a: impl FnMut(), mut b: impl FnMut()) -> (f64, f64) {
    a();
    b();
    let start = Instant::now();
    a();
    b();
    let rounds = if start.elapsed() > Duration::from_millis(50) { 3 } else { 9 };
    let mut least = (f64::INFINITY, f64::INFINITY);
    for _ in 0..rounds {
        least.0 = least.0.min(measured(&mut a));
        least.1 = least.1.min(measured(&mut b));
    }
    least
}

/// Nanoseconds a run over two milliseconds, or over one run where that is longer.
fn measured(f: &mut impl FnMut()) -> f64 {
    let start = Instant::now();
    let mut runs = 0u32;
    loop {
        f();
        runs += 1;
        let took = start.elapsed();
        if took >= Duration::from_millis(2) {
            return took.as_nanos() as f64 / runs as f64;
        }
    }
}
