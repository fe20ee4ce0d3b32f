//! Rounds of both readers in turn, and the best round of each.
use std::time::{Duration, Instant};

/// The best round of the proved library and of the baseline, in microseconds a call.
#[derive(Clone, Copy)]
pub struct Times {
    pub proved: f64,
    pub baseline: f64,
}

impl Times {
    pub const WORST: Times = Times { proved: f64::MAX, baseline: f64::MAX };

    pub fn best(self, other: Times) -> Times {
        Times { proved: self.proved.min(other.proved), baseline: self.baseline.min(other.baseline) }
    }

    pub fn ratio(&self) -> f64 {
        self.proved / self.baseline
    }
}

/// How often a round calls, so that it lasts long enough for the clock.
fn repeats(call: &mut dyn FnMut()) -> u32 {
    const LONG: Duration = Duration::from_micros(100);
    let mut repeats = 1;
    loop {
        if time(call, repeats) * repeats as f64 >= LONG.as_secs_f64() * 1e6 {
            return repeats;
        }
        repeats *= 2;
    }
}

/// Microseconds a call.
fn time(call: &mut dyn FnMut(), repeats: u32) -> f64 {
    let start = Instant::now();
    for _ in 0..repeats {
        call();
    }
    start.elapsed().as_secs_f64() * 1e6 / repeats as f64
}

/// Alternating rounds for so long, at least two.
pub fn measure(budget: Duration, proved: &mut dyn FnMut(), baseline: &mut dyn FnMut()) -> Times {
    let (many, more) = (repeats(proved), repeats(baseline));
    let mut best = Times::WORST;
    let start = Instant::now();
    let mut rounds = 0;
    while rounds < 2 || start.elapsed() < budget {
        best = best.best(Times { proved: time(proved, many), baseline: time(baseline, more) });
        rounds += 1;
    }
    best
}
