//! Times of two sides, taken alternately. The least of the rounds counts: whatever else the machine does only adds.

use std::time::{Duration, Instant};

const ROUNDS: usize = 25;
/// How long one round of one side takes at least, and all rounds of both sides about at most.
const ROUND: Duration = Duration::from_millis(4);
const BUDGET: Duration = Duration::from_secs(10);

fn timed(side: &mut dyn FnMut(), calls: u32) -> Duration {
    let start = Instant::now();
    for _ in 0..calls {
        side();
    }
    start.elapsed()
}

/// Calls that fill a round, and how long they took.
fn calls(side: &mut dyn FnMut()) -> (u32, Duration) {
    let mut calls = 1;
    loop {
        let took = timed(side, calls);
        if took >= ROUND {
            return (calls, took);
        }
        calls = (calls * 2).max((calls as f64 * 1.1 * ROUND.as_secs_f64() / took.as_secs_f64().max(1e-7)).min(1e6) as u32);
    }
}

/// The least nanoseconds of one call, for each side.
pub fn least<const N: usize>(mut sides: [&mut dyn FnMut(); N]) -> [f64; N] {
    let counted: Vec<_> = sides.iter_mut().map(|side| calls(side)).collect();
    let each: Duration = counted.iter().map(|c| c.1).sum();
    let rounds = ((BUDGET.as_secs_f64() / each.as_secs_f64()) as usize).clamp(3, ROUNDS);
    let mut least = [f64::INFINITY; N];
    for _ in 0..rounds {
        for (i, side) in sides.iter_mut().enumerate() {
            let took = timed(side, counted[i].0).as_nanos() as f64 / f64::from(counted[i].0);
            least[i] = least[i].min(took);
        }
    }
    least
}
