// How long something takes: rounds of turns, and the least and the median of the rounds.

use std::time::{Duration, Instant};

/// Nanoseconds a turn, of so many.
fn turns(mut turn: impl FnMut(), times: usize) -> f64 {
    let start = Instant::now();
    for _ in 0..times {
        turn();
    }
    start.elapsed().as_nanos() as f64 / times as f64
}

/// How many turns take about 0.2 ms.
fn turns_for(mut turn: impl FnMut()) -> usize {
    let one = turns(&mut turn, 1).min(turns(&mut turn, 1));
    (200_000.0 / one).clamp(1.0, 20_000.0) as usize
}

/// The least and the median of many rounds, for each of so many makes, in nanoseconds a turn. `turn` is one turn of a make; the makes take turns, so
/// that a noisy time meets all of them.
pub fn rounds(makes: usize, mut turn: impl FnMut(usize), budget: Duration) -> Vec<(f64, f64)> {
    let times: Vec<usize> = (0..makes).map(|m| turns_for(|| turn(m))).collect();
    let mut rounds = vec![Vec::new(); makes];
    let start = Instant::now();
    while rounds[0].len() < 3 || (start.elapsed() < budget && rounds[0].len() < 2000) {
        for m in 0..makes {
            rounds[m].push(turns(|| turn(m), times[m]));
        }
    }
    let least_and_median = |mut times: Vec<f64>| {
        times.sort_by(f64::total_cmp);
        (times[0], times[times.len() / 2])
    };
    rounds.into_iter().map(least_and_median).collect()
}
