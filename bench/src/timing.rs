//! Times of several calls, taken in turn in one run.

use std::time::{Duration, Instant};

/// The least and the middle of many rounds, for one call, in microseconds.
#[derive(Clone, Copy)]
pub struct Times {
    pub least: f64,
    pub middle: f64,
}

/// Each round times a batch of every call, one after the other, for about this long in all.
pub fn interleaved(calls: &mut [&mut dyn FnMut()], long: Duration) -> Vec<Times> {
    let batch: Vec<u32> = calls.iter_mut().map(|call| batch_of(call)).collect();
    let mut rounds: Vec<Vec<f64>> = vec![Vec::new(); calls.len()];
    let begun = Instant::now();
    while begun.elapsed() < long || rounds[0].len() < 20 {
        for (k, call) in calls.iter_mut().enumerate() {
            let start = Instant::now();
            (0..batch[k]).for_each(|_| call());
            rounds[k].push(start.elapsed().as_secs_f64() * 1e6 / batch[k] as f64);
        }
    }
    rounds.into_iter().map(times).collect()
}

/// How many calls take about 200 microseconds.
fn batch_of(call: &mut &mut dyn FnMut()) -> u32 {
    (0..20).for_each(|_| call());
    let start = Instant::now();
    (0..20).for_each(|_| call());
    (0.0002 / (start.elapsed().as_secs_f64() / 20.0)).ceil() as u32
}

fn times(mut rounds: Vec<f64>) -> Times {
    rounds.sort_by(f64::total_cmp);
    Times { least: rounds[0], middle: rounds[rounds.len() / 2] }
}
