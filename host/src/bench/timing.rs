//! Workers on the same load, timed in turns, so that what else the machine does falls on all.

use std::time::Instant;

/// Rounds of a comparison; an odd number, so that there is a median.
const ROUNDS: usize = 101;
/// About how long one worker is timed without a break.
const TURN_NANOSECONDS: f64 = 1e6;

/// Makes so many calls in a turn: nanoseconds a call.
pub type Worker<'a> = Box<dyn FnMut(u32) -> f64 + 'a>;

/// The worker that makes this call.
pub fn worker<'a>(mut call: impl FnMut() -> u32 + 'a) -> Worker<'a> {
    Box::new(move |calls| turn(&mut call, calls))
}

/// What a comparison gives: for each worker the nanoseconds a call in each round.
pub struct Compared(Vec<Vec<f64>>);

/// A worker's share of another one's time.
pub struct Ratio {
    /// The median of the rounds' ratios, not the ratio of the medians.
    pub median: f64,
    /// The middle half of the rounds' ratios.
    pub middle: [f64; 2],
}

impl Compared {
    /// Nanoseconds a call of a worker.
    pub fn time(&self, worker: usize) -> f64 {
        share(&self.0[worker], 0.5)
    }

    /// The first worker's share of another one's time.
    pub fn ratio(&self, other: usize) -> Ratio {
        let rounds = self.0[0].iter().zip(&self.0[other]);
        let ratios: Vec<f64> = rounds.map(|(a, b)| a / b).collect();
        Ratio {
            median: share(&ratios, 0.5),
            middle: [share(&ratios, 0.25), share(&ratios, 0.75)],
        }
    }
}

/// Times workers in turns.
pub fn compare(mut workers: Vec<Worker>) -> Compared {
    let calls: Vec<u32> = workers.iter_mut().map(calls_a_turn).collect();
    let mut times = vec![Vec::new(); workers.len()];
    for round in 0..ROUNDS {
        for at in order(round, workers.len()) {
            times[at].push(workers[at](calls[at]));
        }
    }
    Compared(times)
}

/// The order of the workers in a round. The one that begins changes, and of any two each comes
/// first about as often as the other, so that none has the better place.
fn order(round: usize, workers: usize) -> Vec<usize> {
    let mut order: Vec<usize> = (0..workers).map(|at| (round + at) % workers).collect();
    if round / workers % 2 == 1 {
        order.reverse();
    }
    order
}

/// Nanoseconds a call over so many calls.
fn turn(call: &mut impl FnMut() -> u32, calls: u32) -> f64 {
    let start = Instant::now();
    let mut sum = 0_u32;
    for _ in 0..calls {
        sum = sum.wrapping_add(call());
    }
    let took = start.elapsed();
    // What the calls gave is looked at, so that none can be left out.
    assert!(!took.is_zero() || sum > 0, "the clock stands still");
    took.as_nanos() as f64 / f64::from(calls)
}

/// How many calls fill a turn; the calls made here also warm the caches.
fn calls_a_turn(worker: &mut Worker) -> u32 {
    let mut calls = 1;
    while worker(calls) * f64::from(calls) < TURN_NANOSECONDS {
        calls *= 2;
    }
    calls
}

/// The value below which such a share of the values lies.
fn share(values: &[f64], part: f64) -> f64 {
    let mut sorted = values.to_vec();
    sorted.sort_by(f64::total_cmp);
    sorted[((sorted.len() - 1) as f64 * part).round() as usize]
}
