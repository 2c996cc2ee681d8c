//! Time per call, in nanoseconds: the least of some batches, each so many calls that it takes some milliseconds. What is compared is
//! timed batch by batch in turn, so that a processor that runs faster or slower for a while does so for all of it.

use std::time::{Duration, Instant};

/// How long a batch takes at least, and how many there are.
const BATCH: Duration = Duration::from_millis(2);
const BATCHES: usize = 9;

/// The time of so many turns.
pub type Batch<'a> = Box<dyn FnMut(u64) -> Duration + 'a>;

/// How many turns of a batch have its length.
fn turns_of(batch: &mut Batch) -> u64 {
    let mut turns = 1;
    loop {
        let taken = batch(turns);
        if taken >= BATCH {
            return turns;
        }
        let wanted = turns as f64 * 1.2 * BATCH.as_secs_f64() / taken.as_secs_f64().max(1e-9);
        turns = (wanted as u64).clamp(turns + 1, turns * 100);
    }
}

/// Nanoseconds a turn of each, the least of some batches, one of each in turn.
pub fn least<const N: usize>(mut batches: [Batch; N]) -> [f64; N] {
    let turns: [u64; N] = std::array::from_fn(|place| turns_of(&mut batches[place]));
    let mut best = [f64::INFINITY; N];
    for _ in 0..BATCHES {
        for ((batch, turns), best) in batches.iter_mut().zip(turns).zip(&mut best) {
            *best = best.min(batch(turns).as_secs_f64() * 1e9 / turns as f64);
        }
    }
    best
}

/// Calls, one after the other.
pub fn call<'a>(mut call: impl FnMut() + 'a) -> Batch<'a> {
    Box::new(move |turns| {
        let start = Instant::now();
        for _ in 0..turns {
            call();
        }
        start.elapsed()
    })
}

/// Calls that change what they are given, which is put back after each. Each call is timed by itself, so that reading the clock is
/// timed with it; putting back is not timed.
pub fn changing<'a, S>(
    state: &'a mut S,
    mut call: impl FnMut(&mut S) + 'a,
    mut put_back: impl FnMut(&mut S) + 'a,
) -> Batch<'a> {
    Box::new(move |turns| {
        let mut sum = Duration::ZERO;
        for _ in 0..turns {
            let start = Instant::now();
            call(state);
            sum += start.elapsed();
            put_back(state);
        }
        sum
    })
}

/// Reading the clock, and nothing else.
pub fn reading<'a>() -> Batch<'a> {
    changing(Box::leak(Box::new(())), |()| (), |()| ())
}
