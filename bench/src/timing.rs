//! Interleaved timing: every round gives each contestant a turn, so that
//! whatever slows the machine slows them alike.

use std::hint::black_box;
use std::time::{Duration, Instant};

#[derive(Clone, Copy)]
pub struct Effort {
    pub rounds: usize,
    /// How long a turn lasts at least.
    pub turn: Duration,
}

impl Effort {
    pub const FULL: Effort = Effort {
        rounds: 300,
        turn: Duration::from_micros(100),
    };
    pub const QUICK: Effort = Effort {
        rounds: 60,
        turn: Duration::from_micros(100),
    };
}

/// The nanoseconds of one call, for each contestant: the least of all rounds,
/// since noise only adds.
pub fn time<C>(contestants: &mut [C], effort: Effort, mut once: impl FnMut(&mut C)) -> Vec<f64> {
    let mut calls = Vec::new();
    for contestant in contestants.iter_mut() {
        calls.push(calls_in_a_turn(effort.turn, |count| {
            repeat(count, || once(contestant))
        }));
    }
    let mut least = vec![f64::INFINITY; contestants.len()];
    for round in 0..effort.rounds {
        for ((contestant, &count), least) in contestants.iter_mut().zip(&calls).zip(&mut least) {
            let spent = moved(round, || repeat(count, || once(contestant)));
            *least = least.min(spent.as_nanos() as f64 / count as f64);
        }
    }
    least
}

/// Runs with the stack at one of four places, a quarter of a page and of a
/// cache line apart. Where a process has its stack is luck, and a frame that
/// straddles two pages can cost a call a third of its time.
fn moved<R>(round: usize, run: impl FnOnce() -> R) -> R {
    match round % 4 {
        0 => padded::<16, R>(run),
        1 => padded::<1056, R>(run),
        2 => padded::<2096, R>(run),
        _ => padded::<3136, R>(run),
    }
}

#[inline(never)]
fn padded<const BYTES: usize, R>(run: impl FnOnce() -> R) -> R {
    let padding = black_box([0_u8; BYTES]);
    let answer = run();
    black_box(padding);
    answer
}

fn repeat(count: u64, mut once: impl FnMut()) -> Duration {
    let start = Instant::now();
    for _ in 0..count {
        once();
    }
    start.elapsed()
}

/// Doubles the calls until they fill a turn, which warms the buffers too.
fn calls_in_a_turn(turn: Duration, mut spent: impl FnMut(u64) -> Duration) -> u64 {
    let mut count = 1;
    while spent(count) < turn {
        count *= 2;
    }
    count
}
