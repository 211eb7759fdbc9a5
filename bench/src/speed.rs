//! Both builds timed side by side.

pub mod checks;
pub mod texts;
pub mod tomessage;
pub mod tosheet;

use std::hint::black_box;
use std::time::{Duration, Instant};

/// What is timed, by its name.
pub fn named(name: &str) -> Option<fn()> {
    match name {
        "texts" => Some(texts::run),
        "checks" => Some(checks::run),
        "tosheet" => Some(tosheet::run),
        "tomessage" => Some(tomessage::run),
        _ => None,
    }
}

/// One timed round should take about this long.
const ROUND: Duration = Duration::from_micros(500);
/// Rounds of each build, taken in turn; the best one counts.
const ROUNDS: usize = 200;

/// Times two calls in interleaved rounds and prints a line:
/// nanoseconds a call of the proved and the plain build, and their ratio.
/// Both get the same lent room, so that where it lies makes no difference.
pub fn side_by_side<R: ?Sized, A, B>(
    name: &str,
    room: &mut R,
    proved: impl Fn(&mut R) -> A,
    plain: impl Fn(&mut R) -> B,
) {
    let calls = calls_a_round(room, &plain);
    let mut best = [f64::INFINITY; 2];
    for _ in 0..ROUNDS {
        best[0] = best[0].min(round(calls, room, &proved));
        best[1] = best[1].min(round(calls, room, &plain));
    }
    let [proved, plain] = best;
    println!(
        "{name:<56} {proved:>10.1} {plain:>10.1} {:>7.2}",
        proved / plain
    );
}

pub fn heading(what: &str) {
    println!(
        "{what:<56} {:>10} {:>10} {:>7}",
        "proved ns", "plain ns", "ratio"
    );
}

fn calls_a_round<R: ?Sized, T>(room: &mut R, call: &impl Fn(&mut R) -> T) -> u32 {
    let mut calls = 1;
    while time(calls, room, call) < ROUND {
        calls *= 2;
    }
    calls
}

fn round<R: ?Sized, T>(calls: u32, room: &mut R, call: &impl Fn(&mut R) -> T) -> f64 {
    time(calls, room, call).as_nanos() as f64 / f64::from(calls)
}

fn time<R: ?Sized, T>(calls: u32, room: &mut R, call: &impl Fn(&mut R) -> T) -> Duration {
    let start = Instant::now();
    for _ in 0..calls {
        black_box(call(black_box(&mut *room)));
    }
    start.elapsed()
}
