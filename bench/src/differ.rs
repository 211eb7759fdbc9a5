//! Both builds on the same generated inputs: answers and lent units must agree.

pub mod breaks;
pub mod checks;
pub mod rpp;
pub mod runon;
pub mod texts;
pub mod tomessage;
pub mod tosheet;

use crate::plain::Refusal;
use crate::random::Random;
use std::collections::BTreeMap;
use std::process::exit;

/// A comparison by its name: it takes how many inputs, and where the generator starts.
pub fn named(name: &str) -> Option<fn(usize, u64)> {
    match name {
        "texts" => Some(texts::run),
        "checks" => Some(checks::run),
        "tosheet" => Some(tosheet::run),
        "tomessage" => Some(tomessage::run),
        "runon" => Some(runon::run),
        "rpp" => Some(rpp::run),
        "breaks" => Some(breaks::run),
        _ => None,
    }
}

/// How often each refusal number was seen, by call.
#[derive(Default)]
pub struct Seen(BTreeMap<(&'static str, u32), u64>);

impl Seen {
    pub fn note<T>(&mut self, call: &'static str, answer: &Result<T, Refusal>) {
        let number = match answer {
            Ok(_) => 0,
            Err(refusal) => refusal.number,
        };
        *self.0.entry((call, number)).or_default() += 1;
    }

    /// One line a call: how often it accepted, and each number it refused with.
    pub fn print(&self) {
        let mut last = "";
        for (&(call, number), times) in &self.0 {
            if call != last {
                let newline = if last.is_empty() { "" } else { "\n" };
                print!("{newline}{call}:");
                last = call;
            }
            match number {
                0 => print!(" accepted {times}"),
                _ => print!(" | {number}: {times}"),
            }
        }
        println!();
    }
}

/// Prints what went wrong with its input, and ends the run.
pub fn stop(what: &str, input: &[u8]) -> ! {
    tell(what, input);
    exit(1)
}

pub fn tell(what: &str, input: &[u8]) {
    println!("{what}");
    println!("input ({} bytes): {}", input.len(), hex(input));
}

fn hex(bytes: &[u8]) -> String {
    bytes.iter().map(|b| format!("{b:02x}")).collect()
}

/// A unit that can be lent: a byte or a 32-bit number.
pub trait Unit: Copy + PartialEq {
    /// What stands at a place before the call.
    fn pattern(place: usize) -> Self;
}

impl Unit for u8 {
    fn pattern(place: usize) -> u8 {
        (place as u8).wrapping_mul(37) ^ 0xA5
    }
}

impl Unit for u32 {
    fn pattern(place: usize) -> u32 {
        (place as u32).wrapping_mul(0x9E37_79B1) ^ 0xA5A5_A5A5
    }
}

/// Units behind the lent room that no call may touch.
const GUARD: usize = 16;

/// Lent room for one call, with a guard behind.
pub struct Lent<T> {
    units: Vec<T>,
    room: usize,
}

impl<T: Unit> Lent<T> {
    pub fn new() -> Lent<T> {
        Lent {
            units: Vec::new(),
            room: 0,
        }
    }

    /// Makes `room` units ready, filled with the pattern.
    pub fn prepare(&mut self, room: usize) -> &mut [T] {
        self.units.clear();
        self.units.extend((0..room + GUARD).map(T::pattern));
        self.room = room;
        &mut self.units[..room]
    }

    /// The first `n` units.
    pub fn written(&self, n: usize) -> &[T] {
        &self.units[..n]
    }

    /// Whether all from unit `n` on is still the pattern, the guard too.
    pub fn kept_from(&self, n: usize) -> bool {
        let kept = |(i, &unit): (usize, &T)| unit == T::pattern(n + i);
        n <= self.room && self.units[n..].iter().enumerate().all(kept)
    }

    pub fn same_as(&self, other: &Lent<T>) -> bool {
        self.units == other.units
    }
}

/// A room that is too small, exact or larger.
pub fn some_room(random: &mut Random, needed: usize) -> usize {
    match random.below(6) {
        0 => needed,
        1 => needed.saturating_sub(1),
        2 => 0,
        3 => random.below(needed + 1),
        4 => needed + 1,
        _ => needed + random.between(2, 40),
    }
}
