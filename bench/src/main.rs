//! The proved archive against a plain build of the same calls.

// Without the archive some generators have no use.
#![cfg_attr(not(feature = "archive"), allow(dead_code))]

#[cfg(feature = "archive")]
mod calls;
mod cases;
mod damage;
#[cfg(feature = "archive")]
mod differ;
mod exhaustive;
mod expect;
mod list;
mod long;
mod messages;
mod pad;
mod plain;
mod random;
mod rpp;
mod sheets;
mod signs;
#[cfg(feature = "archive")]
mod speed;
mod streams;

use std::env;
use std::process::exit;

const USAGE: &str = "bench differ texts|checks|tosheet|tomessage|runon|rpp|breaks [N] [SEED]
bench speed texts|checks|tosheet|tomessage
bench list > LIST
bench expect tests < LIST > OUTPUT
bench expect tosheet|tomessage < INPUT > OUTPUT";

fn main() {
    let words: Vec<String> = env::args().skip(1).collect();
    let words: Vec<&str> = words.iter().map(String::as_str).collect();
    match words[..] {
        #[cfg(feature = "archive")]
        ["differ", name, ref rest @ ..] => {
            let run = differ::named(name).unwrap_or_else(|| usage());
            run(count(rest), seed(rest))
        }
        #[cfg(feature = "archive")]
        ["speed", name] => {
            let run = speed::named(name).unwrap_or_else(|| usage());
            run()
        }
        ["list"] => list::run(),
        ["expect", "tests"] => expect::tests::run(),
        ["expect", "tosheet"] => expect::tosheet::run(),
        ["expect", "tomessage"] => expect::tomessage::run(),
        _ => usage(),
    }
}

/// How many inputs are generated: the first number given, or a million.
fn count(rest: &[&str]) -> usize {
    number(rest.first()).unwrap_or(1_000_000) as usize
}

/// Where the generator starts: the second number given, or 1.
fn seed(rest: &[&str]) -> u64 {
    number(rest.get(1)).unwrap_or(1)
}

fn number(word: Option<&&str>) -> Option<u64> {
    word.map(|word| word.parse().unwrap_or_else(|_| usage()))
}

fn usage() -> ! {
    eprintln!("{USAGE}");
    exit(2)
}
