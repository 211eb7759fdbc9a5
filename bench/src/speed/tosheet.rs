//! Messages to sheets, timed.

use super::checks::{edited, full_details, long_field};
use super::{heading, side_by_side};
use crate::calls as proved;
use crate::messages;
use crate::plain::read as plain;
use crate::random::Random;
use std::hint::black_box;

pub fn run() {
    let common = messages::common();
    heading("tosheet");
    line("a common 103", 103, &common);
    line("a 202", 202, &of_202());
    for (kind, sign) in [(103, false), (103, true), (202, false), (202, true)] {
        let m = messages::longest(&mut Random::new(1), kind, sign).bytes();
        let mark = if sign { "with" } else { "without" };
        line(&format!("longest {kind} {mark} the sign"), kind, &m);
    }
    for sign in [false, true] {
        let mark = if sign { "with" } else { "without" };
        let name = format!("210 bytes of details {mark} the sign");
        line(&name, 103, &full_details(sign));
    }
    for (from, to) in [
        (":23B:CRED", ":23B:CREd"),
        ("RUB", "RUR"),
        ("'CNTR'", "'CNTR "),
    ] {
        let m = edited(&common, from.as_bytes(), to.as_bytes());
        line("a common 103", 103, &m);
    }
    line("10,000 bytes", 103, &long_field().bytes());
}

fn of_202() -> Vec<u8> {
    messages::right_of(&mut Random::new(1), 202, true).bytes()
}

fn line(name: &str, kind: u32, m: &[u8]) {
    let mut room = [0; 2_000];
    let name = match plain::to_sheet(kind, m, &mut room) {
        Ok(units) => format!("{name} ({} bytes to {units})", m.len()),
        Err(refusal) => format!("{name}, {} at {}", refusal.number, refusal.place),
    };
    side_by_side(
        &name,
        &mut room[..],
        |room| proved::to_sheet(kind, black_box(m), room),
        |room| plain::to_sheet(kind, black_box(m), room),
    );
}
