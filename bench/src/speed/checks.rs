//! The check of whole messages and the values of 32A, timed.

use super::tomessage::with_details;
use super::{heading, side_by_side};
use crate::calls as proved;
use crate::messages::{self, Message};
use crate::plain::check as plain;
use crate::plain::write::to_message;
use crate::random::Random;
use std::hint::black_box;

pub fn run() {
    let common = messages::common();
    heading("checks");
    line("a common 103", 103, &common);
    for (kind, sign) in [(103, false), (103, true), (202, false), (202, true)] {
        let m = messages::longest(&mut Random::new(1), kind, sign).bytes();
        let mark = if sign { "with" } else { "without" };
        line(&format!("longest {kind} {mark} the sign"), kind, &m);
    }
    run_on();
    refused(&common);
    refused_at_length();
    values(&common);
}

/// Details that run on, and a byte too many of them.
fn run_on() {
    for sign in [false, true] {
        let m = full_details(sign);
        let mark = if sign { "with" } else { "without" };
        line(&format!("210 bytes of details {mark} the sign"), 103, &m);
        let over = edited(&m, b"\r\n-}", b"J\r\n-}");
        line("211 bytes of details", 103, &over);
    }
}

/// A 103 whose details run on behind an RPP line, as long as may be.
pub fn full_details(sign: bool) -> Vec<u8> {
    let text = if sign {
        "Я".repeat(199)
    } else {
        "A".repeat(201)
    };
    let mut room = [0; 2_000];
    let units = to_message(&with_details(sign, &text), &mut room);
    room[..units.expect("details that fit")].to_vec()
}

/// A common payment with one fault.
fn refused(common: &[u8]) {
    for (from, to) in [
        (":23B:CRED", ":23B:CREd"),
        ("ELEK", "MAIL"),
        ("RUB", "RUR"),
        ("'CNTR'", "'CNTR "),
    ] {
        let m = edited(common, from.as_bytes(), to.as_bytes());
        line("a common 103", 103, &m);
    }
}

/// 10,000 bytes that are refused: as early and as late as may be.
fn refused_at_length() {
    let long = long_field();
    let mut late_byte = long.bytes();
    let last = late_byte.len() - 5;
    late_byte[last] = b'!';
    let mut late_line = long.clone();
    let fields = late_line.fields.len();
    let lines = &mut late_line.fields[fields - 1].lines;
    lines.last_mut().expect("a last line")[0] = b'-';
    let mut early = long.clone();
    early.fields.remove(1);
    line("10,000 bytes", 103, &late_byte);
    line("10,000 bytes", 103, &late_line.bytes());
    line("10,000 bytes", 103, &early.bytes());
    line("10,000 bytes", 103, &long.bytes());
}

/// A 103 of 10,000 bytes whose beneficiary is one long run of lines of 33.
pub fn long_field() -> Message {
    let mut message = messages::longest(&mut Random::new(1), 103, false);
    let found = message.fields.iter().position(|field| field.tag == "59");
    let beneficiary = found.expect("a mandatory field");
    let lines = &mut message.fields[beneficiary].lines;
    lines.extend(std::iter::repeat_n(vec![b'N'; 33], 400));
    while message.bytes().len() > 10_000 {
        message.fields[beneficiary].lines.pop();
    }
    let missing = 10_000 - message.bytes().len();
    let last = message.fields[beneficiary].lines.last_mut();
    last.expect("a last line").extend(vec![b'N'; missing]);
    message
}

/// The message with one part replaced by another.
pub fn edited(m: &[u8], from: &[u8], to: &[u8]) -> Vec<u8> {
    let place = m.windows(from.len()).position(|part| part == from);
    let (before, rest) = m.split_at(place.expect("a part of the message"));
    [before, to, &rest[from.len()..]].concat()
}

fn line(name: &str, kind: u32, m: &[u8]) {
    let mut list = [0; 42];
    let name = match plain::check(kind, m, &mut list) {
        Ok((fields, _)) => format!("{name} ({} bytes, {fields} fields)", m.len()),
        Err(refusal) => format!("{name}, {} at {}", refusal.number, refusal.place),
    };
    side_by_side(
        &name,
        &mut list[..],
        |list| proved::check(kind, black_box(m), list),
        |list| plain::check(kind, black_box(m), list),
    );
}

fn values(m: &[u8]) {
    side_by_side(
        "content of a common 103",
        &mut (),
        |_| proved::content(103, black_box(m), 10),
        |_| plain::content(103, black_box(m), 10),
    );
    side_by_side(
        "kopecks of a common 103",
        &mut (),
        |_| proved::kopecks(103, black_box(m)),
        |_| plain::kopecks(103, black_box(m)),
    );
    side_by_side(
        "date of a common 103",
        &mut (),
        |_| proved::date(103, black_box(m)),
        |_| plain::date(103, black_box(m)),
    );
}
