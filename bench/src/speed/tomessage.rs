//! Sheets to messages, timed.

use super::checks::edited;
use super::{heading, side_by_side};
use crate::calls as proved;
use crate::long::Long;
use crate::messages;
use crate::plain::{read, write as plain};
use crate::random::Random;
use crate::signs::desk;
use std::hint::black_box;

pub fn run() {
    let common = sheet(103, &messages::common());
    heading("tomessage");
    line("a common 103", &common);
    for (kind, sign) in [(103, false), (103, true), (202, true)] {
        let m = messages::longest(&mut Random::new(1), kind, sign).bytes();
        let mark = if sign { "with" } else { "without" };
        line(&format!("longest {kind} {mark} the sign"), &sheet(kind, &m));
    }
    line("a common 103", &edited(&common, b"\n71A\t", b"\n71A\t\t"));
    line("a common 103", &edited(&common, b"\tOUR", b"\tO!R"));
    line("a common 103", &edited(&common, b"RUB", b"RUR"));
    line(
        "details of 8,000 letters",
        &edited(&common, b"\t10100\t", &details(8_000)),
    );
    line("10,000 bytes, many names", &lengthened(&common, b"\tPETR"));
    line("10,000 bytes, one name", &lengthened(&common, b"Z\xDF"));
    run_on();
}

/// Details that run on, behind an RPP line; and some that are too long.
fn run_on() {
    let repeated =
        |signs: &str, length: usize| -> String { signs.chars().cycle().take(length).collect() };
    let words = "ОПЛАТА ПО ДОГОВОРУ Abc-Line №17/5, GmbH Nord ЗА УСЛУГИ (ЧАСТЬ 2) ";
    let far_apart = format!("A{}", "-".repeat(40));
    for (name, text) in [
        ("Russian", repeated("Я", 150)),
        ("Russian", repeated("Я", 199)),
        ("Russian", repeated("Я", 200)),
        ("words", repeated(words, 150)),
        ("words", repeated(words, 180)),
        ("letter by letter", repeated("AЯbЧCЮ", 96)),
        ("Latin", repeated("Abcd", 190)),
        ("dashes", repeated("-", 186)),
        ("dashes", repeated("-", 187)),
        ("Latin far apart", repeated(&far_apart, 180)),
        ("Latin and dashes in turn", repeated("A-", 180)),
    ] {
        let details = text.chars().count();
        let sheet = with_details(true, &text);
        line(&format!("{details} of details, {name}"), &sheet);
    }
    let sheet = with_details(false, &repeated("Payment 12/7 (part), ", 201));
    line("201 of details without the sign", &sheet);
}

/// A 103 with an RPP part and this text.
pub fn with_details(sign: bool, text: &str) -> Vec<u8> {
    let long = Long {
        sign,
        rpp: true,
        regulatory: false,
        text: desk(text),
    };
    long.sheet()
}

fn details(letters: usize) -> Vec<u8> {
    [&b"\t10100\t"[..], &vec![0xDF; letters]].concat()
}

/// The sheet with so much behind the last name of 59 that it has 10,000 bytes.
fn lengthened(sheet: &[u8], by: &[u8]) -> Vec<u8> {
    let missing = 10_000 - sheet.len();
    let more: Vec<u8> = by.iter().copied().cycle().take(missing - 1).collect();
    edited(sheet, b"\n70\t", &[&more[..], b"A\n70\t"].concat())
}

/// The sheet of a right message.
fn sheet(kind: u32, m: &[u8]) -> Vec<u8> {
    let mut room = [0; 2_000];
    let units = read::to_sheet(kind, m, &mut room).expect("a right message");
    room[..units].to_vec()
}

fn line(name: &str, sheet: &[u8]) {
    let mut room = vec![0; 30_000];
    let name = match plain::to_message(sheet, &mut room) {
        Ok(units) => format!("{name} ({} bytes to {units})", sheet.len()),
        Err(refusal) => format!("{name}, {} at {}", refusal.number, refusal.place),
    };
    side_by_side(
        &name,
        &mut room[..],
        |room| proved::to_message(black_box(sheet), room),
        |room| plain::to_message(black_box(sheet), room),
    );
}
