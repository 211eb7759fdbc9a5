//! Texts with the sign: 14, and what has a reading after all.

use super::{full, record, set, with, Record};

pub fn add(records: &mut Vec<Record>) {
    for (index, name) in NAMES.iter().enumerate() {
        for (kind, tag, before) in TAX_PLACES {
            let message = with(*kind, true, tag, &format!("{before}{name}"));
            records.push(record(*kind, message.bytes()));
        }
        let (kind, tag, before) = OTHER_PLACES[index % OTHER_PLACES.len()];
        let message = with(kind, true, tag, &format!("{before}{name}"));
        records.push(record(kind, message.bytes()));
    }
    // Without the sign a text is its own bytes, and reads as itself.
    for name in &NAMES[..20] {
        let message = with(103, false, "59", &format!("/1|{name}"));
        records.push(record(103, message.bytes()));
    }
    for name in LONG_NAMES {
        let message = with(103, true, "50K", name);
        records.push(record(103, message.bytes()));
    }
    each_letter(records);
    details(records);
    crowded(records);
    several(records);
}

/// The tax places: type, tag, and the lines before.
const TAX_PLACES: &[(u32, &str, &str)] = &[
    (103, "50K", ""),
    (103, "50K", "/1|"),
    (103, "59", "/1|"),
    (202, "58D", "/1|"),
];

/// Places behind a tax place, or in fields without one.
const OTHER_PLACES: &[(u32, &str, &str)] = &[
    (103, "59", "/1|INN7707083893|"),
    (103, "57D", "//RU044525202|"),
    (202, "58D", "/1|A|"),
    (202, "56D", "/30101810400000000225|A|"),
    (103, "50K", "A|"),
];

const NAMES: &[&str] = &[
    "'", "''", "''''", "'''", "W", "b", "'W'", "'A", "A'", "A'B", "'A'B'", "''A", "'/'", "'/A'",
    "''/", "'-'", "'-A'", "''-A", "''''-", "':'", "'A-'", "/A", "INN7", "I''NN7", "IN''N7",
    "INN''7", "INN'7'", "'INN'7", "'INN7'", "'I'NN7", "'IN'N7", "I'N'N7", "IN'N'7", "''INN7",
    "'INN''7'", "1''INN7", " INN7", "INN", "'INN'", "INNA7", "'INN'A", "'inn'7", "W''", "/W",
    "/'A", "'A'W",
];

/// 35 bytes, and the reading of a name that ends in another line.
const LONG_NAMES: &[&str] = &[
    "'~33'",
    "'~34",
    "~34W",
    "~34'",
    "'A|B'",
    "A'|'B",
    "A'B|C'D",
    "/1|'A|B'",
    "/1|A|B|C|'",
    "/1|A|B|C|W",
    "/1|A|B|C|''",
    "/1|A|B|C|'D'",
];

/// Each byte of the x set as a name of its own, on either side.
fn each_letter(records: &mut Vec<Record>) {
    let letters = "ABCDEFGHIJKLMNOPQRSTUVWXYZabcdefghijklmnopqrstuvwxyz09 /?().,+";
    for letter in letters.chars() {
        let message = with(202, true, "58D", &format!("/1|{letter}"));
        records.push(record(202, message.bytes()));
    }
    for letter in "AZazWbn0 ?(".chars() {
        let message = with(202, true, "58D", &format!("/1|'{letter}'"));
        records.push(record(202, message.bytes()));
    }
}

/// Details texts: the place is the text's first byte, on the line behind the
/// code if that ends its line. The Latin side may run over line ends.
fn details(records: &mut Vec<Record>) {
    let rpp_lines = [
        "",
        "/RPP/1.240229.5.POST|",
        "/RPP/123.240229.5.ELEK.240301|",
    ];
    for (index, text) in TEXTS.iter().enumerate() {
        let message = with(103, true, "70", &format!("'(VO10100)'{text}"));
        records.push(record(103, message.bytes()));
        let marked = text.replace('|', "|//");
        let content = format!("{}/NZP/'(VO10100)'{marked}", rpp_lines[index % 3]);
        let message = with(202, true, "72", &content);
        records.push(record(202, message.bytes()));
    }
}

const TEXTS: &[&str] = &[
    "W", "AW", "'A", "A'", "''", "''''", "'A'", "''A", "'A'B", "A'B'", "|W", "|''", "|'A", "|A",
    "|'A'", "A|W", "A|'", "A|''", "'|'", "'A|B'", "'A|B", "A'|'B", "A|B|'C", "A|B|C'", "'A|B|C'",
    "'|A|B'", "'/'", "'-'", "''-", "':'", "INN7", "-", "/", "'W'", "b", "'b'", "'|''|'",
];

/// Lines of dashes behind apostrophes that stand for nothing. Written anew no
/// line of 70 may begin with one: the first fits, of the others a rest runs on.
/// In a 202 all fit.
fn crowded(records: &mut Vec<Record>) {
    let line = format!("|''{}", "-".repeat(31));
    for count in 1..=3 {
        let rest = line.repeat(count);
        let message = with(103, true, "70", &format!("'(VO10100)'~24{rest}"));
        records.push(record(103, message.bytes()));
        let marked = rest.replace('|', "|//");
        let message = with(202, true, "72", &format!("/NZP/'(VO10100)'~19{marked}"));
        records.push(record(202, message.bytes()));
    }
}

/// More than one text without a reading: the earliest is named.
fn several(records: &mut Vec<Record>) {
    let mut message = full(103, true);
    let wrong = [
        ("50K", "/40702|INN7707083893.KPP770701001|W"),
        ("56D", "/30101810400000000225|W|W"),
        ("57D", "//RU044525202|A|W"),
        ("59", "/1|INN7707083893.KPP770701001|A|'"),
        ("70", "'(VO10100)'A|W"),
    ];
    for (tag, content) in wrong {
        set(&mut message, tag, content);
    }
    records.push(record(103, message.bytes()));
    for (tag, _) in wrong {
        set(&mut message, tag, super::right_content(103, tag, true));
        records.push(record(103, message.bytes()));
    }
}
