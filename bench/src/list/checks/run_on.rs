//! Details of a 103 that run on into 72: the form of 72, 14 and 21, and what is
//! read from both fields.

use super::{full, least, lines, record, set, Record, AMPLE};
use crate::messages::{Field, Message};

const RPP: &str = "/RPP/1.240229.5.POST";

pub fn add(records: &mut Vec<Record>) {
    for note in NOTES {
        for sign in [false, true] {
            records.push(record(103, with_note(sign, "", note).bytes()));
        }
        let behind_rpp = format!("{RPP}|{note}");
        records.push(record(103, with_note(true, "", &behind_rpp).bytes()));
    }
    for &(details, note) in HALVES {
        records.push(record(103, with_note(true, details, note).bytes()));
        let behind_rpp = format!("{RPP}|{note}");
        records.push(record(103, with_note(true, details, &behind_rpp).bytes()));
        records.push(record(103, with_note(false, details, note).bytes()));
    }
    lengths(records);
    crowded(records);
    around(records);
}

/// The mandatory fields, this text in 70 if it is one, and this 72.
fn with_note(sign: bool, text: &str, note: &str) -> Message {
    let mut message = least(103, sign);
    if !text.is_empty() {
        let code = if sign { "'(VO10100)'" } else { "(VO10100)" };
        set(&mut message, "70", &format!("{code}{text}"));
    }
    message.fields.push(Field {
        tag: "72".to_string(),
        lines: lines(note),
    });
    message
}

/// 72 behind an RPP line or none: right ones, and 8.
const NOTES: &[&str] = &[
    "/NZP/A",
    "/NZP/A|//B",
    "/NZP/~30",
    "/NZP/~31",
    "/NZP/~30|//~33",
    "/NZP/~30|//~34",
    "/NZP/A|//~33|//~33|//~33|//~33",
    "/NZP/A|//~33|//~33|//~33|//~34",
    "/NZP/A|//B|//B|//B|//B",
    "/NZP/A|//B|//B|//B|//B|//B",
    "/NZP/A|//B|//B|//B|//B|//B|//B",
    "/NZP/-|//:|//-|///|//:",
    "/NZP//NZP/",
    "/NZP///A",
    "/NZP/ ",
    "/NZP/",
    "/NZP/|//A",
    "/NZP/A|//",
    "/NZP/A|//|//A",
    "/NZP/A|B",
    "/NZP/A|/B",
    "/NZP/A|/NZP/B",
    "/NZP/A|/RPP/1.240229.5.POST",
    "/NZP",
    "/NZPA",
    "/nzp/A",
    "//NZP/A",
    " /NZP/A",
    "//A",
    "A",
    "/BNF/A",
    // A code there is text.
    "/NZP/(VO12345)",
    "/NZP/(VO12345)A",
    "/NZP/'(VO12345)'",
    "/NZP/'(VO12345)'A",
];

/// Texts of 70 and what 72 holds: each is a text by itself.
const HALVES: &[(&str, &str)] = &[
    ("A", "/NZP/B"),
    ("|A", "/NZP/B|//C"),
    ("", "/NZP/B"),
    ("'A'", "/NZP/'B'"),
    ("'A", "/NZP/B'"),
    ("'A", "/NZP/B"),
    ("A", "/NZP/B'"),
    ("A", "/NZP/'B"),
    ("A", "/NZP/'B|//C'"),
    ("A", "/NZP/'|//B'"),
    ("A", "/NZP/B'|//'"),
    ("A", "/NZP/''"),
    ("A", "/NZP/'|//'"),
    ("A", "/NZP/''|//A"),
    ("A", "/NZP/W"),
    ("A", "/NZP/A|//W"),
    ("W", "/NZP/W"),
    ("W", "/NZP/A"),
    ("''", "/NZP/A"),
    ("A'|'", "/NZP/-|//:"),
    ("-", "/NZP/INN7"),
    ("INN", "/NZP/7"),
];

/// 70 full or not, and a rest so long that both come to just 210 bytes or more.
fn lengths(records: &mut Vec<Record>) {
    for sign in [false, true] {
        let code = if sign { 11 } else { 9 };
        for details in [
            "J".to_string(),
            format!("~{}", 35 - code),
            format!("~{}|~35|~35", 35 - code),
            format!("~{}|~35|~35|~35", 35 - code),
            "~7|~8|~9|''".to_string(),
        ] {
            let used = code + super::lines(&details).concat().len();
            for total in [210, 211, 230] {
                let rest = rest(total - used);
                for note in [rest.clone(), format!("{RPP}|{rest}")] {
                    records.push(record(103, with_note(sign, &details, &note).bytes()));
                }
                // Apostrophes that stand for nothing count, and so does what
                // is behind lines that aren't full.
                let idle = rest.replacen("/NZP/~30", "/NZP/''~28", 1);
                let short = rest.replacen("|", "|//A|", 1);
                for note in [idle, short] {
                    records.push(record(103, with_note(sign, &details, &note).bytes()));
                }
            }
        }
    }
}

/// So many letters in the lines of 72.
fn rest(letters: usize) -> String {
    let mut note = format!("/NZP/~{}", letters.min(30));
    let mut left = letters.saturating_sub(30);
    while left > 0 {
        note += &format!("|//~{}", left.min(33));
        left = left.saturating_sub(33);
    }
    note
}

/// Dashes behind apostrophes that stand for nothing. Written again 70 takes 24
/// of them: behind an RPP line the rest may be too much.
fn crowded(records: &mut Vec<Record>) {
    let dashes = |count: usize| "-".repeat(count);
    let later = format!("|''{}", dashes(33));
    for lines in 1..=3 {
        let details = format!("{}{}", dashes(24), later.repeat(lines));
        for last in [1, 2, 6, 7] {
            let rest = format!("/NZP/{}|//{}|//{}", dashes(30), dashes(33), dashes(last));
            for note in [rest.clone(), format!("{RPP}|{rest}")] {
                records.push(record(103, with_note(true, &details, &note).bytes()));
            }
        }
    }
}

/// 21 beside other faults, and in too little room.
fn around(records: &mut Vec<Record>) {
    let mut message = full(103, true);
    let details = "'(VO10100)'~24|~35|~35|~35";
    set(&mut message, "70", details);
    set(&mut message, "72", &format!("{RPP}|{}", rest(71)));
    for room in [0, AMPLE] {
        records.push(Record {
            kind: 103,
            room,
            message: message.bytes(),
        });
    }
    for (tag, content) in [
        ("32A", "240230RUB1,"),
        ("59", "/1|INN770708389312.KPP770701001|W"),
        ("77B", "A"),
    ] {
        let mut message = message.clone();
        set(&mut message, tag, content);
        records.push(record(103, message.bytes()));
    }
    set(&mut message, "72", &format!("{RPP}|{}", rest(70)));
    for room in [0, 3 * message.fields.len() - 1, AMPLE] {
        records.push(Record {
            kind: 103,
            room,
            message: message.bytes(),
        });
    }
}
