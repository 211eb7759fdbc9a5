//! Details of a 103 that run on into 72: each cut and limit that the rules speak
//! of, where 72 stands, and what lets nothing run on.

use super::{full, least, length, lent, record, sheet_of, Record, MOST_ROOM};
use crate::signs::desk;

const RPP: &str = "72→1.240229.5.POST¶";

pub fn add(records: &mut Vec<Record>) {
    for sign in [false, true] {
        limits(sign, records);
        barred(sign, records);
        places(sign, records);
        rooms(sign, records);
    }
    for text in cuts() {
        both(true, &text, records);
    }
}

/// The mandatory records, with this text in 70 and this behind the last.
fn sheet(sign: bool, text: &str, behind: &str) -> Vec<u8> {
    let sheet = sheet_of(&least(103, sign));
    let records = sheet.split_inclusive(|&b| b == b'\n');
    let details = desk(&format!("70→10100→{text}¶"));
    let changed = records.map(|record| match record.starts_with(b"70\t") {
        true => &details,
        false => record,
    });
    let mut sheet: Vec<u8> = changed.flatten().copied().collect();
    sheet.extend(desk(behind));
    sheet
}

/// Without a record of 72 and with one.
fn both(sign: bool, text: &str, records: &mut Vec<Record>) {
    for behind in ["", RPP] {
        records.push(record(sheet(sign, text, behind)));
    }
}

/// One sign over and over, about the most that 70 takes, that 72 takes behind
/// it, and that both may come to.
fn limits(sign: bool, records: &mut Vec<Record>) {
    let letter = if sign { "Ж" } else { "A" };
    for count in [128, 129, 130, 131, 132, 140, 170, 198, 199, 200, 201, 202] {
        both(sign, &letter.repeat(count), records);
    }
    for count in [
        24, 25, 26, 27, 60, 185, 186, 187, 188, 189, 198, 199, 200, 201, 202,
    ] {
        both(sign, &"-".repeat(count), records);
        both(sign, &format!("{letter}{}", ":".repeat(count - 1)), records);
    }
    if sign {
        // Latin letters alone: one run in 70 or one in each field.
        for count in [126, 127, 128, 129, 193, 194, 195, 196, 197] {
            both(true, &"A".repeat(count), records);
        }
    }
}

/// Letters, then bytes that may not open a line of 70, then letters.
fn barred(sign: bool, records: &mut Vec<Record>) {
    let letter = if sign { "Ж" } else { "A" };
    for before in [1, 24, 26, 59, 96, 124] {
        for bars in [1, 35, 36] {
            for behind in [1, 70] {
                let text = [
                    letter.repeat(before),
                    "-".repeat(bars),
                    letter.repeat(behind),
                ];
                records.push(record(sheet(sign, &text.concat(), RPP)));
            }
        }
    }
}

/// Where the longest first half is not the one that leaves 70 the least room,
/// and where a cut within the Latin side tells.
fn cuts() -> Vec<String> {
    let blocks = |blocks: &[(&str, usize)]| -> String {
        blocks
            .iter()
            .map(|&(sign, times)| sign.repeat(times))
            .collect()
    };
    let mut cuts = Vec::new();
    for before in [124, 125, 126, 129] {
        for behind in [69, 70, 71, 72, 73] {
            cuts.push(blocks(&[("Ж", before), ("A", behind)]));
        }
    }
    for behind in 90..=93 {
        cuts.push(blocks(&[("Ж", 100), ("A", 5), ("Ж", behind)]));
        cuts.push(blocks(&[("Ж", 3), ("A", 120), ("Ж", behind - 20)]));
    }
    // Marks between two Latin letters leave the Latin side before a cut.
    for before in 122..=125 {
        for marks in ["-", "--", ". ", "5"] {
            cuts.push(format!("{}A{marks}A{}", "Ж".repeat(before), "Ж".repeat(9)));
        }
    }
    for marks in [20, 33, 34, 35, 60] {
        cuts.push(blocks(&[
            ("Ж", 22),
            ("A", 1),
            ("-", marks),
            ("A", 1),
            ("Ж", 80),
        ]));
        cuts.push(blocks(&[
            ("Ж", 90),
            ("A", 2),
            ("-", marks),
            ("A", 1),
            ("-", 30),
        ]));
    }
    for times in [60, 64, 65, 66] {
        cuts.push("AЖ".repeat(times));
        cuts.push("ОПЛАТА ПО CONTRACT №5 ".repeat(times / 8));
        cuts.push("- A- ".repeat(times / 2));
    }
    cuts
}

/// Where the rest goes; two records of 70 or 72 let nothing run on.
fn places(sign: bool, records: &mut Vec<Record>) {
    let letter = if sign { "Ж" } else { "A" };
    let long = letter.repeat(140);
    let too_long = letter.repeat(220);
    let tax = "77B→/N10/NS¶";
    for behind in [
        tax.to_string(),
        format!("{tax}{tax}"),
        format!("{RPP}{tax}"),
        format!("{tax}{RPP}"),
        format!("{RPP}{RPP}"),
        format!("{RPP}72→X¶"),
        format!("{RPP}{tax}{RPP}"),
        "72→X¶".to_string(),
        "72→1.240230.5.POST¶".to_string(),
        "72→-¶".to_string(),
        "70→10100→A¶".to_string(),
        format!("70→10100→{long}¶"),
        format!("{RPP}70→10100→A¶"),
        "99→A¶".to_string(),
        format!("99→A¶{tax}"),
        "71A→OUR¶".to_string(),
        "71A→_¶".to_string(),
        "71A→¶".to_string(),
    ] {
        for text in [&long, &too_long, letter] {
            records.push(record(sheet(sign, text, &behind)));
        }
    }
    // 72, 77B or 70 before the others.
    for early in [
        RPP.to_string(),
        tax.to_string(),
        format!("70→10100→{long}¶"),
    ] {
        let late = sheet(sign, &long, "");
        let (kind, rest) = late.split_at(7);
        records.push(record([kind, &desk(&early), rest].concat()));
        records.push(record([kind, &desk(&early), rest, &desk(tax)].concat()));
        records.push(record([kind, &desk(&early), rest, &desk(RPP)].concat()));
    }
    // All fields: 72 stands before 77B.
    let whole = sheet_of(&full(103, sign));
    let old: &[u8] = if sign {
        b"70\t10100\t\xC0\n"
    } else {
        b"70\t10100\tA\n"
    };
    let place = whole.windows(old.len()).position(|part| part == old);
    let (before, behind) = whole.split_at(place.expect("details of one letter"));
    let behind = &behind[old.len()..];
    let details = desk(&format!("70→10100→{long}¶"));
    let with_rpp = [before, &details, behind].concat();
    let without = [before, &details, &b"71A\tOUR\n77B\t/N10/NS\n"[..]].concat();
    records.push(record(with_rpp));
    records.push(record(without));
}

/// 17 names the whole length; 16 and what goes before need no room.
fn rooms(sign: bool, records: &mut Vec<Record>) {
    let letter = if sign { "Ж" } else { "A" };
    for behind in ["", RPP, "72→X¶", "77B→/N10/NS¶"] {
        let sheet = sheet(sign, &letter.repeat(180), behind);
        let needed = length(&sheet);
        for room in [0, needed - 1, needed, MOST_ROOM] {
            records.push(lent(room, sheet.clone()));
        }
    }
    for text in [
        "-".repeat(203),
        "_".repeat(140),
        format!("{}_", letter.repeat(250)),
    ] {
        records.push(lent(0, sheet(sign, &text, RPP)));
    }
}
