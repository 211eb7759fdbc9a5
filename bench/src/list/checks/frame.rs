//! Frame, lines and tags: 18 and 1 to 7.

use super::{full, least, record, set, Record, KINDS};
use crate::damage;
use crate::random::Random;

pub fn add(random: &mut Random, records: &mut Vec<Record>) {
    types(records);
    lengths(random, records);
    spelt(103, FRAMES, records);
    spelt(103, LINES, records);
    spelt(202, WALKS, records);
    byte_values(records);
    tags(records);
    wrong_fields(records);
}

/// 18: numbers that are no type, also such as end in one's bits; and a message
/// given as the other type.
fn types(records: &mut Vec<Record>) {
    let right = full(103, false).bytes();
    for kind in [
        1,
        100,
        102,
        104,
        201,
        203,
        305,
        940,
        103 + (1 << 16),
        202 + (1 << 16),
        u32::MAX,
    ] {
        records.push(record(kind, right.clone()));
    }
    records.push(record(104, Vec::new()));
    records.push(record(202, right));
    records.push(record(103, full(202, false).bytes()));
}

/// 1, and the longest messages that pass it; a field of so many lines is 8.
fn lengths(random: &mut Random, records: &mut Vec<Record>) {
    for kind in KINDS {
        let mut message = full(kind, false);
        damage::stretch(random, &mut message, 10_000);
        let mut m = message.bytes();
        records.push(record(kind, m.clone()));
        m.insert(9_996, b'A');
        records.push(record(kind, m));
    }
    records.push(record(103, vec![0; 10_000]));
    records.push(record(202, vec![0; 10_001]));
    records.push(record(104, vec![0; 10_001]));
}

/// `|` stands for CR LF.
fn spelt(kind: u32, messages: &[&str], records: &mut Vec<Record>) {
    let bytes = |m: &&str| m.replace('|', "\r\n").into_bytes();
    records.extend(messages.iter().map(bytes).map(|m| record(kind, m)));
}

/// The frame and the line ends: 2 and 3.
const FRAMES: &[&str] = &[
    "",
    "{",
    "{4:",
    "{4:|",
    "{4:|-",
    "{4:|-}",
    "{4:|-}|",
    "{4:|-} ",
    " {4:|-}",
    "{5:|-}",
    "{4;|-}",
    "{4:\n-}",
    "{4:\r-}",
    "{4:-}",
    "{4:|:20:A-}",
    "{4:|:20:A|-",
    "{4:|:20:A|}",
    "{4:|:20:A\n-}",
    "{4:|:20:A\r-}",
    "{4:|:20:A|--}",
    "{4:|:20:A|-}-}",
    ":20:A|-}",
    "{4:|-}|-}",
    "{4:|:20:A|-}|-}",
    "{4:|:20:A\r|-}",
    "{4:|:20:A\n|-}",
    "{4:|:20:A|\n|-}",
    "{4:|:20:A|\n-}",
    "{4:|\r|-}",
    "{4:|\n|-}",
    "{4:|\n\r|-}",
    "{4:|:20:A\rB|-}",
    "{4:|:20:A\nB|-}",
    "{4:|:20:A|:23B:{|-}",
    "{4:|A|:20:!|-}",
    "{4:|A|:20:|:23B:|C!|-}",
    "{4:|:99:|:20:|\n|-}",
    "{4:|:99:|:20:|-|:23B:|C!|-}",
];

/// The lines: 4, and what looks like it and isn't.
const LINES: &[&str] = &[
    "{4:||-}",
    "{4:|A|-}",
    "{4:| |-}",
    "{4:|-|-}",
    "{4:|:20:A||-}",
    "{4:|:20:A|-B|-}",
    "{4:|:20:A|-|-}",
    "{4:|:20:A||:23B:|-}",
    "{4:|:20:A|B|||-}",
    "{4:|:|-}",
    "{4:|::|-}",
    "{4:|:2|-}",
    "{4:|:2:|-}",
    "{4:|:20|-}",
    "{4:|:20A|-}",
    "{4:|:20AB:|-}",
    "{4:|:200:|-}",
    "{4:|:20 :|-}",
    "{4:|:20:A|B:20:|:|-}",
    "{4:|:20:A|:99:|:|-}",
    "{4:|:99:|-A|-}",
    "{4:|:99:|:20:|:23B:|-|-}",
    "{4:|:20:A|:20:|B||-}",
    "{4:|:20:|-}",
    "{4:|:20::|-}",
    "{4:|:20:-|-}",
    "{4:|:20:|:23B:|:32A:|:50K:-A|:53B:|:59:|:70:|:71A::|-}",
    "{4:|:20:|+|:23B:|/|:32A:|.|:50K:|:53B:|:59:|(|:70:|'|:71A:|,|?|-}",
];

/// The walk: the first faulty field decides.
const WALKS: &[&str] = &[
    "{4:|:20:A|:21:B|:32A:C|D|:53B:|:56D:E|:58A:F|:72:|-}",
    "{4:|:20:A|:32A:C|D|:21:B|:53B:|:56D:E|:58A:F|:72:|-}",
    "{4:|:20:A|:21:B|:32A:C|D|:53B:|:56A:E|:56D:E|:58A:F|:72:|-}",
    "{4:|:20:A|:21:B|:32A:C|D|:53B:|:57D:E|:57A:E|:58A:F|:72:|-}",
    "{4:|:20:A|:21:B|:32A:C|D|:53B:|:58D:E|:58A:F|:72:|-}",
    "{4:|:20:A|:21:B|:32A:C|D|:53B:|:57D:E|:56A:E|:58A:F|:72:|-}",
    "{4:|:20:A|:21:B|:32A:C|D|:53B:|:52A:E|:58A:F|:72:|-}",
    "{4:|:20:A|:21:B|:32A:C|D|:53B:|:56D:E|:72:|:58A:F|-}",
    "{4:|:20:A|:21:B|:32A:C|D|:53B:|:56D:E|:58A:F|-}",
    "{4:|:20:A|:21:B|:32A:C|D|:53B:|:56D:E|:58A:F|:70:|:20:|-}",
    "{4:|:20:A|:21:B|:32A:C|D|:53B:|:56D:E|:58A:F|:20:|:70:|-}",
    "{4:|:20:A|:53B:B|:70:|:20:|-}",
    "{4:|:72:|-}",
    "{4:|:58D:A|:20:|-}",
];

/// Each byte value once, in a message that is right without it.
fn byte_values(records: &mut Vec<Record>) {
    for b in 0..=u8::MAX {
        let mut message = least(202, false);
        set(&mut message, "58D", "/1|A?A");
        message.fields[4].lines[1][1] = b;
        records.push(record(202, message.bytes()));
    }
}

/// The edges of digits and capitals, at each place of a tag.
fn tags(records: &mut Vec<Record>) {
    for byte in "/09:@AZ[a".chars() {
        for tag in [format!("{byte}0"), format!("2{byte}"), format!("20{byte}")] {
            let m = format!("{{4:\r\n:{tag}:\r\n-}}");
            records.push(record(103, m.into_bytes()));
        }
    }
}

/// 5, 6 and 7 at each field: with another tag, a second time, or left out.
fn wrong_fields(records: &mut Vec<Record>) {
    for kind in KINDS {
        let full = full(kind, false);
        for place in 0..full.fields.len() {
            let mut other = full.clone();
            other.fields[place].tag.replace_range(..1, "9");
            let mut twice = full.clone();
            twice.fields.insert(place, full.fields[place].clone());
            let mut without = full.clone();
            without.fields.remove(place);
            for message in [other, twice, without] {
                records.push(record(kind, message.bytes()));
            }
        }
    }
}
