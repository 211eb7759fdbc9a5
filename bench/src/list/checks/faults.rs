//! Two faults in one message: the first in the rules' order is named, wherever
//! it stands.

use super::{full, lines, record, set, Record, AMPLE};
use crate::messages::{Field, Message};

pub fn add(records: &mut Vec<Record>) {
    for (index, one) in FAULTS.iter().enumerate() {
        for other in &FAULTS[index + 1..] {
            records.push(spoilt(&[one, other]));
        }
        records.push(spoilt(&[one]));
        records.push(spoilt(&FAULTS[index..].iter().collect::<Vec<_>>()));
    }
    twice(records);
}

/// A 103 with the sign that is about to be stored.
struct Draft {
    kind: u32,
    room: usize,
    message: Message,
    end: &'static str,
}

type Fault = fn(&mut Draft);

/// In the rules' order; the earlier ones stand late in the message, and each
/// leaves the others their place.
const FAULTS: &[Fault] = &[
    // 18
    |draft| draft.kind = 104,
    // 2
    |draft| draft.end = "-",
    // 3
    |draft| field(draft, "77B").lines[0].push(b'!'),
    // 4
    |draft| field(draft, "77B").lines.push(b"-".to_vec()),
    // 5
    |draft| append(draft, "99"),
    // 6
    |draft| append(draft, "72"),
    // 7
    |draft| drop_field(draft, "71A"),
    // 8
    |draft| set(&mut draft.message, "53B", "/D/3011181050000010000"),
    // 9
    |draft| set(&mut draft.message, "72", "/RPP/1.240229.5.POST.240230"),
    // 10
    |draft| set(&mut draft.message, "32A", "240229RUR1,"),
    // 11
    |draft| drop_field(draft, "57D"),
    // 12
    |draft| {
        let content = "//RU044525225.30101810400000000226|SABRRUMM";
        set(&mut draft.message, "52A", content)
    },
    // 13
    |draft| drop_field(draft, "26T"),
    // 14
    |draft| set(&mut draft.message, "50K", "INN7707083893.KPP770701001|W"),
    // 21
    |draft| {
        set(&mut draft.message, "70", "'(VO10100)'~24|~35|~35|~35");
        let note = &mut field(draft, "72").lines;
        note.truncate(1);
        note.extend(lines("/NZP/~30|//~33|//~8"));
    },
    // 17
    |draft| draft.room = 20,
];

fn field<'d>(draft: &'d mut Draft, tag: &str) -> &'d mut Field {
    let found = draft
        .message
        .fields
        .iter_mut()
        .find(|field| field.tag == tag);
    found.expect("a field of the message")
}

fn append(draft: &mut Draft, tag: &str) {
    draft.message.fields.push(Field {
        tag: tag.to_string(),
        lines: lines("A"),
    });
}

fn drop_field(draft: &mut Draft, tag: &str) {
    draft.message.fields.retain(|field| field.tag != tag);
}

fn spoilt(faults: &[&Fault]) -> Record {
    let mut draft = Draft {
        kind: 103,
        room: AMPLE,
        message: full(103, true),
        end: "-}",
    };
    for fault in faults {
        fault(&mut draft);
    }
    let mut message = draft.message.bytes();
    message.truncate(message.len() - 2);
    message.extend(draft.end.bytes());
    Record {
        kind: draft.kind,
        room: draft.room,
        message,
    }
}

/// One number at two places, or at all: the earliest is named.
fn twice(records: &mut Vec<Record>) {
    for kind in super::KINDS {
        let full = full(kind, false);
        for first in 0..full.fields.len() {
            let mut message = full.clone();
            for field in &mut message.fields[first..] {
                field.lines = lines("");
            }
            records.push(record(kind, message.bytes()));
        }
    }
}

#[cfg(test)]
mod tests {
    use super::*;
    use crate::plain::check::check;

    const NUMBERS: [u32; 16] = [18, 2, 3, 4, 5, 6, 7, 8, 9, 10, 11, 12, 13, 14, 21, 17];

    #[test]
    fn the_first_in_order_is_named() {
        for (index, number) in NUMBERS.into_iter().enumerate() {
            for later in index..NUMBERS.len() {
                let record = spoilt(&[&FAULTS[index], &FAULTS[later]]);
                let mut list = vec![0; record.room];
                let answer = check(record.kind, &record.message, &mut list);
                // 5, 6 and 7 are one rule: the first faulty field decides.
                let number = match (number, NUMBERS[later]) {
                    (5 | 6, 7) => 7,
                    _ => number,
                };
                assert_eq!(answer.map_err(|refusal| refusal.number), Err(number));
            }
        }
    }
}
