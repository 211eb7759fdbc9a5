//! Messages for the check: right ones, and for each number such as it is given
//! for, at its several places, among them what looks like a fault and is none.

mod contents;
mod faults;
mod frame;
mod orders;
mod readings;
mod run_on;
mod values;

use crate::cases::{self, Case};
use crate::messages::{self, Field, Message};
use crate::plain::types::{places, Place, MOST_FIELDS};
use crate::random::Random;

/// A message, the type it is given as, and how long a list is lent for it.
pub struct Record {
    pub kind: u32,
    pub room: usize,
    pub message: Vec<u8>,
}

pub const KINDS: [u32; 2] = [103, 202];

/// Numbers that are enough for every message.
const AMPLE: usize = 3 * MOST_FIELDS;
/// The longest list that is lent.
pub const MOST_ROOM: usize = 64;

pub fn records(random: &mut Random) -> Vec<Record> {
    let mut records = Vec::new();
    payments(random, &mut records);
    orders::add(&mut records);
    optional_fields(&mut records);
    frame::add(random, &mut records);
    contents::add(&mut records);
    values::add(&mut records);
    readings::add(&mut records);
    run_on::add(&mut records);
    faults::add(&mut records);
    rooms(&mut records);
    damaged(random, &mut records);
    records
}

fn record(kind: u32, message: Vec<u8>) -> Record {
    Record {
        kind,
        room: AMPLE,
        message,
    }
}

/// Payments as they come, and the longest of their kind.
fn payments(random: &mut Random, records: &mut Vec<Record>) {
    records.push(record(103, messages::common()));
    for kind in KINDS {
        for sign in [false, true] {
            let longest = messages::longest(random, kind, sign);
            records.push(record(kind, longest.bytes()));
            for _ in 0..4 {
                let right = messages::right_of(random, kind, sign);
                records.push(record(kind, right.bytes()));
            }
        }
    }
}

fn forms(kind: u32) -> &'static [Place] {
    places(kind).expect("one of the types")
}

/// The tag that fills a place, the first or the second of its two.
fn tag_of(form: &Place, which: usize) -> String {
    let tag = String::from_utf8_lossy(&form.tags[which]);
    tag.trim_end_matches('\0').to_string()
}

/// Lines as they are spelt here: `|` ends a line, `~35` stands for 35 times A.
fn lines(content: &str) -> Vec<Vec<u8>> {
    content.split('|').map(bytes).collect()
}

fn bytes(line: &str) -> Vec<u8> {
    let mut pieces = line.split('~');
    let mut bytes = pieces.next().unwrap_or_default().as_bytes().to_vec();
    for piece in pieces {
        let rest = piece.trim_start_matches(|sign: char| sign.is_ascii_digit());
        let count = piece[..piece.len() - rest.len()].parse();
        bytes.resize(bytes.len() + count.unwrap_or(0), b'A');
        bytes.extend(rest.bytes());
    }
    bytes
}

/// A right content, alike in both types and with the sign where it can be.
fn right_content(kind: u32, tag: &str, sign: bool) -> &'static str {
    match (tag, sign) {
        ("20", false) => "A17",
        ("20", true) => "+A17",
        ("21", _) => "NONREF",
        ("23B", _) => "CRED",
        ("26T", _) => "S08",
        ("32A", _) => "240229RUB1500,5",
        ("50K", _) => "/40702|INN7707083893.KPP770701001|OOO SEVER",
        ("52A", _) => "//RU044525225.30101810400000000225|SABRRUMM",
        ("53B", _) => "/D/30111810500000100000",
        ("56A", _) => "SABRRUMMXXX",
        ("56D", _) => "/30101810400000000225|BANK",
        ("57A", _) => "//RU044525202|CITIRUMX",
        ("57D", _) => "//RU044525202.30101810200000000202|BANK|MOSKVA",
        ("58A", _) => "/1|SABRRUMM",
        ("58D", _) => "/1|INN7707083893|BANK",
        ("59", _) => "/1|INN770708389312.KPP770701001|PETR",
        ("70", false) => "(VO10100)A",
        ("70", true) => "'(VO10100)'A",
        ("71A", _) => "OUR",
        ("72", _) if kind == 103 => "/RPP/1.240229.5.POST",
        ("72", false) => "/NZP/(VO10100)A",
        ("72", true) => "/NZP/'(VO10100)'A",
        ("77B", _) => "/N10/NS",
        _ => "",
    }
}

/// A field at each place of the word, with the first or the second of its tags.
fn short(kind: u32, word: u32, which: usize, sign: bool) -> Message {
    let mut fields = Vec::new();
    for (place, form) in forms(kind).iter().enumerate() {
        if word >> place & 1 == 1 {
            let tag = tag_of(form, which);
            let lines = lines(right_content(kind, &tag, sign));
            fields.push(Field { tag, lines });
        }
    }
    Message { kind, fields }
}

/// Every place.
pub fn full(kind: u32, sign: bool) -> Message {
    short(kind, u32::MAX, 1, sign)
}

/// The mandatory places alone.
pub fn least(kind: u32, sign: bool) -> Message {
    short(kind, mandatory(kind), 1, sign)
}

fn mandatory(kind: u32) -> u32 {
    let places = forms(kind).iter().enumerate();
    places.map(|(i, form)| u32::from(form.mandatory) << i).sum()
}

/// The place in its type of a tag, and which of its two it is.
fn place_of(kind: u32, tag: &str) -> (usize, usize) {
    let all = forms(kind).iter().enumerate();
    let mut tags = all.flat_map(|(place, form)| [(place, 0, form), (place, 1, form)]);
    let found = tags.find(|&(_, which, form)| tag_of(form, which) == tag);
    let (place, which, _) = found.expect("a tag of the type");
    (place, which)
}

/// A right message with this tag: with all fields if the tag's is optional,
/// else with the mandatory ones.
pub fn holding(kind: u32, sign: bool, tag: &str) -> Message {
    let (place, which) = place_of(kind, tag);
    let word = if forms(kind)[place].mandatory {
        mandatory(kind)
    } else {
        u32::MAX
    };
    short(kind, word, which, sign)
}

/// A message that is right, but for this content perhaps.
fn with(kind: u32, sign: bool, tag: &str, content: &str) -> Message {
    let mut message = holding(kind, sign, tag);
    set(&mut message, tag, content);
    message
}

/// Gives the field with this tag another content.
fn set(message: &mut Message, tag: &str, content: &str) {
    let found = message.fields.iter_mut().find(|field| field.tag == tag);
    found.expect("a field of the message").lines = lines(content);
}

/// With and without each of the optional fields: 56 alone is 11, 26T or 77B
/// alone is 13.
fn optional_fields(records: &mut Vec<Record>) {
    for kind in KINDS {
        let must = mandatory(kind);
        let words = 0..1 << forms(kind).len();
        for word in words.filter(|word| word & must == must) {
            let which = word.count_ones() as usize % 2;
            let sign = word >> 8 & 1 == 1;
            records.push(record(kind, short(kind, word, which, sign).bytes()));
        }
    }
}

/// 17, and room that is just enough. A refused message needs none.
fn rooms(records: &mut Vec<Record>) {
    for kind in KINDS {
        for message in [least(kind, false), full(kind, true)] {
            let needed = 3 * message.fields.len();
            for room in [0, 1, needed - 1, needed, needed + 1, MOST_ROOM] {
                records.push(Record {
                    kind,
                    room,
                    message: message.bytes(),
                });
            }
        }
        for message in [
            b"{4:\r\n-}".to_vec(),
            with(kind, true, "32A", "240230RUB1,").bytes(),
        ] {
            let room = 0;
            records.push(Record {
                kind,
                room,
                message,
            });
        }
    }
}

/// Generated messages, mostly with a fault; long ones and a type of 0 left out.
fn damaged(random: &mut Random, records: &mut Vec<Record>) {
    for index in 0..100 {
        let case = match index % 4 {
            0 => cases::spoilt_frame(random),
            _ => cases::spoilt_contents(random),
        };
        let Case { kind, bytes, .. } = case;
        if bytes.len() < 2_000 && kind != 0 {
            let room = random.below(MOST_ROOM + 1);
            records.push(Record {
                kind,
                room,
                message: bytes,
            });
        }
    }
}

#[cfg(test)]
mod tests {
    use super::*;
    use crate::plain::check::check;
    use std::collections::BTreeMap;

    /// The number and the place of a record's refusal, 0 and 0 for none.
    fn refusal(record: &Record) -> (u32, usize) {
        let mut list = vec![0; record.room];
        let answer = check(record.kind, &record.message, &mut list);
        answer.map_or_else(|refusal| (refusal.number, refusal.place), |_| (0, 0))
    }

    #[test]
    fn every_number_is_given_at_several_places() {
        let mut places: BTreeMap<u32, Vec<usize>> = BTreeMap::new();
        for record in records(&mut Random::new(1)) {
            let (number, place) = refusal(&record);
            places.entry(number).or_default().push(place);
        }
        for (number, places) in &mut places {
            places.sort();
            let given = places.len();
            places.dedup();
            let several = if matches!(number, 0 | 1 | 2 | 18) {
                1
            } else {
                4
            };
            assert!(
                given >= 3 && places.len() >= several,
                "{number}: {places:?}"
            );
        }
        let numbers = places.into_keys();
        assert!(numbers.eq((0..=14).chain([17, 18, 21])));
    }

    #[test]
    fn the_messages_that_others_are_made_of_are_right() {
        for kind in KINDS {
            for sign in [false, true] {
                for which in [0, 1] {
                    for word in [mandatory(kind), u32::MAX] {
                        let m = short(kind, word, which, sign).bytes();
                        assert_eq!(refusal(&record(kind, m)), (0, 0));
                    }
                }
            }
        }
    }
}
