//! Generated sheets, right and wrong.

use crate::long;
use crate::messages;
use crate::plain::read::to_sheet;
use crate::random::Random;
use crate::signs::{some, LATIN, NEAR, RUSSIAN, SHARED, X_SET};

/// Records, each of its parts: the tag first.
pub struct Sheet {
    records: Vec<Vec<Vec<u8>>>,
    sign: bool,
}

impl Sheet {
    fn bytes(&self) -> Vec<u8> {
        let mut bytes = Vec::new();
        for record in &self.records {
            bytes.extend(record.join(&b'\t'));
            bytes.push(b'\n');
        }
        bytes
    }

    /// The records with these tags.
    fn tagged(&mut self, tags: &[&str]) -> Vec<&mut Vec<Vec<u8>>> {
        let wanted = |record: &&mut Vec<Vec<u8>>| {
            record
                .first()
                .is_some_and(|tag| tags.iter().any(|wanted| wanted.as_bytes() == tag))
        };
        self.records.iter_mut().filter(wanted).collect()
    }
}

/// The sheet of a right message, with other texts, and often spoilt.
pub fn some_sheet(random: &mut Random) -> Vec<u8> {
    let mut sheet = of_right_message(random);
    if random.once_in(2) {
        other_texts(random, &mut sheet);
    }
    for _ in 0..*random.pick(&[0, 0, 0, 1, 1, 1, 2, 4]) {
        spoil(random, &mut sheet);
    }
    if random.once_in(60) {
        stretch(random, &mut sheet);
    }
    let mut bytes = sheet.bytes();
    for _ in 0..*random.pick(&[0, 0, 0, 0, 0, 0, 0, 1, 1, 3]) {
        spoil_bytes(random, &mut bytes);
    }
    bytes
}

fn of_right_message(random: &mut Random) -> Sheet {
    let message = messages::right(random);
    let mut room = [0; 2_000];
    let units = to_sheet(message.kind, &message.bytes(), &mut room).expect("a right message");
    let parts = |record: &[u8]| record.split(|&b| b == b'\t').map(<[u8]>::to_vec).collect();
    let records = room[..units - 1]
        .split(|&b| b == b'\n')
        .map(parts)
        .collect();
    Sheet {
        records,
        sign: message.fields[0].lines[0][0] == b'+',
    }
}

/// Names and details anew, details of about the length that just fits.
fn other_texts(random: &mut Random, sheet: &mut Sheet) {
    let sign = sheet.sign;
    for record in sheet.tagged(&["50K", "59", "58D", "56D", "57D"]) {
        for part in record
            .iter_mut()
            .skip(2)
            .filter(|part| !part.starts_with(b"INN"))
        {
            let length = random.between(1, 37);
            *part = desk_text(random, sign, length);
        }
    }
    for record in sheet.tagged(&["70", "72"]) {
        // The RPP part of a 103 stays.
        if record.len() > 2 && random.once_in(2) {
            let text = details_text(random, sign);
            record.pop();
            record.push(text);
        }
    }
}

/// Desk text; without the sign, bytes of the x set.
fn desk_text(random: &mut Random, sign: bool, length: usize) -> Vec<u8> {
    if !sign {
        return some(random, X_SET, length);
    }
    let longest = *random.pick(&[1, 3, 12]);
    let mut text = Vec::new();
    while text.len() < length {
        let kind = *random.pick(&[RUSSIAN, RUSSIAN, LATIN, SHARED]);
        let run = random.between(1, longest);
        text.extend(some(random, kind, run));
    }
    text.truncate(length);
    text
}

/// Often with so many bytes that may not begin a line that breaking is hard.
fn details_text(random: &mut Random, sign: bool) -> Vec<u8> {
    if random.once_in(2) {
        return long::text(random, sign);
    }
    let length = match random.below(4) {
        0 => random.between(1, 60),
        1 => *random.pick(&[129, 130, 131, 132, 184, 185, 186, 187]),
        _ => random.between(60, 190),
    };
    let mut text = desk_text(random, sign, length);
    let often = *random.pick(&[0, 0, 1, 3, 8]);
    for _ in 0..often {
        let from = random.below(length);
        let run = *random.pick(&[1, 2, 20, 34, 35]);
        for byte in text.iter_mut().skip(from).take(run) {
            *byte = *random.pick(b"---:");
        }
    }
    text
}

const TAGS: &[&str] = &[
    "MT", "20", "21", "23B", "26T", "32A", "50K", "52A", "53B", "56A", "56D", "57A", "57D", "58A",
    "58D", "59", "70", "71A", "72", "77B", "99", "20A", "2", "20a", "777", "A0", "",
];

/// Parts that the sheet's rules speak of, or nearly so; the Cyrillic ones are
/// in windows-1251.
const PARTS: &[&[u8]] = &[
    b"",
    b":",
    b"-",
    b"-A",
    b":A",
    b"/",
    b"/1",
    b"A",
    b"INN7",
    b"INN7'",
    b"INN",
    b"\xC8\xCD\xCD7",
    b"\xC8\xCD\xCD",
    b"\xC8\xCDN7",
    b"I\xCD\xCD7",
    b"+",
    b"+A",
    b"12345",
    b"1234",
    b"123456",
    b"1234A",
    b"'",
    b"\xE0",
    b"\xC0",
    b"A\xC0B",
    b"103",
    b"202",
    b"104",
    b"10",
    b"1030",
    b"17.240229.5.ELEK",
];

/// Spoils a record: its place, its tag or a part.
fn spoil(random: &mut Random, sheet: &mut Sheet) {
    let records = &mut sheet.records;
    if records.is_empty() {
        return;
    }
    let one = random.below(records.len());
    let other = random.below(records.len());
    match random.below(14) {
        0 => records.swap(one, other),
        1 => drop(records.remove(one)),
        2 => {
            let mut again = records[other].clone();
            if let (Some(text), true) = (again.last_mut(), random.once_in(2)) {
                *text = details_text(random, sheet.sign);
            }
            records.insert(one, again);
        }
        3 => records[one][0] = random.pick(TAGS).as_bytes().to_vec(),
        4 => {
            let tag = random.pick(TAGS).as_bytes().to_vec();
            let part = random.pick(PARTS).to_vec();
            records.insert(one, vec![tag, part]);
        }
        5 if records[0].len() > 1 => {
            let kind = random.pick(&["103", "202", "104", "940", "000"]);
            records[0][1] = kind.as_bytes().to_vec();
        }
        6 => {
            let tag = *random.pick(&[b"57", b"26", b"77"]);
            records.retain(|record| !record[0].starts_with(tag));
        }
        7..=10 => keep_shape(random, &mut records[one]),
        _ => spoil_part(random, &mut records[one]),
    }
}

/// A digit for a digit, or a capital for a capital; often the first part's
/// last digit, which ends the account of a party line.
fn keep_shape(random: &mut Random, record: &mut [Vec<u8>]) {
    let last_of_first = random.once_in(3);
    let parts = record.iter_mut().skip(1);
    let parts = parts.take(if last_of_first { 1 } else { 9 }).flatten();
    let mut bytes: Vec<&mut u8> = match random.below(5) {
        0 => parts.filter(|b| b.is_ascii_uppercase()).collect(),
        _ => parts.filter(|b| b.is_ascii_digit()).collect(),
    };
    if !bytes.is_empty() {
        let place = match last_of_first {
            true => bytes.len() - 1,
            false => random.below(bytes.len()),
        };
        let step = random.between(1, 9) as u8;
        let byte = &mut *bytes[place];
        *byte = match *byte {
            digit @ b'0'..=b'9' => b'0' + (digit - b'0' + step) % 10,
            capital => b'A' + (capital - b'A' + step) % 26,
        };
    }
}

fn spoil_part(random: &mut Random, record: &mut Vec<Vec<u8>>) {
    let place = random.between(1, record.len());
    let part = random.pick(PARTS).to_vec();
    match random.below(4) {
        0 => record.insert(place, part),
        _ if place == record.len() => {}
        1 => drop(record.remove(place)),
        2 => record[place] = part,
        _ => {
            let at = random.below(record[place].len() + 1);
            record[place].splice(at..at, part);
        }
    }
}

fn spoil_bytes(random: &mut Random, bytes: &mut Vec<u8>) {
    let place = random.below(bytes.len() + 1);
    let byte = match random.below(4) {
        0 => random.byte(),
        1 => *random.pick(NEAR),
        2 => *random.pick(b"\t\n"),
        _ => *random.pick(RUSSIAN),
    };
    match random.below(4) {
        0 => bytes.insert(place, byte),
        1 if random.once_in(8) => bytes.truncate(place),
        2 if bytes.ends_with(b"\n") => drop(bytes.pop()),
        _ if place == bytes.len() => {}
        3 => bytes[place] = byte,
        _ => drop(bytes.remove(place)),
    }
}

/// Lengthens some part or adds many, up to about the longest sheet; the
/// message of such a sheet may be longer still.
fn stretch(random: &mut Random, sheet: &mut Sheet) {
    let length = *random.pick(&[3_000, 6_000, 9_999, 10_000, 10_001]);
    let missing = length - sheet.bytes().len().min(length);
    let sign = sheet.sign;
    let record = random.below(sheet.records.len().max(1));
    let Some(record) = sheet.records.get_mut(record) else {
        return;
    };
    if let (Some(part), true) = (record.last_mut(), random.once_in(2)) {
        part.extend(desk_text(random, sign, missing));
        return;
    }
    let mut left = missing;
    while left > 1 {
        let taken = random.between(2, 40).min(left);
        record.push(desk_text(random, sign, taken - 1));
        left -= taken;
    }
}

#[cfg(test)]
mod tests {
    use super::*;
    use crate::cases::runs_on;
    use crate::plain::write::to_message;
    use std::collections::BTreeMap;

    #[test]
    fn every_number_is_met_and_details_run_on() {
        let mut random = Random::new(3);
        let mut room = [0; 40_000];
        let mut seen: BTreeMap<u32, usize> = BTreeMap::new();
        let mut run_on = 0;
        for _ in 0..60_000 {
            let sheet = some_sheet(&mut random);
            let answer = to_message(&sheet, &mut room);
            let number = answer.map_or_else(|refusal| refusal.number, |_| 0);
            *seen.entry(number).or_default() += 1;
            if let (Ok(units), true) = (answer, sheet.starts_with(b"MT\t103")) {
                let m = &room[..units];
                run_on += usize::from(runs_on(103, m));
                let mut again = [0; 10_000];
                let units = to_sheet(103, m, &mut again);
                assert!(units == Ok(sheet.len()) && again[..sheet.len()] == sheet);
            }
        }
        assert!(run_on > 1_000, "{run_on}");
        let numbers = [0, 1].into_iter().chain(5..=13).chain([15, 16, 18, 19]);
        assert!(seen.keys().copied().eq(numbers), "{seen:?}");
        assert!(seen.values().all(|&times| times > 20), "{seen:?}");
    }
}
