//! Ways to spoil a message: by fields, by lines, by bytes.

use crate::messages::{marked, Field, Message};
use crate::random::Random;
use crate::signs::{some, DIGITS, NEAR, X_SET};

const TAGS: &[&str] = &[
    "20", "21", "23B", "26T", "32A", "50K", "52A", "53B", "56A", "56D", "57A", "57D", "58A", "58D",
    "59", "70", "71A", "72", "77B", "99", "20A", "59A", "72Z", "2", "20a", "7 B", "777", "A0", "",
];

/// First bytes of a line that the line rules speak of, or nearly so.
const OPENINGS: &[&str] = &[
    "", "-", ":", "::", ":5", ":59", ":59K", ":5K:", ":59k:", ":599:", ":59KK:", "-}", " ", "/",
];

/// Spoils the order, the tags or the lines.
pub fn fields(random: &mut Random, message: &mut Message) {
    if message.fields.is_empty() {
        return;
    }
    let one = random.below(message.fields.len());
    let other = random.below(message.fields.len());
    match random.below(6) {
        0 => message.fields.swap(one, other),
        1 => {
            message.fields.remove(one);
        }
        2 => {
            let again = message.fields[one].clone();
            message.fields.insert(other, again);
        }
        3 => message.fields[one].tag = random.pick(TAGS).to_string(),
        4 => {
            let tag = random.pick(TAGS).to_string();
            let lines = vec![some(random, X_SET, 5)];
            message.fields.insert(one, Field { tag, lines });
        }
        _ => lines(random, &mut message.fields[one].lines),
    }
}

/// Spoils the lines of one field.
fn lines(random: &mut Random, lines: &mut Vec<Vec<u8>>) {
    let place = random.below(lines.len() + 1);
    match random.below(3) {
        0 => {
            let opening = random.pick(OPENINGS);
            lines.insert(place, opening.as_bytes().to_vec());
        }
        1 if place < lines.len() => {
            lines.remove(place);
        }
        _ => {
            let length = random.between(1, 40);
            lines.insert(place, some(random, X_SET, length));
        }
    }
}

/// Spoils the bytes: one of them, an end, or a line's end.
pub fn bytes(random: &mut Random, m: &mut Vec<u8>) {
    let place = random.below(m.len() + 1);
    match random.below(8) {
        0 => m.insert(place, *random.pick(NEAR)),
        1 => m.insert(place, *random.pick(b"\r\n-:}'")),
        2 => drop(m.splice(place..place, *b"\r\n")),
        3 => drop(m.splice(place..place, *b"\r\n-}")),
        4 => m.truncate(place),
        5 if place < m.len() => drop(m.remove(place)),
        6 if place < m.len() => m[place] = random.byte(),
        _ => near_an_end(random, m),
    }
}

/// Spoils a byte of the opening, of the closing or of some CR LF.
fn near_an_end(random: &mut Random, m: &mut Vec<u8>) {
    let breaks: Vec<usize> = (0..m.len())
        .filter(|&place| matches!(m[place], b'\r' | b'\n'))
        .collect();
    if m.is_empty() || breaks.is_empty() {
        return;
    }
    let place = match random.below(4) {
        0 => random.below(m.len().min(6)),
        1 => m.len() - 1 - random.below(m.len().min(6)),
        _ => *random.pick(&breaks),
    };
    let byte = *random.pick(b"\r\n-}{4:A");
    match random.below(3) {
        0 => m[place] = byte,
        1 => m.insert(place, byte),
        _ => drop(m.remove(place)),
    }
}

/// Lengthens a field by whole lines until the message has so many bytes.
pub fn stretch(random: &mut Random, message: &mut Message, length: usize) {
    let missing = length.saturating_sub(message.bytes().len());
    let field = random.below(message.fields.len());
    // A line takes its own bytes and CR LF, so fewer than three can't be added.
    let mut left = if missing < 3 { 0 } else { missing };
    while left > 0 {
        let taken = match left {
            0..=40 => left,
            41..=43 => 20,
            _ => random.between(3, 40),
        };
        let mut line = some(random, X_SET, taken - 2);
        line[0] = *random.pick(DIGITS);
        message.fields[field].lines.push(line);
        left -= taken;
    }
}

/// Names that rule 14 speaks of, or nearly so.
const NAMES: &[&str] = &[
    "''", "'", "W", "'A", "'/'", "'/A'", "'-'", "':'", "''/", "''-A", "''''", "'A-'", "-A", "/A",
    "INN7", "I''NN7", "IN''N7", "INN''7", "'INN'7", "'INN7'", "'I'NN7", "'IN'N7", "INN", "'INN'",
    "INNA7", "''INN7", "'INN''7'", "''''INN7", "1''INN7", "inn7", "'inn'7", "''A", "b", "'b'",
];

/// Tax lines, right and wrong.
const TAX_LINES: &[&str] = &[
    "INN7707083893",
    "INN770708389312",
    "INN77070838931",
    "INN770708389",
    "INN7707083893.KPP770701001",
    "INN770708389312.KPP770701001",
    "INN7707083893.KPP77070100",
    "INN7707083893.KPP7707010011",
    "INN7707083893KPP770701001",
    "INN7707083893.",
    "INN7707083893.kpp770701001",
    "INN7A",
    "INN7",
    "INN 7707083893",
    "INNA",
    "KPP770701001",
    "INN7707083893.KPP",
];

const REFERENCES: &[&str] = &[
    "+",
    "++",
    "A",
    "+A",
    "/A",
    "A/",
    "A//B",
    "A/B",
    "+/A",
    "+A/",
    "AAAABBBBCCCCDDDD",
    "AAAABBBBCCCCDDDDE",
    "",
    "-",
    ":",
    "'+",
];

const DATES: &[&str] = &[
    "240229", "230229", "000229", "790229", "800229", "810229", "990229", "040229", "240230",
    "240431", "240430", "240631", "240931", "241131", "241231", "241232", "240100", "240001",
    "241301", "240131", "999999", "000000",
];

const AMOUNTS: &[&str] = &[
    "0,",
    "0,0",
    "00,00",
    "5,1",
    "1500,5",
    "123456789012,34",
    "12345678901234,",
    "123456789012345,",
    "1234567890123,45",
    "1,234",
    ",5",
    ",",
    "5",
    "5.00",
    "41709.00",
    "1,,",
    "1,A",
    "A,1",
    "",
];

const CURRENCIES: &[&str] = &["RUB", "RUR", "USD", "rub", "RUb", "R B", "RU"];

const RPP_LINES: &[&str] = &[
    "/RPP/1.240229.5.POST",
    "/RPP/123.240229.5.TELG.240301",
    "/RPP/1234.240229.5.ELEK",
    "/RPP/999999.240229.5.ELEK.240229.01",
    "/RPP/1234567.240229.5.ELEK",
    "/RPP/1.240229.5.POST.01",
    "/RPP/1.240229.5.POST.31",
    "/RPP/1.240229.5.POST.240230.01",
    "/RPP/1.240230.5.POST.01",
    "/RPP/1.240229.5.POST.01.240229",
    "/RPP/1.240229.5.POST.1",
    "/RPP/1.240229.5.POST.001",
    "/RPP/1.240229.5.POST.0A",
    "/RPP/1.240229.5.POST.240229.1",
    "/RPP/1.240229.5.POST.240229.001",
    "/RPP/1.240229.5.POST.240229,01",
    "/RPP/1.240229.5.POST.240229.",
    "/RPP/1.240229.5.POST.01.",
    "/RPP/.240229.5.BESP",
    "/RPP/1.240230.5.POST",
    "/RPP/1.240229.5.POST.230229",
    "/RPP/1.230229.5.POST.230229",
    "/RPP/1.240229.A.POST",
    "/RPP/1.240229.5.MAIL",
    "/RPP/1.240229.5.POST.",
    "/RPP/1.240229.5.POST.24022",
    "/RPP/1.240229.5.POST.2402290",
    "/RPP/",
    "/RPP/12.24022.5.POST",
    "/RPP/1.240229.55.POST",
    "/RPP",
];

/// Lines of 72 in a 103 behind an RPP line or none, right and wrong.
const RESTS: &[&[&str]] = &[
    &["/NZP/A"],
    &["/NZP/A", "//B"],
    &["/NZP/A", "//B", "//B", "//B", "//B"],
    &["/NZP/A", "//B", "//B", "//B", "//B", "//B"],
    &["/NZP/A", "//B", "//B", "//B", "//B", "//B", "//B"],
    &["/NZP/(VO12345)"],
    &["/NZP/'(VO12345)'"],
    &["/NZP/'(VO12345)'A"],
    &["/NZP/'A", "//B'"],
    &["/NZP/'A", "//B"],
    &["/NZP/''"],
    &["/NZP/'", "//'"],
    &["/NZP/W"],
    &["/NZP/A", "//W"],
    &["/NZP/-", "//:", "///"],
    &["/NZP/"],
    &["/NZP/A", "//"],
    &["/NZP/A", "B"],
    &["/NZP/A", "/NZP/B"],
    &["/NZPA"],
    &["/nzp/A"],
    &["//A"],
    &["A"],
    &["/NZP/A", "/RPP/1.240229.5.POST"],
];

/// Spoils a content, in a way that some number from 8 to 14 or 21 is about.
pub fn contents(random: &mut Random, message: &mut Message) {
    match random.below(28) {
        0 | 1 => replace_name(random, message),
        2 => replace_tax_line(random, message),
        3 => replace_line(random, message, &["20"], REFERENCES),
        4 | 5 => value(random, message),
        6 => replace_line(random, message, &["72"], RPP_LINES),
        7..=9 => without(random, message, &["57A", "57D", "26T", "77B"]),
        10 => change_sign(message),
        11 | 12 => details(random, message),
        13..=15 => party_line(random, message),
        16 | 17 => one_byte(random, message),
        18..=21 => one_digit(random, message),
        22 => width(random, message),
        23 | 24 => rest(random, message),
        25 | 26 => lengthen_rest(random, message),
        _ => line_order(random, message),
    }
}

/// One of the fields with these tags.
fn tagged<'m>(
    random: &mut Random,
    message: &'m mut Message,
    tags: &[&str],
) -> Option<&'m mut Field> {
    let wanted = |field: &Field| tags.contains(&field.tag.as_str());
    let mut found: Vec<&mut Field> = message.fields.iter_mut().filter(|f| wanted(f)).collect();
    if found.is_empty() {
        return None;
    }
    let chosen = random.below(found.len());
    Some(found.swap_remove(chosen))
}

/// One of the lines of one of the fields.
fn some_line<'m>(random: &mut Random, message: &'m mut Message) -> Option<&'m mut Vec<u8>> {
    let field = random.below(message.fields.len().max(1));
    let lines = &mut message.fields.get_mut(field)?.lines;
    let line = random.below(lines.len().max(1));
    lines.get_mut(line)
}

fn replace_line(random: &mut Random, message: &mut Message, tags: &[&str], by: &[&str]) {
    let by = random.pick(by).as_bytes().to_vec();
    if let Some(field) = tagged(random, message, tags) {
        let line = random.below(field.lines.len().max(1));
        if let Some(line) = field.lines.get_mut(line) {
            *line = by;
        }
    }
}

/// Puts a name of note into or behind the tax place.
fn replace_name(random: &mut Random, message: &mut Message) {
    let name = random.pick(NAMES).as_bytes().to_vec();
    if let Some(field) = tagged(random, message, &["50K", "59", "58D", "56D", "57D"]) {
        let last = field.lines.len().saturating_sub(1);
        let place = random.between(usize::from(last > 0), last.max(1));
        if let Some(line) = field.lines.get_mut(place) {
            *line = name;
        }
    }
}

/// Puts a tax line into or near the tax place.
fn replace_tax_line(random: &mut Random, message: &mut Message) {
    let tax_line = random.pick(TAX_LINES).as_bytes().to_vec();
    if let Some(field) = tagged(random, message, &["50K", "59", "58D"]) {
        let place = random.below(3).min(field.lines.len());
        match field.lines.get_mut(place) {
            Some(line) if random.once_in(2) => *line = tax_line,
            _ => field.lines.insert(place, tax_line),
        }
    }
}

/// Another date, currency or amount in 32A.
fn value(random: &mut Random, message: &mut Message) {
    if let Some(field) = tagged(random, message, &["32A"]) {
        let Some(line) = field.lines.first_mut().filter(|line| line.len() > 9) else {
            return;
        };
        let (range, by) = match random.below(3) {
            0 => (0..6, DATES),
            1 => (6..9, CURRENCIES),
            _ => (9..line.len(), AMOUNTS),
        };
        line.splice(range, random.pick(by).bytes());
    }
}

fn without(random: &mut Random, message: &mut Message, tags: &[&str]) {
    let tag = *random.pick(tags);
    message.fields.retain(|field| field.tag != tag);
}

fn change_sign(message: &mut Message) {
    for field in message.fields.iter_mut().filter(|field| field.tag == "20") {
        if let Some(first) = field.lines.first_mut().and_then(|line| line.first_mut()) {
            *first = if *first == b'+' { b'A' } else { b'+' };
        }
    }
}

/// Spoils the code, its line's end or the text of details.
fn details(random: &mut Random, message: &mut Message) {
    let Some(field) = tagged(random, message, &["70", "72"]) else {
        return;
    };
    let Some(first) = field.lines.iter().position(|line| line.contains(&b'V')) else {
        return;
    };
    let line = &mut field.lines[first];
    let code_end = line
        .iter()
        .position(|&b| b == b')')
        .map_or(0, |end| end + 1);
    let apostrophe = usize::from(line.get(code_end) == Some(&b'\''));
    match random.below(6) {
        0 => line.truncate(code_end + apostrophe),
        1 => line.truncate(code_end),
        2 => drop(line.splice(code_end + apostrophe.., *b"''")),
        3 => line.push(b'\''),
        4 => line.push(*random.pick(b"Wb'-:")),
        _ => field.lines.truncate(first + 1),
    }
}

/// Puts another rest into 72 of a 103, behind its RPP line or without one.
fn rest(random: &mut Random, message: &mut Message) {
    let lines = random.pick(RESTS).iter();
    let lines = lines.map(|line| line.as_bytes().to_vec()).collect();
    put_rest(random, message, lines);
}

/// Gives the rest about the greatest length that it may have beside 70, or
/// fills all its lines.
fn lengthen_rest(random: &mut Random, message: &mut Message) {
    let Some(details) = tagged(random, message, &["70"]) else {
        return;
    };
    let room = 210_usize.saturating_sub(details.lines.concat().len());
    let length = match random.below(6) {
        0 => *random.pick(&[161, 162, 163, 194, 195, 196]),
        1..=3 => room,
        _ => room + random.between(1, 3),
    };
    let mut text = vec![*random.pick(b"JA-:9"); length];
    if let ([first, second, ..], true) = (&mut text[..], random.once_in(3)) {
        [*first, *second] = *b"''";
    }
    // At times the first lines aren't full.
    let short = random.once_in(2);
    let mut lines = Vec::new();
    let mut rest = &text[..];
    while !rest.is_empty() {
        let width = if lines.is_empty() { 30 } else { 33 };
        let width = if short && lines.len() < 2 { 28 } else { width };
        let (line, behind) = rest.split_at(width.min(rest.len()));
        lines.push(line.to_vec());
        rest = behind;
    }
    put_rest(random, message, marked(&lines));
}

/// Into 72 behind 71A, which is there or not.
fn put_rest(random: &mut Random, message: &mut Message, mut lines: Vec<Vec<u8>>) {
    let fields = &mut message.fields;
    if let Some(note) = fields.iter_mut().find(|field| field.tag == "72") {
        let rpp = note.lines.first().filter(|line| line.starts_with(b"/RPP/"));
        if let (Some(rpp), false) = (rpp, random.once_in(3)) {
            lines.insert(0, rpp.clone());
        }
        note.lines = lines;
    } else if let Some(charges) = fields.iter().position(|field| field.tag == "71A") {
        let tag = "72".to_string();
        fields.insert(charges + 1, Field { tag, lines });
    }
}

fn party_line(random: &mut Random, message: &mut Message) {
    let field = tagged(random, message, &["52A", "56A", "56D", "57A", "57D"]);
    let Some(line) = field.and_then(|field| field.lines.first_mut()) else {
        return;
    };
    match random.below(4) {
        0 => *line = b"//RU044525225.30101810400000000225".to_vec(),
        1 => *line = b"//RU054525225".to_vec(),
        _ if line.is_empty() => {}
        // Most often a digit near the end of the BIK or of the account.
        _ => {
            let near = *random.pick(&[4, 10, 11, 12, 31, 32, 33]);
            let place = if near < line.len() {
                near
            } else {
                line.len() - 1
            };
            line[place] = *random.pick(DIGITS);
        }
    }
}

fn one_byte(random: &mut Random, message: &mut Message) {
    let byte = *random.pick(X_SET);
    if let Some(line) = some_line(random, message) {
        let place = random.below(line.len() + 1);
        match random.below(3) {
            0 => line.insert(place, byte),
            _ if place == line.len() => {}
            1 => line[place] = byte,
            _ => drop(line.remove(place)),
        }
    }
}

/// A digit for a digit, so that the shape is kept.
fn one_digit(random: &mut Random, message: &mut Message) {
    let digit = *random.pick(DIGITS);
    if let Some(line) = some_line(random, message) {
        let mut digits: Vec<&mut u8> = line.iter_mut().filter(|b| b.is_ascii_digit()).collect();
        if !digits.is_empty() {
            let place = random.below(digits.len());
            *digits[place] = digit;
        }
    }
}

/// A line of just about the greatest width.
fn width(random: &mut Random, message: &mut Message) {
    let width = *random.pick(&[16, 17, 34, 35, 36]);
    if let Some(line) = some_line(random, message) {
        line.resize(width, b'A');
    }
}

fn line_order(random: &mut Random, message: &mut Message) {
    let field = random.below(message.fields.len().max(1));
    let Some(Field { lines, .. }) = message.fields.get_mut(field) else {
        return;
    };
    if lines.is_empty() {
        return;
    }
    let one = random.below(lines.len());
    let other = random.below(lines.len());
    match random.below(3) {
        0 => lines.swap(one, other),
        1 => drop(lines.remove(one)),
        _ => lines.insert(one, lines[other].clone()),
    }
}
