//! The output of `tests`. Of a message five lines: the number of fields, the
//! presence word and the list; start and end of the content at each place; the
//! kopecks; the date; the bytes of the sheet, and what writing that comes to. Of
//! a sheet the number of bytes, the message and whether it reads back. A refusal
//! stands in its call's line. Of a text a line where the answer is not the
//! expected one. And at the end how many there were.

use super::refused;
use crate::list::{checks, read, sheets, texts, Record};
use crate::plain::check::{check, content, date, kopecks};
use crate::plain::read::to_sheet;
use crate::plain::types::MOST_FIELDS;
use crate::plain::write::{to_message, SHEET_LIMIT};
use crate::plain::Refusal;
use crate::streams::{input, output};

#[derive(Default)]
struct Counts {
    texts: usize,
    messages: usize,
    sheets: usize,
    differ: usize,
}

pub fn run() {
    let records = read(&input()).expect("a list of texts, messages and sheets");
    let mut counts = Counts::default();
    let mut lines = Vec::new();
    for record in &records {
        match record {
            Record::Text(record) => {
                counts.texts += 1;
                if let Some(said) = record.otherwise() {
                    counts.differ += 1;
                    lines.extend(line(record, said));
                }
            }
            Record::Message(record) => {
                counts.messages += 1;
                lines.extend(answers(record).bytes());
            }
            Record::Sheet(record) => {
                counts.sheets += 1;
                lines.extend(super::or_refusal(written(record)));
            }
        }
    }
    lines.extend(told(&counts).bytes());
    output(&lines);
}

fn told(counts: &Counts) -> String {
    let Counts {
        texts,
        messages,
        sheets,
        differ,
    } = counts;
    format!("{texts} texts, {messages} messages, {sheets} sheets; {differ} texts differ\n")
}

/// The name of a text and what was answered.
fn line(record: &texts::Record, said: Result<Vec<u8>, Refusal>) -> Vec<u8> {
    let said = match said {
        Ok(text) => [format!("said\t{}\t", text.len()).as_bytes(), &text].concat(),
        Err(refusal) => refused(refusal).into_bytes(),
    };
    [record.name.as_bytes(), b"\t", &said, b"\n"].concat()
}

fn written(record: &sheets::Record) -> Result<Vec<u8>, Refusal> {
    let sheets::Record { room, sheet } = record;
    let mut room = vec![0; *room];
    let units = to_message(sheet, &mut room)?;
    let back = back(kind_of(sheet), &room[..units], sheet);
    let lines = [format!("{units}\n"), format!("\nback\t{back}\n")];
    Ok([lines[0].as_bytes(), &room[..units], lines[1].as_bytes()].concat())
}

/// The type of a sheet that was written, by the first digit.
fn kind_of(sheet: &[u8]) -> u32 {
    match sheet.get(3) {
        Some(b'1') => 103,
        _ => 202,
    }
}

/// Whether the message reads as this sheet.
fn back(kind: u32, m: &[u8], sheet: &[u8]) -> String {
    let word = |again: Vec<u8>| if again == sheet { "same" } else { "other" }.to_string();
    or_refused(filled(|room| to_sheet(kind, m, room)).map(word))
}

/// What a call puts into room for the longest sheet or message.
fn filled(call: impl Fn(&mut [u8]) -> Result<usize, Refusal>) -> Result<Vec<u8>, Refusal> {
    let mut room = vec![0; SHEET_LIMIT];
    let units = call(&mut room)?;
    room.truncate(units);
    Ok(room)
}

/// The bytes of the sheet, then those of the message written for it and whether
/// that reads as the same sheet.
fn sheet(kind: u32, m: &[u8]) -> Result<String, Refusal> {
    let sheet = filled(|room| to_sheet(kind, m, room))?;
    let again = filled(|room| to_message(&sheet, room));
    let told = again.map(|m| format!("again\t{}\t{}", m.len(), back(kind, &m, &sheet)));
    Ok(format!("{}\t{}", sheet.len(), or_refused(told)))
}

fn answers(record: &checks::Record) -> String {
    let checks::Record { kind, message, .. } = record;
    // The place behind a type's last is asked too.
    let parts = (0..=MOST_FIELDS as u32).map(|place| part(record, place));
    let kopecks = kopecks(*kind, message).map(|kopecks| kopecks.to_string());
    let date = date(*kind, message).map(day);
    format!(
        "{}\nparts\t{}\nkopecks\t{}\ndate\t{}\nsheet\t{}\n",
        or_refused(fields(record)),
        joined(parts),
        or_refused(kopecks),
        or_refused(date),
        or_refused(sheet(*kind, message)),
    )
}

fn or_refused(answer: Result<String, Refusal>) -> String {
    answer.unwrap_or_else(refused)
}

fn fields(record: &checks::Record) -> Result<String, Refusal> {
    let mut list = vec![0; record.room];
    let (fields, word) = check(record.kind, &record.message, &mut list)?;
    let numbers = list[..3 * fields].iter().map(u32::to_string);
    Ok(format!("{fields}\t{word}\t{}", joined(numbers)))
}

fn part(record: &checks::Record, place: u32) -> String {
    match content(record.kind, &record.message, place) {
        Some((start, end)) => format!("{start}-{end}"),
        None => ".".to_string(),
    }
}

/// Year, month and day, as the number that stands for them has them.
fn day(date: u32) -> String {
    format!("{} {} {}", date / 10_000, date / 100 % 100, date % 100)
}

fn joined(words: impl Iterator<Item = String>) -> String {
    words.collect::<Vec<String>>().join(" ")
}
