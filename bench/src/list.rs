//! The stored list that the program `tests` goes through.
//!
//! A record is a line of words with one space between, then raw bytes and LF.
//! The first word says what it is:
//!
//! ```text
//! text NAME WAY SIGN ROOM NUMBER PLACE LENGTH TEXT INPUT
//! message TYPE ROOM BYTES
//! sheet ROOM BYTES
//! ```
//!
//! ROOM is what is lent to the call, BYTES how long the message or the sheet
//! is. The texts are made by bench/texts.py, which says more of their words.

pub mod checks;
pub mod sheets;
pub mod texts;

use crate::random::Random;
use crate::streams::output;

pub enum Record {
    Text(texts::Record),
    Message(checks::Record),
    Sheet(sheets::Record),
}

/// The messages, and behind them the sheets.
pub fn run() {
    output(&made());
}

fn made() -> Vec<u8> {
    let mut random = Random::new(1);
    let mut list = Vec::new();
    for record in checks::records(&mut random) {
        put_message(&mut list, &record);
    }
    for record in sheets::records(&mut random) {
        put_sheet(&mut list, &record);
    }
    list
}

fn put_message(list: &mut Vec<u8>, record: &checks::Record) {
    let head = format!("message {} {}", record.kind, record.room);
    put(list, &head, &record.message);
}

fn put_sheet(list: &mut Vec<u8>, record: &sheets::Record) {
    put(list, &format!("sheet {}", record.room), &record.sheet);
}

fn put(list: &mut Vec<u8>, head: &str, bytes: &[u8]) {
    list.extend(format!("{head} {}\n", bytes.len()).bytes());
    list.extend(bytes);
    list.push(b'\n');
}

/// The records of a list, if it has their form.
pub fn read(mut list: &[u8]) -> Option<Vec<Record>> {
    let mut records = Vec::new();
    while !list.is_empty() {
        records.push(first(&mut list)?);
    }
    Some(records)
}

/// The first record, which is taken from the list.
fn first(list: &mut &[u8]) -> Option<Record> {
    let head = until_line_end(list)?;
    let words: Vec<&str> = std::str::from_utf8(head).ok()?.split(' ').collect();
    match words[..] {
        ["text", ref words @ ..] => texts::read(words, list).map(Record::Text),
        ["message", kind, room, size] => Some(Record::Message(checks::Record {
            kind: number(kind)?,
            room: number(room)?,
            message: raw(number(size)?, list)?.to_vec(),
        })),
        ["sheet", room, size] => Some(Record::Sheet(sheets::Record {
            room: number(room)?,
            sheet: raw(number(size)?, list)?.to_vec(),
        })),
        _ => None,
    }
}

fn until_line_end<'l>(list: &mut &'l [u8]) -> Option<&'l [u8]> {
    let size = list.iter().position(|&b| b == b'\n')?;
    raw(size, list)
}

/// So many bytes, which are taken from the list with the LF behind them.
fn raw<'l>(size: usize, list: &mut &'l [u8]) -> Option<&'l [u8]> {
    let (bytes, rest) = list.split_at_checked(size)?;
    *list = rest.strip_prefix(b"\n")?;
    Some(bytes)
}

fn number<T: std::str::FromStr>(word: &str) -> Option<T> {
    word.parse().ok()
}

#[cfg(test)]
mod tests {
    use super::*;

    #[test]
    fn the_list_reads_back() {
        let list = made();
        let mut again = Vec::new();
        for record in read(&list).expect("the form") {
            match record {
                Record::Text(_) => panic!("no text is made here"),
                Record::Message(record) => {
                    assert!(record.room <= checks::MOST_ROOM);
                    put_message(&mut again, &record);
                }
                Record::Sheet(record) => {
                    assert!(record.room <= sheets::MOST_ROOM);
                    put_sheet(&mut again, &record);
                }
            }
        }
        assert!(again == list);
        assert!(read(&list[..list.len() - 1]).is_none());
    }
}
