//! Where the proved build breaks details: each message that it writes against
//! every other division of the same code and bank text.

use super::{stop, Seen};
use crate::calls as proved;
use crate::exhaustive::{divisions_70, divisions_72, fewest_lines, Divisions};
use crate::long::{code, sheet_202, some_long};
use crate::random::Random;
use std::mem::replace;

/// No sheet or message made here is longer.
const AMPLE: usize = 2_000;

pub fn run(count: usize, seed: u64) {
    let mut random = Random::new(seed);
    let mut seen = Seen::default();
    let mut tally = Tally::default();
    for _ in 0..count {
        hold(&some_sheet(&mut random), &mut seen, &mut tally);
    }
    println!("{count} sheets, 0 details of which another break saves a line");
    seen.print();
    tally.print();
}

struct Sheet {
    kind: u32,
    sign: bool,
    bytes: Vec<u8>,
    text: Vec<u8>,
}

fn some_sheet(random: &mut Random) -> Sheet {
    let mut long = some_long(random);
    if random.once_in(2) {
        let length = random.between(1, long.text.len());
        long.text.truncate(length);
    }
    let (kind, bytes) = match random.once_in(2) {
        true => (103, long.sheet()),
        false => (202, sheet_202(long.sign, long.rpp, &long.text)),
    };
    Sheet {
        kind,
        sign: long.sign,
        bytes,
        text: long.text,
    }
}

fn hold(sheet: &Sheet, seen: &mut Seen, tally: &mut Tally) {
    let mut room = [0; AMPLE];
    let answer = proved::to_message(&sheet.bytes, &mut room);
    let call = match sheet.kind {
        103 => "to_message, 103",
        _ => "to_message, 202",
    };
    seen.note(call, &answer);
    let Ok(units) = answer else {
        return;
    };
    let message = &room[..units];
    let code = code(sheet.sign);
    let mut runs_on = false;
    if let Some(mut note) = lines(message, b"\r\n:72:") {
        let rpp = note[0].starts_with(b"/RPP/");
        if rpp {
            note.remove(0);
        }
        let rows = unmarked(sheet, &note);
        if !rows.is_empty() {
            runs_on = sheet.kind == 103;
            let code = if runs_on { 0 } else { code.len() };
            let all = divisions_72(&rows.concat(), code, rpp);
            hold_rows(sheet, "72", &rows, &all, tally);
        }
    }
    if let Some(rows) = lines(message, b"\r\n:70:") {
        let whole = rows.concat();
        let all = divisions_70(&whole, code.len());
        hold_rows(sheet, "70", &rows, &all, tally);
        if sheet.sign && !runs_on {
            let fewest = fewest_lines(code, &sheet.text);
            tally.respell(sheet, rows.len(), fewest);
        }
    }
}

/// No division has fewer lines, and none has a line that ends later.
fn hold_rows(sheet: &Sheet, field: &str, rows: &[&[u8]], all: &Divisions, tally: &mut Tally) {
    let ends: Vec<usize> = (1..=rows.len()).map(|n| rows[..n].concat().len()).collect();
    let latest = &all.latest[..rows.len()];
    if rows.len() != all.fewest || ends != latest {
        let what = format!("{field} ends its lines at {ends:?}, of all divisions {all:?}");
        stop(&what, &sheet.bytes);
    }
    tally.fields += 1;
    tally.lines += rows.len();
    tally.others += usize::from(ends != all.earliest[..]);
}

/// The lines of a field.
fn lines<'a>(message: &'a [u8], tag: &[u8]) -> Option<Vec<&'a [u8]>> {
    let at = message.windows(tag.len()).position(|part| part == tag)?;
    let content = &message[at + tag.len()..];
    let mut lines = Vec::new();
    for line in content.split(|&b| b == b'\n') {
        if !lines.is_empty() && matches!(line[0], b':' | b'-') {
            break;
        }
        lines.push(&line[..line.len() - 1]);
    }
    Some(lines)
}

/// The lines of 72 without `/NZP/` and `//`.
fn unmarked<'a>(sheet: &Sheet, note: &[&'a [u8]]) -> Vec<&'a [u8]> {
    let mut mark: &[u8] = b"/NZP/";
    let row = |line: &&'a [u8]| {
        let row = line.strip_prefix(replace(&mut mark, &b"//"[..]));
        row.unwrap_or_else(|| stop("a line of 72 without its mark", &sheet.bytes))
    };
    note.iter().map(row).collect()
}

#[derive(Default)]
struct Tally {
    fields: usize,
    lines: usize,
    /// Fields that can be divided otherwise too.
    others: usize,
    /// Of 70 with the sign, the whole of the details in it.
    signed: usize,
    respelt: usize,
}

impl Tally {
    /// Other spellings that are as short, too.
    fn respell(&mut self, sheet: &Sheet, rows: usize, fewest: Option<usize>) {
        let Some(fewest) = fewest.filter(|&fewest| fewest <= rows) else {
            stop("no spelling has as few lines", &sheet.bytes);
        };
        self.signed += 1;
        self.respelt += usize::from(fewest < rows);
    }

    fn print(&self) {
        let Tally {
            fields,
            lines,
            others,
            signed,
            respelt,
        } = self;
        println!("{fields} details fields of {lines} lines, {others} with other divisions too");
        println!("{signed} of 70 with the sign, {respelt} in a line less by another spelling");
    }
}
