//! RPP lines in messages of both types: the proved build against the version
//! that tries every form.

use super::{stop, Seen};
use crate::calls as proved;
use crate::plain::Refusal;
use crate::random::Random;
use crate::rpp::{forms, judged, noted, some_line, Noted};

/// No sheet or message made here is longer.
const AMPLE: usize = 500;

pub fn run(count: usize, seed: u64) {
    let forms = forms();
    let mut random = Random::new(seed);
    let mut seen = Seen::default();
    for _ in 0..count {
        let line = some_line(&mut random);
        let noted = noted(&mut random, &line);
        let expected = judged(&forms, &line).map_err(|(number, place)| Refusal {
            number,
            place: noted.start + place,
        });
        hold(&noted, &line, expected, &mut seen);
    }
    println!("{count} RPP lines, 0 differences");
    seen.print();
}

fn hold(noted: &Noted, line: &[u8], expected: Result<(), Refusal>, seen: &mut Seen) {
    let answer = proved::check(noted.kind, &noted.bytes, &mut [0; 42]);
    seen.note("check", &answer);
    if answer.map(|_| ()) != expected {
        let what = format!("proved {answer:?}, by the forms {expected:?}");
        stop(&what, &noted.bytes);
    }
    if expected.is_ok() {
        there_and_back(noted, line, seen);
    }
}

/// The record of 72 has what follows the mark, and the sheet is written as the
/// message that it was read from.
fn there_and_back(noted: &Noted, line: &[u8], seen: &mut Seen) {
    let mut room = [0; AMPLE];
    let answer = proved::to_sheet(noted.kind, &noted.bytes, &mut room);
    seen.note("to_sheet", &answer);
    let sheet = &room[..answer.unwrap_or(0)];
    let part = [b"\n72\t", &line["/RPP/".len()..]].concat();
    if !sheet.windows(part.len()).any(|bytes| bytes == part) {
        stop("the record of 72 has another part", &noted.bytes);
    }
    let mut again = [0; AMPLE];
    let answer = proved::to_message(sheet, &mut again);
    seen.note("to_message", &answer);
    if answer != Ok(noted.bytes.len()) || again[..noted.bytes.len()] != noted.bytes {
        stop("the sheet is written as another message", &noted.bytes);
    }
}
