//! Messages to sheets by both builds, and the way back.

use super::{some_room, stop, tell, Lent, Seen};
use crate::calls as proved;
use crate::cases::{self, may_be_crowded, runs_on, Case};
use crate::plain::{read as plain, Refusal};
use crate::random::Random;
use std::process::exit;

/// No sheet of a right message is longer.
const AMPLE: usize = 2_000;

pub fn run(count: usize, seed: u64) {
    let mut bench = Bench {
        random: Random::new(seed),
        seen: Seen::default(),
        proved_room: Lent::new(),
        plain_room: Lent::new(),
        trips: 0,
        failed: 0,
    };
    for _ in 0..count {
        let case = cases::message(&mut bench.random);
        bench.hold(&case);
    }
    println!("{count} messages, 0 differences");
    println!("{} round trips, {} failed", bench.trips, bench.failed);
    bench.seen.print();
    if bench.failed > 0 {
        exit(1);
    }
}

struct Bench {
    random: Random,
    seen: Seen,
    proved_room: Lent<u8>,
    plain_room: Lent<u8>,
    trips: u64,
    failed: u64,
}

impl Bench {
    /// In ample room and in one of another size; then there and back.
    fn hold(&mut self, case: &Case) {
        let answer = self.compare(case, AMPLE);
        self.seen.note("to_sheet", &answer);
        let Ok(needed) = answer else {
            if case.right {
                stop(&format!("a right message: {answer:?}"), &case.bytes);
            }
            return;
        };
        let sheet = self.proved_room.written(needed).to_vec();
        let room = some_room(&mut self.random, needed);
        let answer = self.compare(case, room);
        self.seen.note("to_sheet", &answer);
        if runs_on(case.kind, &case.bytes) {
            self.seen.note("to_sheet of a 103 that runs on", &answer);
        }
        self.trips += 1;
        if let Err(what) = self.there_and_back(case, &sheet) {
            self.failed += 1;
            tell(&what, &case.bytes);
        }
    }

    fn compare(&mut self, case: &Case, room: usize) -> Result<usize, Refusal> {
        let Case { kind, bytes, .. } = case;
        let by_proved = proved::to_sheet(*kind, bytes, self.proved_room.prepare(room));
        let by_plain = plain::to_sheet(*kind, bytes, self.plain_room.prepare(room));
        let what = format!("to_sheet, type {kind}, room {room}");
        if by_proved != by_plain {
            stop(
                &format!("{what}: proved {by_proved:?}, plain {by_plain:?}"),
                bytes,
            );
        }
        if !self.proved_room.same_as(&self.plain_room) {
            stop(&format!("{what}: the sheets differ"), bytes);
        }
        if !self.proved_room.kept_from(by_proved.unwrap_or(0)) {
            stop(&format!("{what}: bytes changed behind the sheet"), bytes);
        }
        by_proved
    }

    /// The sheet can be written, unless the sign is on and its details, which
    /// had a rest behind an RPP line, don't fit any more; and what is written
    /// reads as that sheet.
    fn there_and_back(&mut self, case: &Case, sheet: &[u8]) -> Result<(), String> {
        let mut message = [0; 2 * AMPLE];
        let answer = proved::to_message(sheet, &mut message);
        self.seen.note("to_message of that sheet", &answer);
        match answer {
            Ok(units) => {
                let mut again = [0; AMPLE];
                let answer = proved::to_sheet(case.kind, &message[..units], &mut again);
                if answer == Ok(sheet.len()) && again[..sheet.len()] == *sheet {
                    return Ok(());
                }
                Err("read, written and read again: another sheet".to_string())
            }
            Err(Refusal { number: 16, .. }) if may_be_crowded(case.kind, &case.bytes) => Ok(()),
            Err(refusal) => Err(format!("read, but not to be written: {refusal:?}")),
        }
    }
}
