//! Sheets to messages by both builds; what is written reads back as the sheet.

use super::{some_room, stop, Lent, Seen};
use crate::calls as proved;
use crate::cases::runs_on;
use crate::plain::{write as plain, Refusal};
use crate::random::Random;
use crate::sheets::some_sheet;

/// No message is built longer from a sheet of the greatest length.
const AMPLE: usize = 40_000;

pub fn run(count: usize, seed: u64) {
    let mut bench = Bench {
        random: Random::new(seed),
        seen: Seen::default(),
        proved_room: Lent::new(),
        plain_room: Lent::new(),
    };
    for _ in 0..count {
        let sheet = some_sheet(&mut bench.random);
        bench.hold(&sheet);
    }
    println!("{count} sheets, 0 differences");
    bench.seen.print();
}

struct Bench {
    random: Random,
    seen: Seen,
    proved_room: Lent<u8>,
    plain_room: Lent<u8>,
}

impl Bench {
    /// In ample room and in one of another size.
    fn hold(&mut self, sheet: &[u8]) {
        let answer = self.compare(sheet, AMPLE.min(4 * sheet.len() + 60));
        self.seen.note("to_message", &answer);
        let Ok(needed) = answer else {
            self.hold_refused(sheet);
            return;
        };
        self.reads_back(sheet, needed);
        let room = some_room(&mut self.random, needed);
        let answer = self.compare(sheet, room);
        self.seen.note("to_message", &answer);
    }

    /// 17 comes before the built message's own refusal, so a refused sheet is
    /// given little room as well.
    fn hold_refused(&mut self, sheet: &[u8]) {
        let room = self.random.below(sheet.len() + 20);
        let answer = self.compare(sheet, room);
        self.seen.note("to_message", &answer);
        if let Err(Refusal { number: 17, place }) = answer {
            for room in [place - 1, place] {
                let answer = self.compare(sheet, room);
                self.seen.note("to_message", &answer);
            }
        }
    }

    /// The proved build's message, read by the proved build.
    fn reads_back(&mut self, sheet: &[u8], units: usize) {
        let kind = if sheet.starts_with(b"MT\t103") {
            103
        } else {
            202
        };
        let mut again = [0; 10_000];
        let answer = proved::to_sheet(kind, self.proved_room.written(units), &mut again);
        self.seen.note("to_sheet of that message", &answer);
        if runs_on(kind, self.proved_room.written(units)) {
            self.seen.note("to_sheet of a 103 that runs on", &answer);
        }
        if answer != Ok(sheet.len()) || again[..sheet.len()] != *sheet {
            stop("what is written does not read back as the sheet", sheet);
        }
    }

    fn compare(&mut self, sheet: &[u8], room: usize) -> Result<usize, Refusal> {
        let by_proved = proved::to_message(sheet, self.proved_room.prepare(room));
        let by_plain = plain::to_message(sheet, self.plain_room.prepare(room));
        let what = format!("to_message, room {room}");
        if by_proved != by_plain {
            stop(
                &format!("{what}: proved {by_proved:?}, plain {by_plain:?}"),
                sheet,
            );
        }
        if !self.proved_room.same_as(&self.plain_room) {
            stop(&format!("{what}: the messages differ"), sheet);
        }
        if !self.proved_room.kept_from(by_proved.unwrap_or(0)) {
            stop(&format!("{what}: bytes changed behind the message"), sheet);
        }
        by_proved
    }
}
