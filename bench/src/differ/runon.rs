//! Details of a 103 that 70 can't hold, or nearly so: the proved build against
//! the exhaustive version.

use super::{stop, Seen};
use crate::calls as proved;
use crate::cases::runs_on;
use crate::long::{some_long, Long};
use crate::random::Random;

/// No sheet or message made here is longer.
const AMPLE: usize = 2_000;

pub fn run(count: usize, seed: u64) {
    let mut random = Random::new(seed);
    let mut seen = Seen::default();
    for _ in 0..count {
        hold(&some_long(&mut random), &mut seen);
    }
    println!("{count} long details, 0 differences");
    seen.print();
}

fn hold(long: &Long, seen: &mut Seen) {
    let sheet = long.sheet();
    let mut room = [0; AMPLE];
    let answer = proved::to_message(&sheet, &mut room);
    let message = answer.map(|units| &room[..units]);
    let expected = long.message();
    if message != expected.as_deref().map_err(|refusal| *refusal) {
        let what = format!("proved {answer:?}, exhaustive {expected:?}");
        stop(&what, &sheet);
    }
    let Ok(message) = message else {
        seen.note("to_message", &answer);
        return;
    };
    let call = if runs_on(103, message) {
        "to_message, cut"
    } else {
        "to_message, whole"
    };
    seen.note(call, &answer);
    let mut again = [0; AMPLE];
    let answer = proved::to_sheet(103, message, &mut again);
    if answer != Ok(sheet.len()) || again[..sheet.len()] != sheet {
        stop("what is written does not read back as the sheet", &sheet);
    }
}
