//! Messages for the calls that judge a whole message.

use crate::messages::Message;
use crate::plain::check::content;
use crate::random::Random;
use crate::{damage, messages};

/// A message and the type it is given as.
pub struct Case {
    pub kind: u32,
    pub bytes: Vec<u8>,
    /// Whether it was built to break no rule, and was left so.
    pub right: bool,
}

/// The place of 72 in a 103.
const NOTE: u32 = 12;

/// What an accepted 103 has in 72, and the empty part for any other message.
fn note(kind: u32, m: &[u8]) -> &[u8] {
    let note = content(kind, m, NOTE).filter(|_| kind == 103);
    note.map_or(&[], |(start, end)| &m[start..end])
}

fn has_rest_behind_rpp(note: &[u8]) -> bool {
    note.starts_with(b"/RPP/") && note.contains(&b'\r')
}

/// Whether the details of an accepted 103 run on.
pub fn runs_on(kind: u32, m: &[u8]) -> bool {
    let note = note(kind, m);
    note.starts_with(b"/NZP/") || has_rest_behind_rpp(note)
}

/// Whether the sheet of an accepted message may be 16 when it is written: with
/// the sign, if there is a rest behind an RPP line.
pub fn may_be_crowded(kind: u32, m: &[u8]) -> bool {
    m.get(9) == Some(&b'+') && has_rest_behind_rpp(note(kind, m))
}

/// Right, or spoilt in its contents, its fields or its bytes.
pub fn message(random: &mut Random) -> Case {
    match random.below(12) {
        0..=3 => right(random),
        4..=9 => spoilt_contents(random),
        10 => spoilt_frame(random),
        _ => soup(random),
    }
}

pub fn right(random: &mut Random) -> Case {
    let message = messages::right(random);
    Case {
        kind: message.kind,
        bytes: message.bytes(),
        right: true,
    }
}

/// Mostly one of 8 to 14 or 21, at times behind another fault.
pub fn spoilt_contents(random: &mut Random) -> Case {
    let mut message = messages::right(random);
    for _ in 0..*random.pick(&[1, 1, 1, 1, 2, 2, 3, 6]) {
        damage::contents(random, &mut message);
    }
    if random.once_in(12) {
        damage::fields(random, &mut message);
    }
    if random.once_in(200) {
        stretch(random, &mut message, &[2_000, 9_999, 10_000, 10_001]);
    }
    let mut bytes = message.bytes();
    if random.once_in(12) {
        damage::bytes(random, &mut bytes);
    }
    spoilt(random, message.kind, bytes)
}

/// Mostly one of 1 to 7, once or often.
pub fn spoilt_frame(random: &mut Random) -> Case {
    let mut message = messages::right(random);
    for _ in 0..*random.pick(&[0, 1, 1, 2, 5]) {
        damage::fields(random, &mut message);
    }
    if random.once_in(20) {
        let lengths = &[2_000, 9_997, 9_999, 10_000, 10_001, 10_003];
        stretch(random, &mut message, lengths);
    }
    let mut bytes = message.bytes();
    for _ in 0..*random.pick(&[0, 0, 0, 1, 1, 2, 5]) {
        damage::bytes(random, &mut bytes);
    }
    spoilt(random, message.kind, bytes)
}

/// Short messages of pieces that matter to the frame.
pub fn soup(random: &mut Random) -> Case {
    const PIECES: &[&[u8]] = &[
        b"\r\n", b"\r\n", b"\r\n:", b"\r", b"\n", b"-", b"}", b"-}", b":", b"20", b"20:", b":20:A",
        b"B:", b"A", b"{4:", b"'", b"!",
    ];
    let mut m = Vec::new();
    if !random.once_in(10) {
        m.extend(b"{4:\r\n");
    }
    for _ in 0..random.below(7) {
        m.extend(*random.pick(PIECES));
    }
    if !random.once_in(10) {
        m.extend(b"\r\n-}");
    }
    let kind = *random.pick(&[103, 202]);
    spoilt(random, kind, m)
}

fn stretch(random: &mut Random, message: &mut Message, lengths: &[usize]) {
    if !message.fields.is_empty() {
        let length = *random.pick(lengths);
        damage::stretch(random, message, length);
    }
}

/// Given mostly as the message's own type.
fn spoilt(random: &mut Random, kind: u32, bytes: Vec<u8>) -> Case {
    let kind = match random.below(60) {
        0 => 305 - kind,
        1 => *random.pick(&[0, 1, 102, 104, 201, 203, 940, 65_639, u32::MAX]),
        _ => kind,
    };
    Case {
        kind,
        bytes,
        right: false,
    }
}

#[cfg(test)]
mod tests {
    use super::*;
    use crate::plain::read::to_sheet;
    use crate::plain::write::to_message;
    use std::collections::BTreeMap;

    fn sheet(case: &Case) -> Result<Vec<u8>, u32> {
        let mut room = [0; 2_000];
        let units = to_sheet(case.kind, &case.bytes, &mut room);
        let units = units.map_err(|refusal| refusal.number)?;
        Ok(room[..units].to_vec())
    }

    /// The sheet written again reads as the same, or is refused.
    fn goes_back(case: &Case, read: &[u8]) -> Result<(), u32> {
        let mut room = [0; 4_000];
        let units = to_message(read, &mut room).map_err(|refusal| refusal.number)?;
        let again = Case {
            kind: case.kind,
            bytes: room[..units].to_vec(),
            right: true,
        };
        assert_eq!(sheet(&again).as_deref(), Ok(read));
        Ok(())
    }

    #[test]
    fn there_and_back() {
        let mut random = Random::new(3);
        let mut seen: BTreeMap<u32, usize> = BTreeMap::new();
        let (mut run_on, mut crowded) = (0, 0);
        for _ in 0..60_000 {
            let case = message(&mut random);
            let read = match sheet(&case) {
                Ok(read) => read,
                Err(number) => {
                    assert!(!case.right, "{:?}", case.bytes.escape_ascii().to_string());
                    *seen.entry(number).or_default() += 1;
                    continue;
                }
            };
            run_on += usize::from(runs_on(case.kind, &case.bytes));
            match goes_back(&case, &read) {
                Ok(()) => {}
                Err(16) if may_be_crowded(case.kind, &case.bytes) => crowded += 1,
                Err(number) => panic!("{number}: {}", case.bytes.escape_ascii()),
            }
        }
        assert!(run_on > 2_000 && crowded > 60, "{run_on} {crowded}");
        let numbers = (1..=14).chain([18, 21]);
        assert!(seen.keys().copied().eq(numbers.clone()), "{seen:?}");
        assert!(
            numbers.clone().all(|number| seen[&number] > 100),
            "{seen:?}"
        );
    }
}
