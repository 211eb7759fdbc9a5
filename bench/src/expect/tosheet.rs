//! The output of `tosheet`: the sheet of a message, or its refusal.

use super::or_refusal;
use crate::plain::read::to_sheet;
use crate::streams::{input, output};

/// The sheet of a right message is never longer than the longest message.
const ROOM: usize = 10_000;

pub fn run() {
    let input = input();
    let (kind, message) = kind_and_message(&input);
    let mut room = vec![0; ROOM];
    let answer = to_sheet(kind, message, &mut room).map(|units| room[..units].to_vec());
    output(&or_refusal(answer));
}

/// Three digits and LF give the type, anything else none that there is; the
/// message follows.
fn kind_and_message(input: &[u8]) -> (u32, &[u8]) {
    match input {
        [a, b, c, b'\n', message @ ..] if [a, b, c].iter().all(|b| b.is_ascii_digit()) => {
            let value = |digit: &u8| u32::from(digit - b'0');
            (100 * value(a) + 10 * value(b) + value(c), message)
        }
        _ => (0, input),
    }
}
