//! The output of `tomessage`: the message of a sheet, or its refusal.

use super::or_refusal;
use crate::plain::write::to_message;
use crate::streams::{input, output};

/// Room enough for whatever is built from a sheet of the greatest length, so
/// that 17 is never met.
const ROOM: usize = 40_000;

pub fn run() {
    let sheet = input();
    let mut room = vec![0; ROOM];
    let answer = to_message(&sheet, &mut room).map(|units| room[..units].to_vec());
    output(&or_refusal(answer));
}
