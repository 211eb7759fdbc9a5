//! Breaking details into lines: each takes the most bytes that it lawfully can.

use super::forms::Layout;

/// Puts `whole` into so many lines at most, with their marks and CR LF between;
/// none, and nothing put, if it doesn't fit. So many of its first bytes are a
/// code, which is never broken.
pub fn put(
    layout: &Layout,
    lines: usize,
    code: usize,
    whole: &[u8],
    message: &mut Vec<u8>,
) -> Option<()> {
    let before = message.len();
    let mut rest = whole;
    let (mut least, mut room, mut mark) = (code.max(1), layout.first_room, layout.first_mark);
    for _ in 0..lines {
        let taken = if rest.len() <= room {
            Some(rest.len())
        } else {
            longest_line(least, room, |at| layout.may_begin(rest[at]))
        };
        let Some(taken) = taken else {
            break;
        };
        message.extend(mark);
        message.extend(&rest[..taken]);
        rest = &rest[taken..];
        if rest.is_empty() {
            return Some(());
        }
        message.extend(b"\r\n");
        (least, room, mark) = (1, layout.later_room, layout.later_mark);
    }
    message.truncate(before);
    None
}

/// The most bytes, within the room, that a line may take: the one behind them
/// begins the next line.
#[inline(always)]
pub fn longest_line(least: usize, room: usize, may_begin: impl Fn(usize) -> bool) -> Option<usize> {
    (least..=room).rev().find(|&taken| may_begin(taken))
}
