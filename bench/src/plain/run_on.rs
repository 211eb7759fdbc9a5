//! Details of a 103 that 70 can't hold whole: where they are cut in two.
//!
//! The front of a text is written as the text is, up to the last letter: only
//! where a cut stands within a run of the Latin side, that is between two Latin
//! letters with nothing but marks beside it, the side closes behind the first
//! of them. Such a cut costs two bytes more than the whole, any other nothing.
//! So the bytes that begin lines are those of the whole text, or those up to
//! some Latin letter, an apostrophe and the marks behind it; and how far the
//! lines of 70 reach is known once for all fronts of such bytes.

use super::breaking::longest_line;
use super::forms::{vo_code_length, IN_70, MOST_DETAILS, WIDTH};
use super::text::{BOTH, CLASS, LATIN, RUSSIAN};

/// What the four lines of 70 hold.
const ROOM_70: usize = 4 * WIDTH;

/// The code and the text written for it, in room for the most that 70 and 72
/// may come to.
pub struct Whole {
    pub room: [u8; MOST_DETAILS],
    pub length: usize,
}

impl Whole {
    pub fn new() -> Whole {
        Whole {
            room: [0; MOST_DETAILS],
            length: 0,
        }
    }

    pub fn bytes(&self) -> &[u8] {
        &self.room[..self.length]
    }

    /// Cuts it at the longest first half of the text that fits 70 while the rest
    /// fits so much room of 72: the code and the first half, and the rest, each
    /// as written by itself. It doesn't fit 70 whole.
    pub fn cut(&mut self, sign: bool, text: &[u8], room: usize) -> Option<(&[u8], &[u8])> {
        let code = vo_code_length(sign);
        let reach = reach(code, self.length, |at| self.room[at]);
        let at = if self.length == code + text.len() {
            // No sign of the text takes more than a byte.
            (self.length - reach <= room).then_some(reach)?
        } else {
            match cut(text, self.bytes(), room, reach)? {
                Cut::Between(at) => at,
                Cut::Within { close, at, open } => {
                    self.insert_apostrophe(open);
                    self.insert_apostrophe(close);
                    at + 1
                }
            }
        };
        Some(self.bytes().split_at(at))
    }

    fn insert_apostrophe(&mut self, at: usize) {
        self.room.copy_within(at..self.length, at + 1);
        self.room[at] = b'\'';
        self.length += 1;
    }
}

/// A cut by the places in the whole.
enum Cut {
    /// Not within a run of the Latin side.
    Between(usize),
    /// The side closes behind a letter, the cut is among the marks behind, and
    /// the side opens before the next letter.
    Within {
        close: usize,
        at: usize,
        open: usize,
    },
}

/// How far the lines of 70 reach into these bytes: a front of them fits just if
/// it is no longer.
fn reach(code: usize, length: usize, byte: impl Fn(usize) -> u8) -> usize {
    let (mut start, mut least) = (0, code);
    for _ in 1..IN_70.lines {
        if start + WIDTH >= length {
            break;
        }
        let taken = longest_line(least, WIDTH, |at| IN_70.may_begin(byte(start + at)));
        let Some(taken) = taken else {
            break;
        };
        (start, least) = (start + taken, 1);
    }
    start + WIDTH
}

/// The longest first half in a text with the sign.
fn cut(text: &[u8], whole: &[u8], room: usize, reach: usize) -> Option<Cut> {
    let code = vo_code_length(true);
    let fronts = Fronts::of(text, ROOM_70 - code);
    let mut first = fronts.most.min(text.len() - 1);
    // The side of the first letter behind the cut.
    let mut behind = side_of_first_letter(&text[first..]);
    let mut latin: Option<Latin> = None;
    while first > 0 {
        let within = behind == LATIN && fronts.sides[first] == LATIN;
        let units = code + usize::from(fronts.units[first]);
        let extra = 2 * usize::from(within);
        if whole.len() + extra - units > room {
            // Cut before, the rest is no shorter.
            return None;
        }
        if !within && units <= reach {
            return Some(Cut::Between(units));
        }
        if within && whole.len() + extra <= MOST_DETAILS {
            let latin = match &mut latin {
                Some(latin) if latin.end <= first => latin,
                latin => latin.insert(Latin::before(&text[..first], &fronts, whole)),
            };
            if units <= latin.reach {
                return Some(latin.cut(text, first));
            }
        }
        first -= 1;
        let class = CLASS[usize::from(text[first])];
        behind = if class < BOTH { class } else { behind };
    }
    None
}

fn side_of_first_letter(text: &[u8]) -> u8 {
    let mut classes = text.iter().map(|&b| CLASS[usize::from(b)]);
    classes.find(|&class| class < BOTH).unwrap_or(RUSSIAN)
}

/// Each front of a text that comes to no more than the room of 70.
struct Fronts {
    /// The longest of them.
    most: usize,
    /// How many bytes each is written in.
    units: [u8; ROOM_70],
    /// The side of its last letter.
    sides: [u8; ROOM_70],
}

impl Fronts {
    fn of(text: &[u8], room: usize) -> Fronts {
        let mut fronts = Fronts {
            most: 0,
            units: [0; ROOM_70],
            sides: [RUSSIAN; ROOM_70],
        };
        let (mut side, mut units) = (RUSSIAN, 0);
        for &b in text {
            let class = CLASS[usize::from(b)];
            let next = if class < BOTH { class } else { side };
            units += 1 + 2 * usize::from(next > side);
            side = next;
            if units > room {
                break;
            }
            fronts.most += 1;
            fronts.units[fronts.most] = units as u8;
            fronts.sides[fronts.most] = side;
        }
        fronts
    }
}

/// A Latin letter with the side closed behind it.
struct Latin {
    /// How many signs of the text end with it.
    end: usize,
    /// Where in the whole the side is closed.
    close: usize,
    /// How far 70 reaches into the code, the text up to the letter, the
    /// apostrophe, and the marks that follow.
    reach: usize,
}

impl Latin {
    /// The last Latin letter of this front of the text.
    fn before(front: &[u8], fronts: &Fronts, whole: &[u8]) -> Latin {
        let latin = |&b: &u8| CLASS[usize::from(b)] == LATIN;
        let end = front.iter().rposition(latin).map_or(0, |last| last + 1);
        let code = vo_code_length(true);
        let length = code + usize::from(fronts.units[front.len()]);
        let close = code + usize::from(fronts.units[end]) - 1;
        let byte = |at: usize| match at {
            _ if at < close => whole[at],
            _ if at > close => whole[at - 1],
            _ => b'\'',
        };
        Latin {
            end,
            close,
            reach: reach(code, length, byte),
        }
    }

    /// The cut behind the first half that ends among the marks behind.
    fn cut(&self, text: &[u8], first: usize) -> Cut {
        let latin = |&b: &u8| CLASS[usize::from(b)] == LATIN;
        let marks = text[self.end..].iter().position(latin).unwrap_or(0);
        Cut::Within {
            close: self.close,
            at: self.close + (first - self.end),
            open: self.close + marks,
        }
    }
}
