//! Texts of the stored list, as bench/texts.py writes them.

use super::{number, raw};
use crate::plain::text::{read_text, write_text};
use crate::plain::{refuse, Refusal};

/// A text, how it is given to its call, and what that has to answer.
pub struct Record {
    pub name: String,
    way: Way,
    sign: bool,
    room: usize,
    input: Vec<u8>,
    expected: Result<Vec<u8>, Refusal>,
}

enum Way {
    Read,
    Write,
}

/// The words behind `text`, and the raw bytes of the input and of the expected
/// text, which are taken from the list.
pub fn read(words: &[&str], list: &mut &[u8]) -> Option<Record> {
    let &[name, way, sign, room, refusal, place, length, text, input] = words else {
        return None;
    };
    let input = raw(number(input)?, list)?;
    let text = raw(number(text)?, list)?;
    let place = number(place)?;
    Some(Record {
        name: name.to_string(),
        way: match way {
            "r" => Way::Read,
            "w" => Way::Write,
            _ => return None,
        },
        sign: match sign {
            "+" => true,
            "-" => false,
            _ => return None,
        },
        room: number(room)?,
        input: repeated(input, number(length)?),
        expected: match number(refusal)? {
            0 => Ok(repeated(text, place)),
            number => refuse(number, place),
        },
    })
}

/// The raw bytes over and over, up to a length.
fn repeated(raw: &[u8], length: usize) -> Vec<u8> {
    raw.iter().copied().cycle().take(length).collect()
}

impl Record {
    /// What the plain build answers.
    fn said(&self) -> Result<Vec<u8>, Refusal> {
        let mut room = vec![0; self.room];
        let units = match self.way {
            Way::Read => read_text(self.sign, &self.input, &mut room)?,
            Way::Write => write_text(self.sign, &self.input, &mut room)?,
        };
        room.truncate(units);
        Ok(room)
    }

    /// What the plain build answers where that is not what is expected.
    pub fn otherwise(&self) -> Option<Result<Vec<u8>, Refusal>> {
        let said = self.said();
        (said != self.expected).then_some(said)
    }
}
