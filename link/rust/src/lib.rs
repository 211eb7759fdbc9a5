//! Safe calls of the archive `libdesk.a`: texts, messages and sheets of a payment desk for roubles.
//!
//! Slices go in, a [`Result`] comes out: what was asked for, or a [`Refusal`] by a number at a place. Any bytes of any
//! length get an answer. A refused call has changed nothing of the room lent to it; an accepted one only the first
//! units, as many as it reports. What each call answers is proved (docs/PROMISES.md); `include/desk.h` says the same
//! of each in C's terms. A thread that calls has 32 KB of stack free.
//!
//! A sheet is windows-1251, with a tab between the parts of a record; a message is block 4 of an MT103 or an MT202.
//!
//! ```
//! use rimpelsloot::{date, kopecks, to_message, to_sheet, Date, Kind, Refusal, MESSAGE_LIMIT};
//!
//! # fn main() -> Result<(), Refusal> {
//! let sheet = b"MT\t103\n20\tA17\n23B\tCRED\n32A\t240229RUB1500,5\n50K\t/40702\tNORD\n\
//! 53B\t/D/30111810500000100000\n59\t/40702810700000099079\tPETR\n70\t10100\tGOODS\n71A\tOUR\n";
//!
//! let mut room = [0; MESSAGE_LIMIT];
//! let written = to_message(sheet, &mut room)?;
//! let message = &room[..written];
//! assert!(message.starts_with(b"{4:\r\n:20:A17\r\n:23B:CRED\r\n"));
//! assert_eq!(kopecks(Kind::Mt103, message)?, 150_050);
//! assert_eq!(date(Kind::Mt103, message)?, Date { year: 2024, month: 2, day: 29 });
//!
//! let mut again = [0; 300];
//! let written = to_sheet(Kind::Mt103, message, &mut again)?;
//! assert_eq!(&again[..written], sheet);
//! # Ok(())
//! # }
//! ```

#![deny(missing_docs)]
#![deny(unsafe_code)]

#[allow(unsafe_code)]
mod calls;
pub mod mt103;
pub mod mt202;
pub mod number;
mod refusal;

pub use refusal::Refusal;

/// The most bytes of a sheet; a longer one is refused by 1.
pub const SHEET_LIMIT: usize = 10_000;
/// The most bytes of a message; a longer one is refused by 1.
pub const MESSAGE_LIMIT: usize = 10_000;
/// The most bytes of a desk text alone; a longer one is refused by 1.
pub const TEXT_LIMIT: usize = 5_000;
/// The most bytes of a bank text alone; a longer one is refused by 1.
pub const BANK_LIMIT: usize = 10_000;
/// As many numbers are enough for the list of every message: 3 for each of at most 14 fields.
pub const LIST_ROOM: usize = 42;

/// The type of a message.
///
/// ```
/// use rimpelsloot::{kopecks, number, Kind, Refusal};
///
/// assert_eq!(Kind::from(103), Kind::Mt103);
/// assert_eq!(Kind::from(940), Kind::Other(940));
/// let refusal = Refusal { number: number::TYPE, place: 0 };
/// assert_eq!(kopecks(Kind::Other(940), b"any bytes"), Err(refusal));
/// ```
#[derive(Clone, Copy, Debug, PartialEq, Eq, Hash)]
pub enum Kind {
    /// A customer's payment; its places are in [`mt103`].
    Mt103,
    /// A payment between banks; its places are in [`mt202`].
    Mt202,
    /// A type by its number. One that is neither 103 nor 202 is refused by 18.
    Other(u32),
}

impl Kind {
    /// The type as a number.
    pub fn number(self) -> u32 {
        match self {
            Kind::Mt103 => 103,
            Kind::Mt202 => 202,
            Kind::Other(number) => number,
        }
    }
}

impl From<u32> for Kind {
    fn from(number: u32) -> Kind {
        match number {
            103 => Kind::Mt103,
            202 => Kind::Mt202,
            other => Kind::Other(other),
        }
    }
}

/// What the check reports of an accepted message.
#[derive(Clone, Copy, Debug, PartialEq, Eq, Hash)]
pub struct Checked {
    /// How many fields there are; as many times three numbers stand in the list.
    pub fields: usize,
    /// A bit for each place present, counted from bit 0; as many ones as fields.
    pub word: u32,
}

impl Checked {
    /// Whether a place is present, one of [`mt103`] or [`mt202`].
    pub fn has(self, place: u32) -> bool {
        self.word.checked_shr(place).unwrap_or(0) & 1 == 1
    }
}

/// A day of the calendar.
#[derive(Clone, Copy, Debug, PartialEq, Eq, PartialOrd, Ord, Hash)]
pub struct Date {
    /// 1980 to 2079.
    pub year: u16,
    /// 1 to 12.
    pub month: u8,
    /// 1 to 31.
    pub day: u8,
}

/// A bank text read as desk text (windows-1251), or as its own bytes without the sign; answers the bytes written.
///
/// Refused by 1 (over [`BANK_LIMIT`]), 14 (place: the first byte without a reading, or the length where the Latin
/// side is open at the end), 17.
///
/// ```
/// use rimpelsloot::{number, read_text, Refusal};
///
/// let mut room = [0; 4];
/// assert_eq!(read_text(true, b"PoTR", &mut room), Ok(4));
/// assert_eq!(room, [0xCF, 0xA8, 0xD2, 0xD0]); // ПЁТР
/// let open = Refusal { number: number::TEXT, place: 3 };
/// assert_eq!(read_text(true, b"'AB", &mut room), Err(open));
/// ```
pub fn read_text(sign: bool, bank: &[u8], room: &mut [u8]) -> Result<usize, Refusal> {
    accepted(calls::read_text(sign, bank, room)).map(units)
}

/// A desk text written as the shortest bank text, of these the one with the fewest characters between apostrophes;
/// answers the bytes written.
///
/// Refused by 1 (over [`TEXT_LIMIT`]), 15 (place: the first byte that can't be written), 17.
///
/// ```
/// use rimpelsloot::{number, write_text, Refusal};
///
/// let mut room = [0; 12];
/// assert_eq!(write_text(true, b"ABC 12 DEF", &mut room), Ok(12));
/// assert_eq!(&room, b"'ABC 12 DEF'");
/// let apostrophe = Refusal { number: number::CHARACTER, place: 3 };
/// assert_eq!(write_text(true, b"DON'T", &mut room), Err(apostrophe));
/// ```
pub fn write_text(sign: bool, text: &[u8], room: &mut [u8]) -> Result<usize, Refusal> {
    accepted(calls::write_text(sign, text, room)).map(units)
}

/// A message judged by every rule; colon, content start and content end of each field go into the list.
///
/// Refused by the first broken rule of 18, 1 to 14, 21, then by 17; [`LIST_ROOM`] numbers are always enough.
///
/// ```
/// use rimpelsloot::{check, mt103, Kind, LIST_ROOM};
///
/// # let message = include_bytes!(concat!(env!("CARGO_MANIFEST_DIR"), "/../../crates/tomessage/stdout"));
/// # assert!(message.starts_with(b"{4:\r\n:20:+A17\r\n"));
/// let mut list = [0; LIST_ROOM];
/// let checked = check(Kind::Mt103, message, &mut list)?;
/// assert_eq!(checked.fields, 8);
/// assert!(checked.has(mt103::F70) && !checked.has(mt103::F26T));
/// let [colon, start, end] = [list[0], list[1], list[2]];
/// assert_eq!(&message[colon as usize..end as usize], b":20:+A17");
/// assert_eq!(&message[start as usize..end as usize], b"+A17");
/// # Ok::<(), rimpelsloot::Refusal>(())
/// ```
pub fn check(kind: Kind, message: &[u8], list: &mut [u32]) -> Result<Checked, Refusal> {
    let answer = accepted(calls::check(kind.number(), message, list))?;
    Ok(Checked {
        fields: (answer & 0xFFFF) as usize,
        word: (answer >> 16) as u32,
    })
}

/// The content of a place, one of [`mt103`] or [`mt202`], as a part of the message; nothing where the message is
/// refused or has no such field.
///
/// ```
/// use rimpelsloot::{content, mt103, Kind};
///
/// # let message = include_bytes!(concat!(env!("CARGO_MANIFEST_DIR"), "/../../crates/tomessage/stdout"));
/// assert_eq!(content(Kind::Mt103, message, mt103::F71A), Some(&b"OUR"[..]));
/// assert_eq!(content(Kind::Mt103, message, mt103::F72), None);
/// ```
pub fn content(kind: Kind, message: &[u8], place: u32) -> Option<&[u8]> {
    let part = calls::content(kind.number(), message, place);
    let start = (part >> 32) as usize;
    let length = (part & 0xFFFF_FFFF) as usize;
    (part != 0).then(|| &message[start..start + length])
}

/// The amount of 32A in kopecks, or the message's refusal.
///
/// ```
/// use rimpelsloot::{kopecks, Kind};
///
/// # let message = include_bytes!(concat!(env!("CARGO_MANIFEST_DIR"), "/../../crates/tomessage/stdout"));
/// // :32A:240229RUB1500,5
/// assert_eq!(kopecks(Kind::Mt103, message), Ok(150_050));
/// ```
pub fn kopecks(kind: Kind, message: &[u8]) -> Result<u64, Refusal> {
    accepted(calls::kopecks(kind.number(), message))
}

/// The date of 32A, or the message's refusal.
///
/// ```
/// use rimpelsloot::{date, Date, Kind};
///
/// # let message = include_bytes!(concat!(env!("CARGO_MANIFEST_DIR"), "/../../crates/tomessage/stdout"));
/// // :32A:240229RUB1500,5
/// assert_eq!(date(Kind::Mt103, message), Ok(Date { year: 2024, month: 2, day: 29 }));
/// ```
pub fn date(kind: Kind, message: &[u8]) -> Result<Date, Refusal> {
    let answer = accepted(calls::date(kind.number(), message))?;
    Ok(Date {
        year: (answer / 10_000) as u16,
        month: (answer / 100 % 100) as u8,
        day: (answer % 100) as u8,
    })
}

/// A message read into its sheet; answers the bytes written. No sheet is longer than its message. Its record of 70 holds
/// all of the details, also those that run on into 72.
///
/// Refused by the message's refusal, then by 17.
///
/// ```
/// use rimpelsloot::{to_sheet, Kind};
///
/// # let message = include_bytes!(concat!(env!("CARGO_MANIFEST_DIR"), "/../../crates/tomessage/stdout"));
/// let mut sheet = vec![0; message.len()];
/// let written = to_sheet(Kind::Mt103, message, &mut sheet)?;
/// sheet.truncate(written);
/// assert!(sheet.starts_with(b"MT\t103\n20\t+A17\n"));
/// # Ok::<(), rimpelsloot::Refusal>(())
/// ```
pub fn to_sheet(kind: Kind, message: &[u8], room: &mut [u8]) -> Result<usize, Refusal> {
    accepted(calls::to_sheet(kind.number(), message, room)).map(units)
}

/// A sheet written as its message; answers the bytes written. The type stands in the sheet. Details of a 103 that field
/// 70 can't hold run on into 72; no other break of the same bank text saves a line of a field.
///
/// Refused by 1, 19, 18, 15, 16, then by 17 (which may ask for more than [`MESSAGE_LIMIT`] bytes), then by the refusal
/// of the message itself (1, 5 to 13) with place 0.
///
/// ```
/// use rimpelsloot::{number, to_message, Refusal};
///
/// let unended = Refusal { number: number::SHEET, place: 7 };
/// assert_eq!(to_message(b"MT\t103\n20\tA17", &mut [0; 100]), Err(unended));
/// ```
pub fn to_message(sheet: &[u8], room: &mut [u8]) -> Result<usize, Refusal> {
    accepted(calls::to_message(sheet, room)).map(units)
}

/// Below this an answer is accepted.
const REFUSED: u64 = 1 << 63;

/// An answer taken apart: 2^63 + number * 2^32 + place is a refusal.
fn accepted(answer: u64) -> Result<u64, Refusal> {
    if answer < REFUSED {
        return Ok(answer);
    }
    Err(Refusal {
        number: ((answer - REFUSED) >> 32) as u32,
        place: (answer & 0xFFFF_FFFF) as usize,
    })
}

/// The units written.
fn units(answer: u64) -> usize {
    answer as usize
}
