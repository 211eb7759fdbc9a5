//! A refusal, and what its number means.

use std::error::Error;
use std::fmt;

/// Why a call was refused: a number of docs/NUMBERS.md, at a place.
///
/// The numbers by name are in [`number`](crate::number). Places count from 0; of
/// [`ROOM`](crate::number::ROOM) the place is the units that are needed.
///
/// ```
/// use rimpelsloot::{number, write_text, Refusal};
///
/// let refusal = write_text(true, b"ABC", &mut []).unwrap_err();
/// assert_eq!(refusal, Refusal { number: number::ROOM, place: 5 });
/// assert_eq!(
///     refusal.to_string(),
///     "refused by 17 at 5: The room lent is too short (a matter for the program, not for the clerk)."
/// );
/// ```
#[derive(Clone, Copy, Debug, PartialEq, Eq, Hash)]
pub struct Refusal {
    /// The number a clerk sees, one of docs/NUMBERS.md.
    pub number: u32,
    /// What the number points at, mostly a byte of the input.
    pub place: usize,
}

impl Refusal {
    /// What the number means, in the words of docs/NUMBERS.md; nothing for one that is not there.
    ///
    /// ```
    /// use rimpelsloot::{number, Refusal};
    ///
    /// let refusal = Refusal { number: number::CURRENCY, place: 40 };
    /// assert_eq!(refusal.meaning(), Some("A currency other than RUB."));
    /// assert_eq!(Refusal { number: 20, place: 0 }.meaning(), None);
    /// ```
    pub fn meaning(&self) -> Option<&'static str> {
        let told = MEANINGS.iter().find(|told| told.0 == self.number)?;
        Some(told.1)
    }
}

impl fmt::Display for Refusal {
    fn fmt(&self, f: &mut fmt::Formatter<'_>) -> fmt::Result {
        write!(f, "refused by {} at {}", self.number, self.place)?;
        match self.meaning() {
            Some(meaning) => write!(f, ": {meaning}"),
            None => Ok(()),
        }
    }
}

impl Error for Refusal {}

/// What each number means: docs/NUMBERS.md, its column in English.
const MEANINGS: [(u32, &str); 20] = [
    (1, "The input is longer than 10,000 bytes; of a sheet with place 0, the message built from it would be. (A text alone: 5,000 bytes typed, 10,000 in bank letters.)"),
    (2, "The message does not begin with `{4:` and a line end, or does not end with a line end and `-}`."),
    (3, "A byte that a message may not hold, or a broken line end."),
    (4, "A line that is empty, begins with `-`, or has no right tag; or the first line opens no field."),
    (5, "A tag that this type of message does not have."),
    (6, "A field out of order, or a second time."),
    (7, "A field that must be there is missing."),
    (8, "A field's content is not as its tag asks."),
    (9, "A date that is no day of the calendar."),
    (10, "A currency other than RUB."),
    (11, "A 56 (intermediary) without a 57."),
    (12, "A BIK and an account that do not belong together: their last three digits differ."),
    (13, "A payment to the budget that is not whole: 26T without 77B, or without INN and KPP of both payer and payee; or 77B without 26T."),
    (14, "A text that does not read back to Russian letters, or a name that would be taken for something else: an account, a new field, a tax line."),
    (15, "A character that can't be sent: a small Russian letter, an apostrophe in a name or in details; without the sign `+` any Russian letter."),
    (16, "The details do not fit the lines of their field; those of a 103 do not fit the fields 70 and 72 together."),
    (17, "The room lent is too short (a matter for the program, not for the clerk)."),
    (18, "A type that is neither 103 nor 202."),
    (19, "The sheet is not built as a sheet must be: a record without its end, an empty part, a wrong tag, VO digits that are not five."),
    (21, "The details of a 103, run on from field 70 into field 72, have more than 210 bytes with their code."),
];
