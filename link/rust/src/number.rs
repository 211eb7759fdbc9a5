//! The numbers of refusals by name. What each means is in docs/NUMBERS.md and [`Refusal::meaning`](crate::Refusal::meaning).

/// Input over its limit.
pub const LENGTH: u32 = 1;
/// The frame of a message.
pub const FRAME: u32 = 2;
/// A byte of a message.
pub const BYTE: u32 = 3;
/// A line of a message.
pub const LINE: u32 = 4;
/// A tag that the type has not.
pub const TAG: u32 = 5;
/// The order of fields.
pub const ORDER: u32 = 6;
/// A field that is missing.
pub const MISSING: u32 = 7;
/// The content of a field.
pub const CONTENT: u32 = 8;
/// A date.
pub const DATE: u32 = 9;
/// The currency.
pub const CURRENCY: u32 = 10;
/// An intermediary, 56, without a 57.
pub const INTERMEDIARY: u32 = 11;
/// A BIK and its account.
pub const BIK: u32 = 12;
/// A payment to the budget.
pub const BUDGET: u32 = 13;
/// A text that does not read back.
pub const TEXT: u32 = 14;
/// A character that can't be sent.
pub const CHARACTER: u32 = 15;
/// Details that do not fit their lines.
pub const DETAILS: u32 = 16;
/// Room that is too short; the place is the units needed.
pub const ROOM: u32 = 17;
/// A type that is neither 103 nor 202.
pub const TYPE: u32 = 18;
/// The build of a sheet.
pub const SHEET: u32 = 19;
/// Details that run on and are too long together.
pub const RUN_ON: u32 = 21;
