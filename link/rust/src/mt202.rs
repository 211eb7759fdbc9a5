//! The places of a 202, by the tags of their fields.

/// Sender's reference; a `+` in front is the sign.
pub const F20: u32 = 0;
/// Related reference.
pub const F21: u32 = 1;
/// Value date, currency, amount.
pub const F32A: u32 = 2;
/// Ordering institution.
pub const F52A: u32 = 3;
/// Sender's correspondent.
pub const F53B: u32 = 4;
/// Intermediary, 56A or 56D.
pub const F56: u32 = 5;
/// Account with institution, 57A or 57D.
pub const F57: u32 = 6;
/// Beneficiary institution, 58A or 58D.
pub const F58: u32 = 7;
/// Sender to receiver information, with the details.
pub const F72: u32 = 8;
