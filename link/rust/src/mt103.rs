//! The places of a 103, by the tags of their fields.

/// Sender's reference; a `+` in front is the sign.
pub const F20: u32 = 0;
/// Bank operation code.
pub const F23B: u32 = 1;
/// Transaction type code: of a payment to the budget.
pub const F26T: u32 = 2;
/// Value date, currency, amount.
pub const F32A: u32 = 3;
/// Ordering customer, the payer.
pub const F50K: u32 = 4;
/// Ordering institution.
pub const F52A: u32 = 5;
/// Sender's correspondent.
pub const F53B: u32 = 6;
/// Intermediary, 56A or 56D.
pub const F56: u32 = 7;
/// Account with institution, 57A or 57D.
pub const F57: u32 = 8;
/// Beneficiary customer, the payee.
pub const F59: u32 = 9;
/// Remittance information, the details.
pub const F70: u32 = 10;
/// Details of charges.
pub const F71A: u32 = 11;
/// Sender to receiver information.
pub const F72: u32 = 12;
/// Regulatory reporting.
pub const F77B: u32 = 13;
