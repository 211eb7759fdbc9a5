//! What the plain build expects a program to write for its whole input.

pub mod tests;
pub mod tomessage;
pub mod tosheet;

use crate::plain::Refusal;

/// A refusal as a program writes it.
pub fn refused(refusal: Refusal) -> String {
    format!("refused\t{}\t{}", refusal.number, refusal.place)
}

/// The whole output of a program that writes one answer.
fn or_refusal(answer: Result<Vec<u8>, Refusal>) -> Vec<u8> {
    answer.unwrap_or_else(|refusal| format!("{}\n", refused(refusal)).into_bytes())
}
