//! The plain build: the same calls as the archive, written from the rules alone.

pub mod breaking;
pub mod check;
pub mod forms;
pub mod frame;
pub mod read;
pub mod run_on;
#[cfg(test)]
mod tests;
pub mod text;
pub mod types;
pub mod write;

/// Why a call was refused: the number a clerk sees, and the place it speaks of.
#[derive(Clone, Copy, Debug, PartialEq, Eq)]
pub struct Refusal {
    pub number: u32,
    pub place: usize,
}

/// A refusal as the failing side of a result.
pub fn refuse<T>(number: u32, place: usize) -> Result<T, Refusal> {
    Err(Refusal { number, place })
}
