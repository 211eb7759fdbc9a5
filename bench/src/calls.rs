//! The archive's calls by the safe wrappers of `link/rust`, answering as the plain build does.

use crate::plain::Refusal;
use rimpelsloot::Kind;

fn plainly<T>(answer: Result<T, rimpelsloot::Refusal>) -> Result<T, Refusal> {
    answer.map_err(|refusal| Refusal {
        number: refusal.number,
        place: refusal.place,
    })
}

pub fn read_text(sign: bool, bank: &[u8], out: &mut [u8]) -> Result<usize, Refusal> {
    plainly(rimpelsloot::read_text(sign, bank, out))
}

pub fn write_text(sign: bool, desk: &[u8], out: &mut [u8]) -> Result<usize, Refusal> {
    plainly(rimpelsloot::write_text(sign, desk, out))
}

/// The number of fields and the presence word.
pub fn check(kind: u32, m: &[u8], list: &mut [u32]) -> Result<(usize, u32), Refusal> {
    let checked = plainly(rimpelsloot::check(Kind::from(kind), m, list))?;
    Ok((checked.fields, checked.word))
}

/// Start and end of the content at a place.
pub fn content(kind: u32, m: &[u8], place: u32) -> Option<(usize, usize)> {
    let part = rimpelsloot::content(Kind::from(kind), m, place)?;
    let start = part.as_ptr() as usize - m.as_ptr() as usize;
    Some((start, start + part.len()))
}

pub fn kopecks(kind: u32, m: &[u8]) -> Result<u64, Refusal> {
    plainly(rimpelsloot::kopecks(Kind::from(kind), m))
}

/// Year * 10000 + month * 100 + day.
pub fn date(kind: u32, m: &[u8]) -> Result<u64, Refusal> {
    let date = plainly(rimpelsloot::date(Kind::from(kind), m))?;
    let year_and_month = 100 * u64::from(date.year) + u64::from(date.month);
    Ok(100 * year_and_month + u64::from(date.day))
}

pub fn to_sheet(kind: u32, m: &[u8], out: &mut [u8]) -> Result<usize, Refusal> {
    plainly(rimpelsloot::to_sheet(Kind::from(kind), m, out))
}

pub fn to_message(sheet: &[u8], out: &mut [u8]) -> Result<usize, Refusal> {
    plainly(rimpelsloot::to_message(sheet, out))
}
