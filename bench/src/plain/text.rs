//! Texts alone: bank text to desk text and back.
//!
//! A bank text is read from the Russian side; an apostrophe changes side and
//! stands for nothing. On the Latin side every letter is itself. Writing gives
//! the shortest bank text, and of those the one with the fewest characters
//! between apostrophes: the Latin side is opened right before a Latin letter,
//! kept open over shared marks up to the last Latin letter before the next
//! Russian one, and closed right behind that letter.

use super::{refuse, Refusal};

/// The longest bank text that may be read alone.
pub const BANK_LIMIT: usize = 10_000;
/// The longest desk text that may be written alone.
pub const DESK_LIMIT: usize = 5_000;

const APOSTROPHE: u8 = b'\'';

/// Marks, digits and the space stand for themselves on both sides.
const SHARED: &[u8] = b"0123456789 /-?:().,+";

/// The constant table: desk sign and bank letter.
const PAIRS: [(char, u8); 34] = [
    ('А', b'A'),
    ('Б', b'B'),
    ('В', b'V'),
    ('Г', b'G'),
    ('Д', b'D'),
    ('Е', b'E'),
    ('Ё', b'o'),
    ('Ж', b'J'),
    ('З', b'Z'),
    ('И', b'I'),
    ('Й', b'i'),
    ('К', b'K'),
    ('Л', b'L'),
    ('М', b'M'),
    ('Н', b'N'),
    ('О', b'O'),
    ('П', b'P'),
    ('Р', b'R'),
    ('С', b'S'),
    ('Т', b'T'),
    ('У', b'U'),
    ('Ф', b'F'),
    ('Х', b'H'),
    ('Ц', b'C'),
    ('Ч', b'c'),
    ('Ш', b'Q'),
    ('Щ', b'q'),
    ('Ъ', b'x'),
    ('Ы', b'Y'),
    ('Ь', b'X'),
    ('Э', b'e'),
    ('Ю', b'u'),
    ('Я', b'a'),
    ('№', b'n'),
];

/// The windows-1251 byte of a sign of the table.
const fn desk_byte(sign: char) -> u8 {
    match sign {
        'Ё' => 0xA8,
        '№' => 0xB9,
        _ => 0xC0 + (sign as u32 - 'А' as u32) as u8,
    }
}

// Classes of desk bytes. The numbers matter to `measure_writing` and to `run_on`.
pub const RUSSIAN: u8 = 0;
pub const LATIN: u8 = 1;
pub const BOTH: u8 = 2;
const UNWRITABLE: u8 = 4;

/// What a desk byte is.
pub static CLASS: [u8; 256] = classes();
/// The bank byte of a desk byte on the Russian side.
static TO_BANK: [u8; 256] = to_bank();
/// The desk byte of a bank byte on the Russian side; 0 where it has no reading.
static FROM_RUSSIAN: [u8; 256] = from_russian();
/// The desk byte of a bank byte on the Latin side; 0 where it has no reading.
static FROM_LATIN: [u8; 256] = from_latin();
/// The x set, each byte for itself and 0 for the others: texts without the sign.
pub static X_SET: [u8; 256] = x_set();

const fn with_shared(mut table: [u8; 256]) -> [u8; 256] {
    let mut i = 0;
    while i < SHARED.len() {
        table[SHARED[i] as usize] = SHARED[i];
        i += 1;
    }
    table
}

const fn from_latin() -> [u8; 256] {
    let mut table = with_shared([0; 256]);
    let mut letter = 0;
    while letter < 26 {
        table[(b'A' + letter) as usize] = b'A' + letter;
        table[(b'a' + letter) as usize] = b'a' + letter;
        letter += 1;
    }
    table
}

const fn x_set() -> [u8; 256] {
    let mut table = from_latin();
    table[APOSTROPHE as usize] = APOSTROPHE;
    table
}

const fn from_russian() -> [u8; 256] {
    let mut table = with_shared([0; 256]);
    let mut i = 0;
    while i < PAIRS.len() {
        table[PAIRS[i].1 as usize] = desk_byte(PAIRS[i].0);
        i += 1;
    }
    table
}

const fn to_bank() -> [u8; 256] {
    let mut table = with_shared([0; 256]);
    let mut i = 0;
    while i < PAIRS.len() {
        table[desk_byte(PAIRS[i].0) as usize] = PAIRS[i].1;
        i += 1;
    }
    table
}

const fn classes() -> [u8; 256] {
    let shared = with_shared([0; 256]);
    let latin = from_latin();
    let russian = to_bank();
    let mut table = [UNWRITABLE; 256];
    let mut b = 0;
    while b < 256 {
        if shared[b] != 0 {
            table[b] = BOTH;
        } else if latin[b] != 0 {
            table[b] = LATIN;
        } else if russian[b] != 0 {
            table[b] = RUSSIAN;
        }
        b += 1;
    }
    table
}

/// Reads a bank text; answers the bytes written to `out`.
pub fn read_text(sign: bool, bank: &[u8], out: &mut [u8]) -> Result<usize, Refusal> {
    if bank.len() > BANK_LIMIT {
        return refuse(1, BANK_LIMIT);
    }
    if !sign {
        return copy_text(14, bank, out);
    }
    let needed = measure_reading(bank)?;
    let Some(room) = out.get_mut(..needed) else {
        return refuse(17, needed);
    };
    fill_reading(bank, room);
    Ok(needed)
}

/// Writes a desk text; answers the bytes written to `out`.
pub fn write_text(sign: bool, desk: &[u8], out: &mut [u8]) -> Result<usize, Refusal> {
    if desk.len() > DESK_LIMIT {
        return refuse(1, DESK_LIMIT);
    }
    if !sign {
        return copy_text(15, desk, out);
    }
    let needed = measure_writing(desk)?;
    let Some(room) = out.get_mut(..needed) else {
        return refuse(17, needed);
    };
    fill_writing(desk, room);
    Ok(needed)
}

/// Without the sign a text is its own bytes of the x set.
fn copy_text(number: u32, text: &[u8], out: &mut [u8]) -> Result<usize, Refusal> {
    if let Some(place) = first_missing(&X_SET, text) {
        return refuse(number, place);
    }
    let Some(room) = out.get_mut(..text.len()) else {
        return refuse(17, text.len());
    };
    room.copy_from_slice(text);
    Ok(text.len())
}

/// The first byte of `text` that `table` has nothing for. Eight bytes at a
/// time: a loop as short as one byte's is at the mercy of where it is put.
pub fn first_missing(table: &[u8; 256], text: &[u8]) -> Option<usize> {
    let missing = |b: &u8| table[*b as usize] == 0;
    let eights = text.chunks_exact(8);
    let rest = eights.remainder();
    for (i, eight) in eights.enumerate() {
        if let Some(place) = eight.iter().position(missing) {
            return Some(8 * i + place);
        }
    }
    let place = rest.iter().position(missing)?;
    Some(text.len() - rest.len() + place)
}

/// How many bytes the reading has, or why there is none.
pub fn measure_reading(bank: &[u8]) -> Result<usize, Refusal> {
    let mut sides = [&FROM_RUSSIAN, &FROM_LATIN];
    let mut rest = bank;
    let mut apostrophes = 0;
    while let Some(unread) = first_missing(sides[0], rest) {
        if rest[unread] != APOSTROPHE {
            return refuse(14, bank.len() - rest.len() + unread);
        }
        rest = &rest[unread + 1..];
        sides.swap(0, 1);
        apostrophes += 1;
    }
    if apostrophes % 2 == 1 {
        return refuse(14, bank.len());
    }
    Ok(bank.len() - apostrophes)
}

/// Writes the reading into room of just its length.
pub fn fill_reading(mut bank: &[u8], room: &mut [u8]) {
    let mut sides = [&FROM_RUSSIAN, &FROM_LATIN];
    let mut to = 0;
    loop {
        let done = translate(sides[0], bank, &mut room[to..]);
        to += done;
        // Behind the apostrophe, if one stopped the table.
        let Some(rest) = bank.get(done + 1..) else {
            return;
        };
        bank = rest;
        sides.swap(0, 1);
    }
}

/// Puts `text` through the table, up to the first byte that it has nothing
/// for; answers how many bytes went.
#[inline(always)]
fn translate(table: &[u8; 256], text: &[u8], room: &mut [u8]) -> usize {
    let mut done = 0;
    for (&b, unit) in text.iter().zip(room) {
        match table[b as usize] {
            0 => break,
            translated => *unit = translated,
        }
        done += 1;
    }
    done
}

/// How many bytes the writing has, or why there is none.
pub fn measure_writing(desk: &[u8]) -> Result<usize, Refusal> {
    let mut side = RUSSIAN;
    let mut openings = 0;
    let mut seen = 0;
    for &b in desk {
        let class = CLASS[b as usize];
        seen |= class;
        let next = if class >= BOTH { side } else { class };
        openings += usize::from(next > side);
        side = next;
    }
    if seen >= UNWRITABLE {
        let place = desk.iter().position(|&b| CLASS[b as usize] == UNWRITABLE);
        return refuse(15, place.unwrap_or(0));
    }
    Ok(desk.len() + 2 * openings)
}

/// Writes the bank text into room of just its length.
pub fn fill_writing(mut desk: &[u8], room: &mut [u8]) {
    let mut to = 0;
    loop {
        let russian = translate(&TO_BANK, desk, &mut room[to..]);
        to += russian;
        desk = &desk[russian..];
        if desk.is_empty() {
            return;
        }
        let (latin, rest) = desk.split_at(latin_run(desk));
        room[to] = APOSTROPHE;
        room[to + 1..to + 1 + latin.len()].copy_from_slice(latin);
        room[to + 1 + latin.len()] = APOSTROPHE;
        to += latin.len() + 2;
        desk = rest;
    }
}

/// How far the Latin side reaches that opens before the first byte: to the
/// last Latin letter before the next Russian one.
fn latin_run(desk: &[u8]) -> usize {
    let mut run = 0;
    for (i, &b) in desk.iter().enumerate() {
        match CLASS[b as usize] {
            LATIN => run = i + 1,
            RUSSIAN => break,
            _ => {}
        }
    }
    run
}

#[cfg(test)]
mod tests {
    use super::*;
    use std::collections::HashMap;

    fn desk(signs: &str) -> Vec<u8> {
        let byte = |sign: char| match sign {
            'А'..='Я' | 'Ё' | '№' => desk_byte(sign),
            _ => sign as u8,
        };
        signs.chars().map(byte).collect()
    }

    fn read(bank: &[u8]) -> Result<Vec<u8>, Refusal> {
        let mut out = vec![0; bank.len()];
        let units = read_text(true, bank, &mut out)?;
        Ok(out[..units].to_vec())
    }

    fn write(desk: &[u8]) -> Result<Vec<u8>, Refusal> {
        let mut out = vec![0; 3 * desk.len()];
        let units = write_text(true, desk, &mut out)?;
        Ok(out[..units].to_vec())
    }

    #[test]
    fn the_cases_of_the_rules() {
        for (signs, bank) in [
            ("", ""),
            ("ПЁТР", "PoTR"),
            ("ЦЧ", "Cc"),
            ("A", "'A'"),
            ("ABC 12 DEF", "'ABC 12 DEF'"),
            ("ABЯC", "'AB'a'C'"),
            (" 1A 2 Б 3", " 1'A' 2 B 3"),
        ] {
            assert_eq!(write(&desk(signs)), Ok(bank.as_bytes().to_vec()));
            assert_eq!(read(bank.as_bytes()), Ok(desk(signs)));
        }
        assert_eq!(read(b"1'2'3"), Ok(b"123".to_vec()));
        assert_eq!(read(b"''"), Ok(Vec::new()));
        assert_eq!(read(b"'AB"), refuse(14, 3));
        assert_eq!(read(b"W"), refuse(14, 0));
        assert_eq!(read(b"'W'A'!"), refuse(14, 5));
        assert_eq!(write(b"A'"), refuse(15, 1));
        assert_eq!(write(b"A\xE0"), refuse(15, 1));
    }

    #[test]
    fn just_these_letters_have_no_reading() {
        let none: Vec<u8> = (0..=255)
            .filter(|b: &u8| b.is_ascii_alphabetic() && read(&[*b]).is_err())
            .collect();
        assert_eq!(none, b"Wbdfghjklmprstvwyz");
        assert_eq!(
            (0..=255).filter(|&b| write(&[b]).is_ok()).count(),
            34 + 52 + 20
        );
    }

    #[test]
    fn limits_and_room() {
        let mut out = [7; 10_000];
        assert_eq!(
            read_text(true, &[b'A'; 10_001], &mut out),
            refuse(1, 10_000)
        );
        assert_eq!(
            write_text(false, &[b'!'; 5_001], &mut out),
            refuse(1, 5_000)
        );
        assert_eq!(write_text(true, b"A", &mut out[..2]), refuse(17, 3));
        assert_eq!(read_text(true, b"'A'", &mut out[..0]), refuse(17, 1));
        assert_eq!(read_text(false, b"'A!", &mut out[..0]), refuse(14, 2));
        assert_eq!(write_text(false, b"'A'", &mut out[..2]), refuse(17, 3));
        assert_eq!(out, [7; 10_000]);
        assert_eq!(write_text(false, b"'A'", &mut out), Ok(3));
        assert_eq!(out[..4], *b"'A'\x07");
    }

    /// Characters between apostrophes: those read on the Latin side.
    fn between(bank: &[u8]) -> usize {
        bank.split(|&b| b == APOSTROPHE)
            .skip(1)
            .step_by(2)
            .map(<[u8]>::len)
            .sum()
    }

    fn all_texts(signs: &[u8], length: usize) -> Vec<Vec<u8>> {
        (0..length).fold(vec![Vec::new()], |texts, _| {
            let longer = |text: &Vec<u8>| {
                let text = text.clone();
                signs.iter().map(move |&sign| [&text[..], &[sign]].concat())
            };
            texts.iter().flat_map(longer).collect::<Vec<_>>()
        })
    }

    /// Every bank text up to 11 bytes over these signs, by what it reads as:
    /// the best is written, and it alone is the best.
    #[test]
    fn no_bank_text_says_it_shorter() {
        let mut by_reading: HashMap<Vec<u8>, Vec<Vec<u8>>> = HashMap::new();
        for bank in (0..=11).flat_map(|length| all_texts(b"A' ", length)) {
            if let Ok(reading) = read(&bank) {
                by_reading.entry(reading).or_default().push(bank);
            }
        }
        let cost = |bank: &Vec<u8>| (bank.len(), between(bank));
        let signs = [b'A', desk_byte('А'), b' '];
        for text in (0..=5).flat_map(|length| all_texts(&signs, length)) {
            let banks = &by_reading[&text];
            let least = banks.iter().map(cost).min();
            let best: Vec<_> = banks
                .iter()
                .filter(|bank| Some(cost(bank)) == least)
                .collect();
            assert_eq!(best, [&write(&text).unwrap()]);
        }
    }
}
