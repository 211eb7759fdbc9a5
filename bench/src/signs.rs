//! Signs that generated inputs are made of.

use crate::random::Random;

pub const DIGITS: &[u8] = b"0123456789";
pub const CAPITALS: &[u8] = b"ABCDEFGHIJKLMNOPQRSTUVWXYZ";
pub const CAPITALS_AND_DIGITS: &[u8] = b"ABCDEFGHIJKLMNOPQRSTUVWXYZ0123456789";
pub const LATIN: &[u8] = b"ABCDEFGHIJKLMNOPQRSTUVWXYZabcdefghijklmnopqrstuvwxyz";
/// Digits, space and marks: the same on both sides.
pub const SHARED: &[u8] = b"0123456789 /-?:().,+";
pub const X_SET: &[u8] =
    b"ABCDEFGHIJKLMNOPQRSTUVWXYZabcdefghijklmnopqrstuvwxyz0123456789 /-?:().,'+";
/// The bank letters that have a reading on the Russian side.
pub const READABLE: &[u8] = b"ABVGDEoJZIiKLMNOPRSTUFHCcQqxYXeuan";
/// The 34 Cyrillic signs of a desk text.
pub const RUSSIAN: &[u8] = b"\xA8\xB9\xC0\xC1\xC2\xC3\xC4\xC5\xC6\xC7\xC8\xC9\xCA\xCB\xCC\xCD\xCE\
\xCF\xD0\xD1\xD2\xD3\xD4\xD5\xD6\xD7\xD8\xD9\xDA\xDB\xDC\xDD\xDE\xDF";
/// What stands close to the lawful bytes without being lawful everywhere.
pub const NEAR: &[u8] = b"\x00\t\n\r!\"*;<=>@[`{|}~\x7F\xA7\xA9\xB8\xBA\xBF\xE0\xFFWb'";

/// So many signs of one kind.
pub fn some(random: &mut Random, kind: &[u8], count: usize) -> Vec<u8> {
    (0..count).map(|_| *random.pick(kind)).collect()
}

/// A bank text of so many bytes: sides in turn, open at the end or not.
pub fn bank_signs(random: &mut Random, count: usize) -> Vec<u8> {
    let rarely = *random.pick(&[2, 5, 30]);
    let mut sides: [&[&[u8]]; 2] = [&[READABLE, READABLE, SHARED], &[LATIN, LATIN, SHARED]];
    let mut text = Vec::with_capacity(count);
    for _ in 0..count {
        if random.once_in(rarely) {
            text.push(b'\'');
            sides.swap(0, 1);
        } else {
            let kind = *random.pick(sides[0]);
            text.push(*random.pick(kind));
        }
    }
    text
}

/// A bank text that ends on the Russian side: the last byte gives way.
pub fn closed_bank_signs(random: &mut Random, count: usize) -> Vec<u8> {
    let mut text = bank_signs(random, count);
    let open = text.iter().filter(|&&b| b == b'\'').count() % 2 == 1;
    if let (true, Some(last)) = (open, text.last_mut()) {
        *last = if *last == b'\'' { b' ' } else { b'\'' };
    }
    text
}

/// A desk text as it is spelt in this source; `→` stands for a tab, `¶` for LF.
pub fn desk(signs: &str) -> Vec<u8> {
    let byte = |sign: char| match sign {
        '→' => b'\t',
        '¶' => b'\n',
        'Ё' => 0xA8,
        'ё' => 0xB8,
        '№' => 0xB9,
        'А'..='я' => 0xC0 + (sign as u32 - 'А' as u32) as u8,
        _ => u8::try_from(sign).expect("a sign of the desk"),
    };
    signs.chars().map(byte).collect()
}
