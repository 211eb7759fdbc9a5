//! Texts alone: reading and writing, timed.

use super::{heading, side_by_side};
use crate::calls as proved;
use crate::plain::text as plain;
use std::hint::black_box;

/// Of the longest desk text, a bank text takes at most twice the bytes.
const ROOM: usize = 10_000;

pub fn run() {
    let words =
        "ОПЛАТА ПО ДОГОВОРУ Abc-Line №17/5 ОТ 12.03.2024, GmbH Nord ЗА УСЛУГИ (ЧАСТЬ 2) CNTR 44 ";
    heading("texts");
    line("mixed, 5000", true, &repeated(words, 5_000));
    line("Russian, 5000", true, &repeated("ПЁТРЩУКАЯЧМЕНЬ", 5_000));
    line("letter by letter, 5000", true, &repeated("AЯbЧCЮ", 5_000));
    line(
        "without the sign, 5000",
        false,
        &repeated("Payment 12/7 (part), ", 5_000),
    );
    line(
        "a name, 30",
        true,
        &repeated("ООО СЕВЕР NORD TRADE 17, ОФИС 5", 30),
    );
}

/// Times writing the desk text, and reading what writing gives for it.
fn line(name: &str, sign: bool, desk: &[u8]) {
    let mut room = [0; ROOM];
    let units = plain::write_text(sign, desk, &mut room).expect("a desk text that can be written");
    let bank = room[..units].to_vec();
    side_by_side(
        &format!("write {name}"),
        &mut room[..],
        |room| proved::write_text(sign, black_box(desk), room),
        |room| plain::write_text(sign, black_box(desk), room),
    );
    side_by_side(
        &format!("read {name}"),
        &mut room[..],
        |room| proved::read_text(sign, black_box(&bank), room),
        |room| plain::read_text(sign, black_box(&bank), room),
    );
}

/// The signs over and over, as so many windows-1251 bytes.
fn repeated(signs: &str, length: usize) -> Vec<u8> {
    signs.chars().cycle().take(length).map(desk_byte).collect()
}

fn desk_byte(sign: char) -> u8 {
    match sign {
        'Ё' => 0xA8,
        '№' => 0xB9,
        'А'..='Я' => 0xC0 + (sign as u32 - 'А' as u32) as u8,
        _ => u8::try_from(sign).expect("a sign of the desk"),
    }
}
