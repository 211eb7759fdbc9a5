//! Sheets for the writer: right ones, those that limits and open points of the
//! rules speak of, and for each number such as it is given for.

mod run_on;

use super::checks::{full, holding, least, KINDS};
use crate::messages::{self, Message};
use crate::plain::read::to_sheet;
use crate::plain::write::{to_message, SHEET_LIMIT};
use crate::random::Random;
use crate::sheets::some_sheet;
use crate::signs::desk;

/// A sheet, and how many bytes are lent for its message.
pub struct Record {
    pub room: usize,
    pub sheet: Vec<u8>,
}

/// The longest room that is lent.
pub const MOST_ROOM: usize = 16_384;

const RPP: &str = "1.240229.5.POST→";

pub fn records(random: &mut Random) -> Vec<Record> {
    let mut records = Vec::new();
    payments(random, &mut records);
    limits(&mut records);
    barred(&mut records);
    run_on::add(&mut records);
    let spelt = BROKEN.iter().chain(SIGNS).chain(FOREIGN).chain(UNWRITABLE);
    records.extend(spelt.map(|sheet| record(desk(sheet))));
    for &(kind, sign, tag, parts) in PARTS {
        records.push(record(with(kind, sign, tag, parts)));
    }
    fields(&mut records);
    rooms(&mut records);
    long(&mut records);
    generated(random, &mut records);
    records
}

fn record(sheet: Vec<u8>) -> Record {
    lent(MOST_ROOM, sheet)
}

fn lent(room: usize, sheet: Vec<u8>) -> Record {
    Record { room, sheet }
}

/// The sheet of a right message.
fn sheet_of(message: &Message) -> Vec<u8> {
    let mut room = [0; 2_000];
    let units = to_sheet(message.kind, &message.bytes(), &mut room).expect("a right message");
    room[..units].to_vec()
}

/// Sheets of right messages, the longest of their kind too.
fn payments(random: &mut Random, records: &mut Vec<Record>) {
    for kind in KINDS {
        for sign in [false, true] {
            let longest = messages::longest(random, kind, sign);
            for message in [least(kind, sign), full(kind, sign), longest] {
                records.push(record(sheet_of(&message)));
            }
        }
    }
}

/// A sheet that is right, but for the parts of this record perhaps.
fn with(kind: u32, sign: bool, tag: &str, parts: &str) -> Vec<u8> {
    let sheet = sheet_of(&holding(kind, sign, tag));
    let start = format!("{tag}\t");
    let changed = desk(&format!("{tag}→{parts}¶"));
    let records = sheet.split_inclusive(|&b| b == b'\n');
    let other = |record| match <[u8]>::starts_with(record, start.as_bytes()) {
        true => &changed,
        false => record,
    };
    records.flat_map(other).copied().collect()
}

/// Details with this text; in 72 behind an RPP part or an empty one.
fn details(kind: u32, sign: bool, rpp: &str, text: &str) -> Vec<u8> {
    let tag = if kind == 103 { "70" } else { "72" };
    with(kind, sign, tag, &format!("{rpp}10100→{text}"))
}

/// The most letters that details take; in a 103 those of 72 too.
const LIMITS: &[(u32, bool, &str, usize)] = &[
    (103, false, "", 201),
    (103, true, "", 199),
    (202, false, "→", 186),
    (202, true, "→", 184),
    (202, false, RPP, 153),
    (202, true, RPP, 151),
];

fn limits(records: &mut Vec<Record>) {
    for &(kind, sign, rpp, most) in LIMITS {
        let letter = if sign { "Я" } else { "A" };
        for count in [1, 20, most - 1, most, most + 1] {
            let text = letter.repeat(count);
            records.push(record(details(kind, sign, rpp, &text)));
        }
        // With the sign Latin letters take two bytes more, or four.
        for count in [most - 5, most - 4, most - 3, most - 2, most - 1] {
            let text = "A".repeat(count);
            records.push(record(details(kind, sign, rpp, &text)));
        }
    }
}

/// Letters, then bytes that may not open a later line of 70; so many of each.
const BARRED: &[(usize, usize)] = &[
    (0, 1),
    (0, 24),
    (0, 25),
    (0, 26),
    (0, 27),
    (1, 33),
    (1, 34),
    (1, 35),
    (23, 1),
    (24, 1),
    (24, 34),
    (24, 35),
    (25, 1),
    (25, 2),
    (26, 1),
    (26, 2),
    (26, 34),
    (26, 35),
    (26, 36),
    (60, 1),
    (61, 1),
    (61, 34),
    (61, 35),
    (96, 34),
    (96, 35),
    (130, 1),
];

fn barred(records: &mut Vec<Record>) {
    for &(letters, signs) in BARRED {
        for (kind, sign, rpp, barred) in [
            (103, false, "", "-"),
            (103, false, "", ":"),
            (103, true, "", "-"),
            (202, false, "→", "-"),
            (202, true, RPP, ":"),
        ] {
            let letter = if sign { "Я" } else { "A" };
            let text = [letter.repeat(letters), barred.repeat(signs)].concat();
            records.push(record(details(kind, sign, rpp, &text)));
        }
    }
}

/// 19 at its several places, and what looks like it and is none.
const BROKEN: &[&str] = &[
    "",
    "¶",
    "→",
    "MT",
    "MT¶",
    "MT→¶",
    "MT→103",
    "MT→10A¶",
    "MT→10¶",
    "MT→1030¶",
    "MT→103→X¶",
    "MT→103→¶",
    "MT→→103¶",
    "mt→103¶",
    "MTA→103¶",
    " MT→103¶",
    "¶MT→103¶",
    "20→A¶MT→103¶",
    "MT→103¶",
    "MT→103¶¶",
    "MT→103¶→¶",
    "MT→103¶→A¶",
    "MT→103¶20¶",
    "MT→103¶20→¶",
    "MT→103¶20→A→¶",
    "MT→103¶20→→A¶",
    "MT→103¶20→A→→B¶",
    "MT→103¶20→A→-¶",
    "MT→103¶20→A→:B¶",
    "MT→103¶20→A→B→-¶",
    "MT→103¶20→-→A-:¶",
    "MT→103¶20→:¶",
    "MT→103¶2→A¶",
    "MT→103¶2A→A¶",
    "MT→103¶20a→A¶",
    "MT→103¶200→A¶",
    "MT→103¶20AB→A¶",
    "MT→103¶ 20→A¶",
    "MT→103¶20 →A¶",
    "MT→103¶А0→A¶",
    "MT→103¶20→A¶MT→103¶",
    "MT→103¶20→A",
    "MT→103¶20→A¶23B→CRED",
    "MT→103¶20→A¶23B",
    "MT→103¶20→A¶2",
    "MT→103¶20→A¶→→",
    "MT→103¶20→A¶21¶23B→CRED",
    "MT→103¶20→-¶70→1234→A¶",
    "MT→103¶70→10100→A¶",
    "MT→103¶70→10100→:-¶",
    "MT→103¶70→10100¶",
    "MT→103¶70→10100→¶",
    "MT→103¶70→10100→A→B¶",
    "MT→103¶70→10100→A→¶",
    "MT→103¶70→1010→A¶",
    "MT→103¶70→101000→A¶",
    "MT→103¶70→1010A→A¶",
    "MT→103¶70→→A¶",
    "MT→103¶70→→10100→A¶",
    "MT→103¶72→A¶",
    "MT→103¶72→-¶",
    "MT→103¶72→¶",
    "MT→103¶72→A→B¶",
    "MT→103¶72→→10100→A¶",
    "MT→202¶72→→10100→A¶",
    "MT→202¶72→A→10100→-A¶",
    "MT→202¶72→-→10100→:A¶",
    "MT→202¶72→10100→A¶",
    "MT→202¶72→→10100¶",
    "MT→202¶72→→10100→¶",
    "MT→202¶72→→10100→A→B¶",
    "MT→202¶72→→1010→A¶",
    "MT→202¶72→→→A¶",
    "MT→202¶72→A¶",
    // 18 comes behind 19.
    "MT→104¶",
    "MT→000¶",
    "MT→104¶70→A→B→W¶",
    "MT→104¶70→А¶",
    "MT→104¶72→→10100→A¶",
    "MT→104¶20→+A¶59→/1→ИНН7¶",
    "MT→104¶20→A¶21",
];

/// Where the sign comes from; that the tax place may not begin with Russian
/// INN and a digit then.
const SIGNS: &[&str] = &[
    "MT→103¶20→+¶59→/1→Я¶",
    "MT→103¶20→A+¶59→/1→Я¶",
    "MT→103¶59→/1→Я¶20→+¶",
    "MT→103¶59→/1→Я¶20→A¶",
    "MT→103¶59→/1→Я¶",
    "MT→103¶20→A¶20→+¶59→/1→Я¶",
    "MT→103¶20→+¶20→A¶59→/1→Я¶",
    "MT→103¶20A→+¶59→/1→Я¶",
    "MT→103¶20→A→+¶59→/1→Я¶",
    "MT→103¶59→/1→ИНН7¶20→+",
    "MT→103¶59→/1→ИНН7¶20→A",
    "MT→103¶59→/1→ИНН7¶20¶20→+",
    "MT→103¶59→/1→ИНН7¶20→→+¶",
    "MT→103¶59→/1→ИНН7¶20→+→:¶",
    "MT→103¶20→+¶50K→ИНН7¶",
    "MT→103¶20→+¶50K→A→ИНН7¶",
    "MT→103¶20→+¶50K→/→ИНН7¶",
    "MT→103¶20→+¶50K→/→A→ИНН7¶",
    "MT→103¶20→+¶59→ИНН7→A¶",
    "MT→103¶20→+¶59→A→ИНН7¶",
    "MT→103¶20→+¶59→/1→ИНН7¶",
    "MT→103¶20→+¶59→/1→ИНН¶",
    "MT→103¶20→+¶59→/1→ИНН.7¶",
    "MT→103¶20→+¶59→/1→INН7¶",
    "MT→103¶20→+¶59→/1→ИНН.→ИНН7¶",
    "MT→103¶20→+¶57D→/1→ИНН7¶",
    "MT→103¶20→+¶70→10100→ИНН7¶",
    "MT→103¶20→A¶59→/1→ИНН7¶",
    "MT→202¶20→+¶58D→/1→ИНН7¶",
    "MT→202¶20→+¶58D→ИНН7→A¶",
    "MT→202¶20→+¶57D→/1→ИНН7¶",
];

/// Tags not of the type.
const FOREIGN: &[&str] = &[
    "MT→202¶70→A¶",
    "MT→202¶70→A→B→C¶",
    "MT→202¶70→-A→B¶",
    "MT→202¶70→10100→-A¶",
    "MT→202¶70→10100→:A¶",
    "MT→202¶70→→A¶",
    "MT→202¶70¶",
    "MT→202¶70→Я¶",
    "MT→202¶20→+¶70→10100→Я¶",
    "MT→202¶20→+¶50K→ИНН7¶",
    "MT→202¶20→+¶59→/1→ИНН7¶",
    "MT→202¶20→+¶59→/1→A'B¶",
    "MT→103¶58D→/1→ИНН7¶",
    "MT→103¶20→+¶58D→/1→A→Я¶",
    "MT→103¶99→A¶",
    "MT→103¶20→A¶99→A→B¶",
    "MT→103¶00A→A¶",
];

/// 15 at its several places.
const UNWRITABLE: &[&str] = &[
    "MT→103¶20→A_¶",
    "MT→103¶20→Я¶",
    "MT→103¶20→+Я¶",
    "MT→103¶20→+¶23B→CREDЯ¶",
    "MT→103¶20→+¶50K→/Я→A¶",
    "MT→103¶20→+¶50K→/1→я¶",
    "MT→103¶20→+¶50K→/1→A→Яя¶",
    "MT→103¶20→+¶50K→/1→A'B¶",
    "MT→103¶20→A¶50K→/1→A'B¶",
    "MT→103¶20→A¶50K→/1→A\"B¶",
    "MT→103¶20→A¶50K→/1→AЯ¶",
    "MT→103¶20→+¶50K→INN7Я→A¶",
    "MT→103¶20→+¶50K→INN7'→A¶",
    "MT→103¶20→+¶50K→INN'→A¶",
    "MT→103¶20→+¶59→A'→/1¶",
    "MT→103¶20→+¶59→/1→INN7'→A'¶",
    "MT→103¶20→+¶56D→Я→A¶",
    "MT→103¶20→+¶56D→A'→Я¶",
    "MT→103¶20→+¶57D→/1→Я→ё¶",
    "MT→103¶20→+¶57D→/1→Яё¶",
    "MT→103¶20→+¶52A→Я¶",
    "MT→103¶20→+¶70→10100→Яа¶",
    "MT→103¶20→+¶70→10100→A'¶",
    "MT→103¶20→A¶70→10100→AЯ¶",
    "MT→103¶20→A¶70→10100→A'¶",
    "MT→103¶20→+¶72→Я¶",
    "MT→202¶20→+¶72→Я→10100→A¶",
    "MT→202¶20→+¶72→A→10100→Яа¶",
    "MT→202¶20→+¶72→→10100→Яа¶",
    "MT→202¶20→A¶72→→10100→Я¶",
    "MT→202¶20→+¶58A→/1→Я¶",
    "MT→103¶59→A\r→B¶",
    "MT→103¶59→A\u{0}→B¶",
    // The first of two; and before any 16, 6 or 7.
    "MT→103¶20→A¶20→_¶59→_¶",
    "MT→103¶99→Я¶20→_¶",
    "MT→103¶20→A¶70→10100→---------------------------¶71A→_¶",
    // 16 before 6, where 70 stands twice; where it stands once, its details
    // run on.
    "MT→103¶20→A¶20→A¶70→10100→---------------------------¶",
    "MT→103¶20→A¶70→10100→A¶70→10100→---------------------------¶",
    "MT→103¶70→10100→---------------------------¶70→10100→A¶",
    "MT→202¶70→10100→A---------------------------¶",
];

/// Records of sheets that are right otherwise: the built message's own
/// refusals, and what is accepted.
const PARTS: &[(u32, bool, &str, &str)] = &[
    (103, false, "20", "A234567890123456"),
    (103, false, "20", "A2345678901234567"),
    (103, true, "20", "+"),
    (103, false, "20", "A→B"),
    (103, false, "20", "/A"),
    (202, false, "21", "NONREFS"),
    (103, false, "23B", "CREDIT"),
    (103, false, "26T", "S15"),
    (103, false, "32A", "240229RUB1500.5"),
    (103, false, "32A", "230229RUB1500,5"),
    (202, false, "32A", "240230RUB0,"),
    (103, false, "32A", "240229USD1500,5"),
    (202, false, "32A", "240229EUR1,"),
    (202, false, "32A", "240230EUR1,"),
    (103, false, "53B", "/C/30111810500000100000"),
    (103, false, "50K", "-A"),
    (103, false, "50K", ":A"),
    (103, false, "50K", "//1→A"),
    (103, false, "50K", "A→B→C→D"),
    (103, false, "50K", "A→B→C→D→E"),
    (103, false, "50K", "/1→A→B→C→D"),
    (103, true, "50K", "/1→A→B→C→D→E"),
    (103, true, "50K", "НОРД"),
    (103, true, "50K", "INN7707083893→НОРД"),
    (103, true, "50K", "INN770708389→НОРД"),
    (103, true, "50K", "-А"),
    (103, true, "50K", ":A"),
    (103, false, "59", "A→B"),
    (103, true, "59", "Я→B"),
    (103, false, "59", "/1→INN7707083893→O'NEIL"),
    (103, false, "59", "/1→INN7"),
    (103, true, "59", "/1→INN7'→A"),
    (103, true, "59", "/1→INN→A"),
    (103, true, "59", "/1→A→INN7→ИНН7"),
    (103, true, "59", "/1→ABC 12 DEF→ABЯC→Я 1 ABC 2 Я→№5"),
    (103, false, "59", "/1→AAAAAAAAAAAAAAAAAAAAAAAAAAAAAAAAAAA"),
    (103, false, "59", "/1→AAAAAAAAAAAAAAAAAAAAAAAAAAAAAAAAAAAA"),
    (103, true, "59", "/1→ЯЯЯЯЯЯЯЯЯЯЯЯЯЯЯЯЯЯЯЯЯЯЯЯЯЯЯЯЯЯЯЯЯЯЯ"),
    (103, true, "59", "/1→ЯЯЯЯЯЯЯЯЯЯЯЯЯЯЯЯЯЯЯЯЯЯЯЯЯЯЯЯЯЯЯЯЯZЯ"),
    (103, true, "59", "/1→ЯЯЯЯЯЯЯЯЯЯЯЯЯЯЯЯЯЯЯЯЯЯЯЯЯЯЯЯЯЯЯZЯ"),
    (202, true, "58D", "/1→INN770708389312→БАНК"),
    (202, true, "58D", "/1→INN7707083893.KPP770701001→БАНК"),
    (202, false, "58D", "A→B"),
    (202, false, "58A", "/1→SABRRUMM→A"),
    (
        103,
        false,
        "52A",
        "//RU044525225.30101810400000000226→SABRRUMM",
    ),
    (
        202,
        false,
        "52A",
        "//RU044525225.30101810400000000226→SABRRUMM",
    ),
    (103, true, "56D", "//RU044525225.30101810400000000226→БАНК"),
    (103, true, "56D", "A→БАНК"),
    (103, true, "56D", "/30101810400000000225→БАНК→A→Б→В"),
    (103, true, "56D", "/30101810400000000225→БАНК→A→Б→В→Г"),
    (103, true, "57D", "//RU044525202.30101810200000000203→БАНК"),
    (202, true, "57D", "//RU044525202→-"),
    (
        202,
        true,
        "57A",
        "//RU044525202.30101810200000000203→CITIRUMX",
    ),
    (103, true, "70", "10100→-А"),
    (103, true, "70", "10100→A"),
    (103, true, "70", "10100→ABC 12 DEF Я GHI"),
    (103, false, "72", "417.240229.5.ELEK.240301"),
    (103, false, "72", "4170.240229.5.ELEK"),
    (103, false, "72", "999999.240229.5.ELEK.240229.01"),
    (103, false, "72", "000000.240229.5.ELEK"),
    (103, false, "72", "1234567.240229.5.ELEK"),
    (103, false, "72", "417.240229.5.ELEK.01"),
    (103, true, "72", "417.240229.5.ELEK.240229.99"),
    (103, false, "72", "417.240229.5.ELEK.01.240229"),
    (103, false, "72", "417.240229.5.ELEK.1"),
    (103, false, "72", "417.240229.5.ELEK.001"),
    (103, false, "72", "417.240229.5.ELEK.240229.1"),
    (103, false, "72", "417.240229.5.ELEK.240229.001"),
    (103, false, "72", "417.240229.5.ELEK.240431.01"),
    (103, false, "72", "417.240230.5.ELEK"),
    (103, false, "72", "417.240229.5.ELEK.240431"),
    (202, true, "72", "417.240229.5.ELEK→10100→Я"),
    (202, true, "72", "999999.240229.5.ELEK.240229.01→10100→Я"),
    (202, true, "72", "4170.240229.5.ELEK.01→10100→Я"),
    (202, true, "72", "1234567.240229.5.ELEK→10100→Я"),
    (202, true, "72", "417.240229.5.ELEK.01.240229→10100→Я"),
    (202, true, "72", "417.240229.5.ELEK.240431.01→10100→Я"),
    (202, true, "72", "417.240229.5.MAIL→10100→Я"),
    (202, true, "72", "417.240231.5.ELEK→10100→Я"),
    (103, false, "77B", "N10"),
    (103, false, "77B", "/1→2→3"),
    (103, false, "77B", "/1→2→3→4"),
    // 26T and 77B ask for a KPP on both sides.
    (103, false, "77B", "/1"),
];

/// Fields left out, doubled, swapped and strange: 5, 6, 7, 11 and 13.
fn fields(records: &mut Vec<Record>) {
    for (kind, tag) in [(103, "56A"), (103, "56D"), (202, "56A"), (202, "56D")] {
        let sheet = sheet_of(&holding(kind, tag == "56D", tag));
        let all: Vec<&[u8]> = sheet.split_inclusive(|&b| b == b'\n').collect();
        for place in 1..all.len() {
            let (before, behind) = all.split_at(place);
            let left_out = [before, &behind[1..]].concat();
            let doubled = [before, &behind[..1], behind].concat();
            let strange = [before, &[&b"99Z\tA\n"[..]], behind].concat();
            let mut swapped = all.clone();
            swapped.swap(place, place % (all.len() - 1) + 1);
            for records_of in [left_out, doubled, strange, swapped] {
                records.push(record(records_of.concat()));
            }
        }
    }
    for (tag, parts) in [
        ("50K", "/1→NORD"),
        ("59", "/1→INN7707083893→PETR"),
        ("50K", "INN7707083893→NORD"),
    ] {
        let sheet = sheet_of(&full(103, false));
        let other = desk(&format!("{tag}→{parts}¶"));
        let changed = sheet.split_inclusive(|&b| b == b'\n').map(|old| {
            match old.starts_with(tag.as_bytes()) {
                true => &other,
                false => old,
            }
        });
        records.push(record(changed.flatten().copied().collect()));
    }
}

/// 17: too little room by one and just enough, also for a message that is
/// refused itself. A sheet that is refused before needs none.
fn rooms(records: &mut Vec<Record>) {
    for kind in KINDS {
        for sheet in [
            sheet_of(&least(kind, false)),
            sheet_of(&full(kind, true)),
            with(kind, true, "32A", "240230RUB1,"),
            with(kind, false, "32A", "240229USD1,"),
        ] {
            let needed = length(&sheet);
            for room in [0, 1, needed - 1, needed, needed + 1] {
                records.push(lent(room, sheet.clone()));
            }
        }
        for sheet in [
            with(kind, false, "32A", "_"),
            with(kind, false, "32A", ""),
            details(
                kind,
                false,
                if kind == 103 { "" } else { "→" },
                &"A".repeat(187),
            ),
        ] {
            records.push(lent(0, sheet));
        }
    }
}

/// How long the built message is.
fn length(sheet: &[u8]) -> usize {
    match to_message(sheet, &mut []) {
        Err(refusal) if refusal.number == 17 => refusal.place,
        other => panic!("{other:?}"),
    }
}

/// As long as a sheet may be and longer, and messages longer than one may be.
fn long(records: &mut Vec<Record>) {
    let sheet = sheet_of(&least(103, false));
    let sized = |size: usize| {
        let name = "A".repeat(size - sheet.len() - 1);
        with(
            103,
            false,
            "59",
            &format!("/1→INN770708389312.KPP770701001→PETR→{name}"),
        )
    };
    for size in [SHEET_LIMIT, SHEET_LIMIT + 1] {
        let sheet = sized(size);
        assert_eq!(sheet.len(), size);
        records.push(record(sheet));
    }
    // Just 10,000 bytes of message, and one more, which is 1 where there is room.
    let more = length(&sized(9_000)) - 9_000;
    for size in [SHEET_LIMIT - more, SHEET_LIMIT - more + 1] {
        let needed = size + more;
        for room in [needed - 1, needed, MOST_ROOM] {
            records.push(lent(room, sized(size)));
        }
    }
    // The limit of a text alone does not hold in a sheet: this is 8.
    let name = "Я".repeat(6_000);
    records.push(record(with(103, true, "59", &format!("/1→{name}"))));
    // Unwritable and unfit at length.
    let text = format!("{}_", "A".repeat(5_000));
    records.push(record(details(103, false, "", &text)));
    records.push(record(details(103, false, "", &text[..5_000])));
}

/// Generated sheets, mostly with a fault.
fn generated(random: &mut Random, records: &mut Vec<Record>) {
    for _ in 0..300 {
        let sheet = some_sheet(random);
        if sheet.len() < 2_000 {
            let room = if random.once_in(4) {
                random.below(sheet.len() + 100)
            } else {
                MOST_ROOM
            };
            records.push(lent(room, sheet));
        }
    }
}

#[cfg(test)]
mod tests {
    use super::*;
    use std::collections::BTreeMap;

    /// The bytes written, or the number and the place of the refusal.
    fn answer(record: &Record) -> Result<Vec<u8>, (u32, usize)> {
        let mut room = vec![0; record.room];
        let units = to_message(&record.sheet, &mut room);
        let units = units.map_err(|refusal| (refusal.number, refusal.place))?;
        room.truncate(units);
        Ok(room)
    }

    #[test]
    fn every_number_is_given_often_enough() {
        let mut places: BTreeMap<u32, Vec<usize>> = BTreeMap::new();
        for record in records(&mut Random::new(1)) {
            let (number, place) = answer(&record).err().unwrap_or((0, 0));
            places.entry(number).or_default().push(place);
        }
        for (number, places) in &mut places {
            places.sort();
            let given = places.len();
            places.dedup();
            let several = if matches!(number, 15 | 17 | 19) { 8 } else { 1 };
            assert!(
                given >= 3 && places.len() >= several,
                "{number}: {places:?}"
            );
        }
        let numbers = places.keys().copied();
        assert!(numbers.eq([0, 1].into_iter().chain(5..=13).chain(15..=19)));
        assert_eq!(places[&1], [0, SHEET_LIMIT]);
    }

    #[test]
    fn the_most_that_fits() {
        for &(kind, sign, rpp, most) in LIMITS {
            let letter = if sign { "Я" } else { "A" };
            let fits = |count| {
                let sheet = details(kind, sign, rpp, &letter.repeat(count));
                answer(&record(sheet)).map(|_| ())
            };
            assert_eq!(fits(most), Ok(()));
            assert_eq!(fits(most + 1), Err((16, 0)));
        }
    }

    #[test]
    fn what_is_written_reads_back() {
        for record in records(&mut Random::new(1)) {
            if let Ok(message) = answer(&record) {
                let kind = if record.sheet.starts_with(b"MT\t103") {
                    103
                } else {
                    202
                };
                let mut room = [0; SHEET_LIMIT];
                let units = to_sheet(kind, &message, &mut room).expect("a right message");
                assert!(room[..units] == record.sheet);
            }
        }
    }
}
