//! Days, amounts, currencies, banks and tax fields: 9 to 13, and the kopecks
//! and the date that an accepted message gives.

use super::{full, least, record, set, with, Record, KINDS};
use crate::messages::Message;

pub fn add(records: &mut Vec<Record>) {
    for (index, date) in DATES.iter().enumerate() {
        value(index, &format!("{date}RUB1500,5"), records);
    }
    for (index, currency) in CURRENCIES.iter().enumerate() {
        value(index, &format!("240229{currency}1,"), records);
    }
    for (index, amount) in AMOUNTS.iter().enumerate() {
        value(index, &format!("240229RUB{amount}"), records);
    }
    for (index, content) in VALUES.iter().enumerate() {
        value(index, content, records);
    }
    payment_days(records);
    banks_between(records);
    bank_codes(records);
    tax_fields(records);
}

/// A content of 32A, in one of the types, with the sign at times.
fn value(index: usize, content: &str, records: &mut Vec<Record>) {
    let kind = KINDS[index % 2];
    let message = with(kind, index % 4 > 1, "32A", content);
    records.push(record(kind, message.bytes()));
}

const DATES: &[&str] = &[
    "240229", "240229", "230229", "230229", "230228", "250228", "000229", "000228", "790228",
    "790229", "760229", "800229", "810229", "960229", "990229", "040229", "240230", "000230",
    "240131", "240132", "240100", "240331", "240332", "240430", "240431", "240531", "240532",
    "240630", "240631", "240731", "240732", "240831", "240832", "240930", "240931", "241031",
    "241032", "241130", "241131", "241231", "241232", "240001", "241301", "241300", "249901",
    "240101", "800101", "791231", "991231", "000101", "000000", "999999", "240199", "160114",
    "070525", "160210", "001112", "24022", "2402290", "24022A", "A40229", " 40229", "240 29",
    "24:229", "",
];

const CURRENCIES: &[&str] = &[
    "RUB", "RUR", "RUR", "USD", "USD", "EUR", "AAA", "ZZZ", "RUC", "QUB", "RVB", "rub", "RUb",
    "usd", "R B", "RU", "RUBB", "1UB", "RU1", "RU/", "",
];

const AMOUNTS: &[&str] = &[
    "0,",
    "0,0",
    "0,00",
    "00,00",
    "5,1",
    "5,1",
    "5,10",
    "5,01",
    "1500,5",
    "1500,50",
    "1500,05",
    "1500,",
    "0,01",
    "0,1",
    "0,99",
    "1,",
    "10,",
    "99,99",
    "100,",
    "2000000,00",
    "173266,60",
    "41709,",
    "41709,00",
    "41709.00",
    "100000.00",
    "100000,00",
    "123456789012,34",
    "123456789012,34",
    "12345678901234,",
    "1234567890123,4",
    "999999999999,99",
    "9999999999999,9",
    "99999999999999,",
    "99999999999999,",
    "00000000000000,",
    "000000000001,00",
    "00000000000001,",
    "123456789012345,",
    "1234567890123,45",
    "12345678901234,5",
    "123456789012345",
    "1,234",
    "1,000",
    ",5",
    ",",
    ",,",
    "5",
    "5.00",
    "1,,",
    "1,,5",
    "1,5,",
    "1,A",
    "1,5A",
    "A,1",
    "1A,",
    "",
    " ",
    "1,5 ",
    " 1,5",
    "-1,5",
    "+1,5",
    "1 500,5",
    "1.500,5",
    "1/,5",
    "1:,5",
];

/// Two faults in one content, and a second line.
const VALUES: &[&str] = &[
    "",
    "240229",
    "240229RUB",
    "240230RUR1,",
    "240230RUR1",
    "240229RUR1",
    "240229RUB1,5|1",
    "240229RUB1,5|240229RUB1,5",
    "240229|RUB1,5",
    "240229 RUB1,5",
    "RUB240229 1,5",
    "RUB1,5",
];

/// 9 in the RPP lines of both types: either date, and which is named.
fn payment_days(records: &mut Vec<Record>) {
    for days in [
        "240229.5.POST",
        "240230.5.POST",
        "240229.5.POST.240301",
        "240229.5.POST.240230",
        "240230.5.POST.240301",
        "240230.5.POST.240431",
        "800229.5.POST.791231",
        "810229.5.POST.791231",
        "000101.5.POST.000000",
        "999999.5.POST.999999",
        "240229.5.POST.31",
        "240229.5.POST.99",
        "240230.5.POST.01",
        "240229.5.POST.240301.99",
        "240229.5.POST.240230.01",
        "240230.5.POST.240301.01",
        "240230.5.POST.240431.01",
        "240230.5.POST.01.240229",
    ] {
        let message = with(103, false, "72", &format!("/RPP/1.{days}"));
        records.push(record(103, message.bytes()));
        let content = format!("/RPP/123456.{days}|/NZP/'(VO10100)'A");
        let message = with(202, true, "72", &content);
        records.push(record(202, message.bytes()));
    }
    for kind in KINDS {
        let mut message = full(kind, false);
        set(&mut message, "32A", "230229RUB1,");
        let details = if kind == 103 { "" } else { "|/NZP/(VO10100)A" };
        let rpp = format!("/RPP/1.230229.5.POST.230229{details}");
        set(&mut message, "72", &rpp);
        records.push(record(kind, message.bytes()));
    }
}

fn without(message: &Message, tags: &[&str]) -> Message {
    let mut message = message.clone();
    let stays = |tag: &str| !tags.contains(&tag);
    message.fields.retain(|field| stays(&field.tag));
    message
}

/// 11 at either tag; 57 without 56 is right.
fn banks_between(records: &mut Vec<Record>) {
    for kind in KINDS {
        for tag in ["56A", "56D"] {
            let right = super::right_content(kind, tag, false);
            let message = with(kind, false, tag, right);
            for gone in [
                &["57A", "57D"][..],
                &["56A", "56D"],
                &["52A", "57A", "57D"],
                &["52A", "56A", "56D", "57A", "57D"],
            ] {
                records.push(record(kind, without(&message, gone).bytes()));
            }
        }
    }
}

/// 12 in each field that has a party line, at each of the three digits.
fn bank_codes(records: &mut Vec<Record>) {
    for (tag, rest) in [
        ("52A", "SABRRUMM"),
        ("56A", "SABRRUMM"),
        ("56D", "BANK"),
        ("57A", "SABRRUMM"),
        ("57D", "BANK|MOSKVA"),
    ] {
        for (index, party) in PARTIES.iter().enumerate() {
            let kind = KINDS[index % 2];
            let content = format!("//RU{party}|{rest}");
            let message = with(kind, false, tag, &content);
            records.push(record(kind, message.bytes()));
        }
    }
    for kind in KINDS {
        // All three at once, then the last two, then the last.
        let wrong = "//RU044525225.30101810400000000226|BANK";
        let mut message = full(kind, true);
        set(&mut message, "52A", &wrong.replace("BANK", "SABRRUMM"));
        set(&mut message, "56D", wrong);
        set(&mut message, "57D", wrong);
        for tag in ["", "52A", "56D", "57D"] {
            if !tag.is_empty() {
                set(&mut message, tag, super::right_content(kind, tag, true));
            }
            records.push(record(kind, message.bytes()));
        }
    }
    // Elsewhere such a line is an account or a name.
    for (kind, tag, content) in [
        (103, "59", "/1|//RU044525225.30101810400000000226"),
        (103, "50K", "A|//RU044525225.30101810400000000226"),
        (202, "58D", "/1|//RU044525225.30101810400000000226"),
    ] {
        records.push(record(kind, with(kind, false, tag, content).bytes()));
    }
}

/// BIKs and accounts that end alike or not.
const PARTIES: &[&str] = &[
    "044525225.30101810400000000225",
    "044525225.30101810400000000226",
    "044525225.30101810400000000235",
    "044525225.30101810400000000325",
    "044525225.30101810400000001225",
    "044525226.30101810400000000225",
    "044525000.30101810400000000999",
];

/// 13: what is missing to 26T, and 77B alone.
fn tax_fields(records: &mut Vec<Record>) {
    for sign in [false, true] {
        let whole = full(103, sign);
        for gone in [
            &["26T"][..],
            &["77B"],
            &["26T", "77B"],
            &["26T", "52A", "72"],
            &["77B", "52A", "72"],
            &["77B", "72"],
        ] {
            records.push(record(103, without(&whole, gone).bytes()));
        }
        for (tag, contents) in TAX_LINES {
            for content in *contents {
                let mut message = whole.clone();
                set(&mut message, tag, content);
                records.push(record(103, message.bytes()));
            }
        }
        // Without 26T and 77B no tax line is asked for.
        let mut message = least(103, sign);
        set(&mut message, "50K", "/1|A");
        set(&mut message, "59", "/1|A");
        records.push(record(103, message.bytes()));
    }
}

const TAX_LINES: &[(&str, &[&str])] = &[
    (
        "50K",
        &[
            "/1|A",
            "A",
            "/1|INN7707083893|A",
            "INN7707083893|A",
            "INN7707083893.KPP770701001|A",
            "INN770708389312.KPP770701001|A",
            "/1|A|INN7707083893.KPP770701001",
            "A|INN7707083893.KPP770701001",
            "/INN7707083893.KPP770701001|A",
        ],
    ),
    (
        "59",
        &[
            "/1|A",
            "/1|INN7707083893|A",
            "/1|INN7707083893.KPP770701001|A",
            "/1|A|INN7707083893.KPP770701001",
            "/INN7707083893.KPP770701001|A",
        ],
    ),
];
