//! The orders that the correspondents' papers print: as printed, and mended
//! step by step until they are right.

use super::{least, lines, record, Record};
use crate::messages::{Field, Message};

pub fn add(records: &mut Vec<Record>) {
    for (kind, orders) in [(103, CUSTOMER_ORDERS), (202, BANK_ORDERS)] {
        for fields in orders {
            let m = format!("{{4:|{fields}|-}}").replace('|', "\r\n");
            records.push(record(kind, m.into_bytes()));
        }
    }
    for (kind, fields) in OPTIONS {
        for message in [printed(*kind, fields), mended(*kind, fields)] {
            records.push(record(*kind, message.bytes()));
        }
    }
}

const CUSTOMER_ORDERS: &[&str] = &[
    // As printed: blanks behind tags, and one inside a tag.
    ":20:A0441301/101100|:23B: CRED|:32A:160114RUB173266,60|\
     :50K:NORBERT SCHALLER GESELLSCHAFT|WIEN|:53B:/D/30111810500000100000|\
     :57D://RU044525202.30101810200000000202|AO KB CITIBANK|G. MOSCOW|\
     :59:/40702810700000099079|INN7765453456.KPP123456789|OOO POLET|\
     : 70:(VO10100) PAYMENT FOR GOODS CNTR|123 DD 23102000 INC VAT 18PERCENT|:71A: OUR",
    // The tag mended: 8 at 23B, then at 71A, then right.
    ":20:A0441301/101100|:23B: CRED|:32A:160114RUB173266,60|\
     :50K:NORBERT SCHALLER GESELLSCHAFT|WIEN|:53B:/D/30111810500000100000|\
     :57D://RU044525202.30101810200000000202|AO KB CITIBANK|G. MOSCOW|\
     :59:/40702810700000099079|INN7765453456.KPP123456789|OOO POLET|\
     :70:(VO10100) PAYMENT FOR GOODS CNTR|123 DD 23102000 INC VAT 18PERCENT|:71A: OUR",
    ":20:A0441301/101100|:23B:CRED|:32A:160114RUB173266,60|\
     :50K:NORBERT SCHALLER GESELLSCHAFT|WIEN|:53B:/D/30111810500000100000|\
     :57D://RU044525202.30101810200000000202|AO KB CITIBANK|G. MOSCOW|\
     :59:/40702810700000099079|INN7765453456.KPP123456789|OOO POLET|\
     :70:(VO10100) PAYMENT FOR GOODS CNTR|123 DD 23102000 INC VAT 18PERCENT|:71A: OUR",
    ":20:A0441301/101100|:23B:CRED|:32A:160114RUB173266,60|\
     :50K:NORBERT SCHALLER GESELLSCHAFT|WIEN|:53B:/D/30111810500000100000|\
     :57D://RU044525202.30101810200000000202|AO KB CITIBANK|G. MOSCOW|\
     :59:/40702810700000099079|INN7765453456.KPP123456789|OOO POLET|\
     :70:(VO10100) PAYMENT FOR GOODS CNTR|123 DD 23102000 INC VAT 18PERCENT|:71A:OUR",
    // With an intermediary bank, as printed; without the blanks; with a comma.
    ":20: ORR11302513|:23B: CRED|:32A: 070525RUB100000.00|\
     :50K: NORBERT SCHALLER GESELLSCHAFT|WIEN|:53B: /D/30111810800001100000|\
     :57D: //RU044525222.30101810500000000222|ING BANK,(EURASIA) ZAO|MOSCOW|\
     :59: / 30111810700001003126|NATEXIS BANK, PARIS|/21536|ATM MANAGEMENT LLC|\
     : 70:(VO10100) PAYMENT FOR GOODS CNTR|123 DD 23102000|:71A: OUR",
    ":20:ORR11302513|:23B:CRED|:32A:070525RUB100000.00|\
     :50K:NORBERT SCHALLER GESELLSCHAFT|WIEN|:53B:/D/30111810800001100000|\
     :57D://RU044525222.30101810500000000222|ING BANK,(EURASIA) ZAO|MOSCOW|\
     :59:/30111810700001003126|NATEXIS BANK, PARIS|/21536|ATM MANAGEMENT LLC|\
     :70:(VO10100) PAYMENT FOR GOODS CNTR|123 DD 23102000|:71A:OUR",
    ":20:ORR11302513|:23B:CRED|:32A:070525RUB100000,00|\
     :50K:NORBERT SCHALLER GESELLSCHAFT|WIEN|:53B:/D/30111810800001100000|\
     :57D://RU044525222.30101810500000000222|ING BANK,(EURASIA) ZAO|MOSCOW|\
     :59:/30111810700001003126|NATEXIS BANK, PARIS|/21536|ATM MANAGEMENT LLC|\
     :70:(VO10100) PAYMENT FOR GOODS CNTR|123 DD 23102000|:71A:OUR",
    // To the budget, as printed.
    ":20: +TTO140/3402428|:23B: CRED|:26T: S08|:32A: 160210RUB41709,|\
     :50K: :/CY48005001400001400781048702|KENWARD BUSINESS CORP|\
     INN9909271646, KPP380870002|DRAKE CHAMBERS|ROAD TOWN TORTOLA, BVI|\
     :53B: /D/ 30111810500000110391|:57D: // RU042520001|GRKC GU BANK ROSSII PO||\
     IRKURSKOI OBLASTI|G. IRKUTSK|:59:/ 40101810900000010001|INN3808114237.KPP384901001|\
     IFNS PRAVOBEREJNOMU OKRUGU|G. IRKUTSK|: 70:'(VO70010)\"LAND TAX FOR QUARTER|\
     4/2015 FUNDAMENT.|UIN18209965164568870532|:71A: OUR|\
     :77B: :/N10/NS/N4/18210606032041000110|/N5/25701000/N6/TP/0|N8/0/N9/0",
    // Without the blanks and with two apostrophes: an empty line is left.
    ":20:+TTO140/3402428|:23B:CRED|:26T:S08|:32A:160210RUB41709,|\
     :50K::/CY48005001400001400781048702|KENWARD BUSINESS CORP|\
     INN9909271646, KPP380870002|DRAKE CHAMBERS|ROAD TOWN TORTOLA, BVI|\
     :53B:/D/30111810500000110391|:57D://RU042520001|GRKC GU BANK ROSSII PO||\
     IRKURSKOI OBLASTI|G. IRKUTSK|:59:/40101810900000010001|INN3808114237.KPP384901001|\
     IFNS PRAVOBEREJNOMU OKRUGU|G. IRKUTSK|:70:'(VO70010)''LAND TAX FOR QUARTER|\
     4/2015 FUNDAMENT.|UIN18209965164568870532|:71A:OUR|\
     :77B::/N10/NS/N4/18210606032041000110|/N5/25701000/N6/TP/0|N8/0/N9/0",
    // Five lines without an account in 50K.
    ":20:+TTO140/3402428|:23B:CRED|:26T:S08|:32A:160210RUB41709,|\
     :50K::/CY48005001400001400781048702|KENWARD BUSINESS CORP|\
     INN9909271646, KPP380870002|DRAKE CHAMBERS|ROAD TOWN TORTOLA, BVI|\
     :53B:/D/30111810500000110391|:57D://RU042520001|GRKC GU BANK ROSSII PO|\
     IRKURSKOI OBLASTI|G. IRKUTSK|:59:/40101810900000010001|INN3808114237.KPP384901001|\
     IFNS PRAVOBEREJNOMU OKRUGU|G. IRKUTSK|:70:'(VO70010)''LAND TAX FOR QUARTER|\
     4/2015 FUNDAMENT.|UIN18209965164568870532|:71A:OUR|\
     :77B::/N10/NS/N4/18210606032041000110|/N5/25701000/N6/TP/0|N8/0/N9/0",
    // 77B begins with a colon.
    ":20:+TTO140/3402428|:23B:CRED|:26T:S08|:32A:160210RUB41709,|\
     :50K:/CY48005001400001400781048702|KENWARD BUSINESS CORP|\
     INN9909271646, KPP380870002|DRAKE CHAMBERS|ROAD TOWN TORTOLA, BVI|\
     :53B:/D/30111810500000110391|:57D://RU042520001|GRKC GU BANK ROSSII PO|\
     IRKURSKOI OBLASTI|G. IRKUTSK|:59:/40101810900000010001|INN3808114237.KPP384901001|\
     IFNS PRAVOBEREJNOMU OKRUGU|G. IRKUTSK|:70:'(VO70010)''LAND TAX FOR QUARTER|\
     4/2015 FUNDAMENT.|UIN18209965164568870532|:71A:OUR|\
     :77B::/N10/NS/N4/18210606032041000110|/N5/25701000/N6/TP/0|N8/0/N9/0",
    // 13: the tax line is not in the tax place.
    ":20:+TTO140/3402428|:23B:CRED|:26T:S08|:32A:160210RUB41709,|\
     :50K:/CY48005001400001400781048702|KENWARD BUSINESS CORP|\
     INN9909271646, KPP380870002|DRAKE CHAMBERS|ROAD TOWN TORTOLA, BVI|\
     :53B:/D/30111810500000110391|:57D://RU042520001|GRKC GU BANK ROSSII PO|\
     IRKURSKOI OBLASTI|G. IRKUTSK|:59:/40101810900000010001|INN3808114237.KPP384901001|\
     IFNS PRAVOBEREJNOMU OKRUGU|G. IRKUTSK|:70:'(VO70010)''LAND TAX FOR QUARTER|\
     4/2015 FUNDAMENT.|UIN18209965164568870532|:71A:OUR|\
     :77B:/N10/NS/N4/18210606032041000110|/N5/25701000/N6/TP/0|N8/0/N9/0",
    // 14: W has no reading, then an open end in the details.
    ":20:+TTO140/3402428|:23B:CRED|:26T:S08|:32A:160210RUB41709,|\
     :50K:/CY48005001400001400781048702|INN9909271646.KPP380870002|\
     KENWARD BUSINESS CORP|DRAKE CHAMBERS|ROAD TOWN TORTOLA, BVI|\
     :53B:/D/30111810500000110391|:57D://RU042520001|GRKC GU BANK ROSSII PO|\
     IRKURSKOI OBLASTI|G. IRKUTSK|:59:/40101810900000010001|INN3808114237.KPP384901001|\
     IFNS PRAVOBEREJNOMU OKRUGU|G. IRKUTSK|:70:'(VO70010)''LAND TAX FOR QUARTER|\
     4/2015 FUNDAMENT.|UIN18209965164568870532|:71A:OUR|\
     :77B:/N10/NS/N4/18210606032041000110|/N5/25701000/N6/TP/0|N8/0/N9/0",
    ":20:+TTO140/3402428|:23B:CRED|:26T:S08|:32A:160210RUB41709,|\
     :50K:/CY48005001400001400781048702|INN9909271646.KPP380870002|\
     'KENWARD BUSINESS CORP'|'DRAKE CHAMBERS'|'ROAD TOWN TORTOLA, BVI'|\
     :53B:/D/30111810500000110391|:57D://RU042520001|GRKC GU BANK ROSSII PO|\
     IRKURSKOI OBLASTI|G. IRKUTSK|:59:/40101810900000010001|INN3808114237.KPP384901001|\
     IFNS PRAVOBEREJNOMU OKRUGU|G. IRKUTSK|:70:'(VO70010)''LAND TAX FOR QUARTER|\
     4/2015 FUNDAMENT.|UIN18209965164568870532|:71A:OUR|\
     :77B:/N10/NS/N4/18210606032041000110|/N5/25701000/N6/TP/0|N8/0/N9/0",
    // Right.
    ":20:+TTO140/3402428|:23B:CRED|:26T:S08|:32A:160210RUB41709,|\
     :50K:/CY48005001400001400781048702|INN9909271646.KPP380870002|\
     'KENWARD BUSINESS CORP'|'DRAKE CHAMBERS'|'ROAD TOWN TORTOLA, BVI'|\
     :53B:/D/30111810500000110391|:57D://RU042520001|GRKC GU BANK ROSSII PO|\
     IRKURSKOI OBLASTI|G. IRKUTSK|:59:/40101810900000010001|INN3808114237.KPP384901001|\
     IFNS PRAVOBEREJNOMU OKRUGU|G. IRKUTSK|:70:'(VO70010)''LAND TAX FOR QUARTER|\
     4/2015 FUNDAMENT.|UIN18209965164568870532'|:71A:OUR|\
     :77B:/N10/NS/N4/18210606032041000110|/N5/25701000/N6/TP/0|N8/0/N9/0",
    // The rules' own example.
    ":20:+A17|:23B:CRED|:32A:240229RUB1500,5|:50K:/40702|'NORD'|\
     :53B:/D/30111810500000100000|:59:/40702810700000099079|INN7707083893|OOO PoTR|\
     :70:'(VO10100)'OPLATA 'CNTR' 5|:71A:OUR",
];

const BANK_ORDERS: &[&str] = &[
    // As printed, a blank before the code; then right.
    ":20:A0441301/101100|:21:NONREF|:32A:001112RUB2000000,00|:53B:/D/30111810800001100000|\
     :57D://RU044525202.30101810200000000202|AO KB CITIBANK|MOSCOW|\
     :58D:/30111810600700601013|UKRSOTCBANK|KIEV|:72:/NZP/ (VO60070) FX DEAL DD 11122000",
    ":20:A0441301/101100|:21:NONREF|:32A:001112RUB2000000,00|:53B:/D/30111810800001100000|\
     :57D://RU044525202.30101810200000000202|AO KB CITIBANK|MOSCOW|\
     :58D:/30111810600700601013|UKRSOTCBANK|KIEV|:72:/NZP/(VO60070) FX DEAL DD 11122000",
    // As printed, two tags without their first colon.
    ":20:A0441301/101100|:21:NONREF|:32A:001112RUB2000000,00|\
     :52A:/D/SUMITOMO BANK.,LTD|NOUCHI CHIYODA-KU,|TOKYO JAPAN|:53B:/D/30111810800001100000|\
     56D: //RU044525222.30101810500000000222|ING BANK,(EURASIA) ZAO|MOSCOW|\
     :57D:/30111810700001003126|KAWAIA BANK.,LTD|\
     58D: /2155698|EURO-CLEAR BANK SA/NV BRUSSELS|\
     :72:/NZP/ (VO60070) PAYMENT REGARDING|PURCHASE OF RUB BONDS FROM SECURITY CO. LTD",
    // Tags and blanks mended: 8 at 52A, then at 72, then right.
    ":20:A0441301/101100|:21:NONREF|:32A:001112RUB2000000,00|\
     :52A:/D/SUMITOMO BANK.,LTD|NOUCHI CHIYODA-KU,|TOKYO JAPAN|:53B:/D/30111810800001100000|\
     :56D://RU044525222.30101810500000000222|ING BANK,(EURASIA) ZAO|MOSCOW|\
     :57D:/30111810700001003126|KAWAIA BANK.,LTD|\
     :58D:/2155698|EURO-CLEAR BANK SA/NV BRUSSELS|\
     :72:/NZP/(VO60070) PAYMENT REGARDING|PURCHASE OF RUB BONDS FROM SECURITY CO. LTD",
    ":20:A0441301/101100|:21:NONREF|:32A:001112RUB2000000,00|\
     :52A:SMITJPJT|:53B:/D/30111810800001100000|\
     :56D://RU044525222.30101810500000000222|ING BANK,(EURASIA) ZAO|MOSCOW|\
     :57D:/30111810700001003126|KAWAIA BANK.,LTD|\
     :58D:/2155698|EURO-CLEAR BANK SA/NV BRUSSELS|\
     :72:/NZP/(VO60070) PAYMENT REGARDING|PURCHASE OF RUB BONDS FROM SECURITY CO. LTD",
    ":20:A0441301/101100|:21:NONREF|:32A:001112RUB2000000,00|\
     :52A:SMITJPJT|:53B:/D/30111810800001100000|\
     :56D://RU044525222.30101810500000000222|ING BANK,(EURASIA) ZAO|MOSCOW|\
     :57D:/30111810700001003126|KAWAIA BANK.,LTD|\
     :58D:/2155698|EURO-CLEAR BANK SA/NV BRUSSELS|\
     :72:/NZP/(VO60070) PAYMENT REGARDING|//PURCHASE OF RUB BONDS FROM SECURI|//TY CO. LTD",
    // The other way with an intermediary bank, as printed and right.
    ":20:A0441301/101100|:21:NONREF|:32A:001112RUB2000000,00|\
     :52A:/D/SUMITOMO BANK.,LTD|NOUCHI CHIYODA-KU,|TOKYO JAPAN|:53B:/D/30111810800001100000|\
     57D: //RU044525222.30101810500000000222|ING BANK,(EURASIA) ZAO|MOSCOW|\
     58D: /30111810700001003126|KAWAIA BANK.,LTD|/2155698|EURO-CLEAR BANK SA/NV BRUSSELS|\
     :72:/NZP/ (VO60070) PAYMENT REGARDING|PURCHASE OF RUB BONDS FROM SECURITY CO. LT",
    ":20:A0441301/101100|:21:NONREF|:32A:001112RUB2000000,00|\
     :52A:SMITJPJT|:53B:/D/30111810800001100000|\
     :57D://RU044525222.30101810500000000222|ING BANK,(EURASIA) ZAO|MOSCOW|\
     :58D:/30111810700001003126|KAWAIA BANK.,LTD|/2155698|EURO-CLEAR BANK SA/NV BRUSSELS|\
     :72:/NZP/(VO60070) PAYMENT REGARDING|//PURCHASE OF RUB BONDS FROM SECURI|//TY CO. LT",
];

/// Fields as tag and content.
type Fields = &'static [(&'static str, &'static str)];

/// The ways to name banks and customers, as a paper prints them: x stands for
/// a digit.
const OPTIONS: &[(u32, Fields)] = &[
    (
        103,
        &[
            ("57A", BY_BIK),
            ("59", CUSTOMER),
            ("70", "(VO12345)MM DEAL"),
        ],
    ),
    (
        103,
        &[
            ("57A", BY_ACCOUNT),
            ("59", CUSTOMER),
            ("70", "(VO12345)MM DEAL"),
        ],
    ),
    (
        103,
        &[
            ("57D", BY_NAME),
            ("59", CUSTOMER),
            ("70", "(VO12345)MM DEAL"),
        ],
    ),
    (202, &[("57A", BY_BIK), ("58A", FOREIGN_BIC), ("72", DEAL)]),
    (202, &[("57A", BY_BIK), ("58D", FOREIGN_NAME), ("72", DEAL)]),
    (
        202,
        &[("57A", BY_ACCOUNT), ("58A", FOREIGN_BIC), ("72", DEAL)],
    ),
    (
        202,
        &[("57A", BY_ACCOUNT), ("58D", FOREIGN_NAME), ("72", DEAL)],
    ),
    (202, &[("57D", BY_NAME), ("58A", FOREIGN_BIC), ("72", DEAL)]),
    (
        202,
        &[("57D", BY_NAME), ("58D", FOREIGN_NAME), ("72", DEAL)],
    ),
    (
        103,
        &[("56A", BY_BIK), ("57A", FOREIGN_BIC), ("59", PERSON)],
    ),
    (
        103,
        &[("56A", BY_BIK), ("57D", FOREIGN_BANK), ("59", PERSON)],
    ),
    (
        103,
        &[
            ("56A", BY_ACCOUNT),
            ("57A", FOREIGN_BIC),
            ("59", PERSON_IN_ONE),
        ],
    ),
    (
        103,
        &[
            ("56A", BY_ACCOUNT),
            ("57D", FOREIGN_BANK),
            ("59", PERSON_IN_ONE),
        ],
    ),
    (
        103,
        &[("56D", BY_NAME), ("57A", FOREIGN_BIC), ("59", PERSON)],
    ),
    (
        103,
        &[("56D", BY_NAME), ("57D", FOREIGN_BANK), ("59", PERSON)],
    ),
    (
        202,
        &[
            ("56A", BY_BIK),
            ("57A", FOREIGN_BIC),
            ("58A", BANK),
            ("72", DEAL),
        ],
    ),
    (
        202,
        &[
            ("56A", BY_BIK),
            ("57D", FOREIGN_BANK),
            ("58A", BANK),
            ("72", DEAL),
        ],
    ),
    (
        202,
        &[
            ("56A", BY_ACCOUNT),
            ("57A", FOREIGN_BIC),
            ("58A", BANK),
            ("72", DEAL),
        ],
    ),
    (
        202,
        &[
            ("56A", BY_ACCOUNT),
            ("57D", FOREIGN_BANK),
            ("58A", BANK),
            ("72", DEAL),
        ],
    ),
    (
        202,
        &[
            ("56D", BY_NAME),
            ("57A", FOREIGN_BIC),
            ("58A", BANK),
            ("72", DEAL),
        ],
    ),
    (
        202,
        &[
            ("56D", BY_NAME),
            ("57D", FOREIGN_BANK),
            ("58A", BANK),
            ("72", DEAL),
        ],
    ),
];

const BY_BIK: &str = "//RU123456789|AAAARUAA";
const BY_ACCOUNT: &str = "/30101810xxxxxxxxxxxxx|AAAARUAA";
const BY_NAME: &str = "//RU123456789.30101810xxxxxxxxxxxxx|SBERBANK MOSCOW";
const CUSTOMER: &str = "/xxxxx810xxxxxxxxxxxx|INNxxxxxxxxxx|DAVID JONES|LONDON, U.K.";
const FOREIGN_BIC: &str = "/30xxx810xxxxxxxxxxxx|BBBBBEBB";
const FOREIGN_NAME: &str = "/30xxx810xxxxxxxxxxxx|(INNxxxxxxxxxxx)|\
                            THE HONGKONG AND SHANGHAI BANKING|CORP LTD, HONG KONG BRANCH";
const FOREIGN_BANK: &str =
    "/30xxx810xxxxxxxxxxxx|(INNxxxxxxxxxx)|STANDARD CHARTERED BANK SWITZERLAND";
const PERSON: &str = "/000-111-22-3456|GARY SMITH|MITTE, GERMANY";
const PERSON_IN_ONE: &str = "/000-111-22-3456 GARY SMITH|MITTE, GERMANY";
const BANK: &str = "/564-12-780|BBBBBEBB";
const DEAL: &str = "/BNF/(VO12345)FX DEAL";

/// The option among the mandatory fields.
fn printed(kind: u32, option: Fields) -> Message {
    let digits = |content: &str| content.replace('x', "1");
    with_fields(kind, option, digits)
}

/// With a BIK that begins 04 and an account of twenty digits that ends as it
/// does, an INN of ten digits in a tax line, and the mark for details.
fn mended(kind: u32, option: Fields) -> Message {
    let mend = |content: &str| {
        let content = content.replace("123456789", "044525225");
        let content = content.replace("30101810xxxxxxxxxxxxx", "30101810400000000225");
        let content = content.replace("(INNxxxxxxxxxxx)", "INN7707083893");
        let content = content.replace("(INNxxxxxxxxxx)", "INN7707083893");
        content.replace("/BNF/", "/NZP/").replace('x', "1")
    };
    with_fields(kind, option, mend)
}

fn with_fields(kind: u32, option: Fields, spell: impl Fn(&str) -> String) -> Message {
    let mut message = least(kind, false);
    for (tag, content) in option {
        let place = super::place_of(kind, tag).0;
        let before = |field: &Field| super::place_of(kind, &field.tag).0 < place;
        let at = message
            .fields
            .iter()
            .take_while(|field| before(field))
            .count();
        let there = |field: &Field| super::place_of(kind, &field.tag).0 == place;
        if message.fields.get(at).is_some_and(there) {
            message.fields.remove(at);
        }
        let lines = lines(&spell(content));
        let tag = tag.to_string();
        message.fields.insert(at, Field { tag, lines });
    }
    message
}

#[cfg(test)]
mod tests {
    use super::*;
    use crate::plain::check::check;

    fn number(record: &Record) -> u32 {
        let mut list = vec![0; record.room];
        let answer = check(record.kind, &record.message, &mut list);
        answer.map_or_else(|refusal| refusal.number, |_| 0)
    }

    #[test]
    fn mended_orders_are_right() {
        let mut records = Vec::new();
        add(&mut records);
        let numbers: Vec<u32> = records.iter().map(number).collect();
        let spelt = CUSTOMER_ORDERS.len() + BANK_ORDERS.len();
        let customer = [4, 8, 8, 0, 4, 8, 0, 3, 4, 8, 8, 13, 14, 14, 0, 0];
        let bank = [8, 0, 7, 8, 8, 0, 7, 0];
        assert_eq!(numbers[..spelt], [&customer[..], &bank].concat());
        for pair in numbers[spelt..].chunks(2) {
            assert_eq!(pair, [8, 0]);
        }
    }
}
