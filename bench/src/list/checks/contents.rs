//! What each field holds: 8, and what looks like it and isn't.

use super::{record, with, Record, KINDS};

pub fn add(records: &mut Vec<Record>) {
    references(records);
    purposes(records);
    in_turn("53B", SETTLEMENT_ACCOUNTS, records);
    in_turn("52A", BANKS_BY_BIC, records);
    each(202, false, "21", RELATED, records);
    each(103, false, "23B", OPERATIONS, records);
    each(103, false, "71A", CHARGES, records);
    in_turn("56A", &BANKS_BY_BIC[..24], records);
    in_turn("57A", &BANKS_BY_BIC[20..], records);
    in_turn("57D", BANKS_BY_NAME, records);
    in_turn("56D", BANKS_BY_NAME, records);
    each(103, false, "50K", ORDERING, records);
    each(103, false, "50K", &CUSTOMERS[..32], records);
    each(103, false, "59", CUSTOMERS, records);
    each(202, false, "58D", CUSTOMERS, records);
    each(202, false, "58A", BENEFICIARY_BICS, records);
    each(103, false, "70", DETAILS, records);
    each(103, true, "70", &DETAILS[..5], records);
    each(103, true, "70", SIGNED_DETAILS, records);
    each(103, false, "70", &SIGNED_DETAILS[..3], records);
    each(103, false, "72", RPP_LINES, records);
    each(202, false, "72", COVER_DETAILS, records);
    each(202, true, "72", SIGNED_COVER_DETAILS, records);
    each(103, false, "77B", REGULATORY, records);
}

fn each(kind: u32, sign: bool, tag: &str, contents: &[&str], records: &mut Vec<Record>) {
    for content in contents {
        let message = with(kind, sign, tag, content);
        records.push(record(kind, message.bytes()));
    }
}

/// In both types, the one and the other in turn.
fn in_turn(tag: &str, contents: &[&str], records: &mut Vec<Record>) {
    for (index, content) in contents.iter().enumerate() {
        each(KINDS[index % 2], false, tag, &[content], records);
    }
}

/// The first `+` of 20 is the sign, so the details go by it.
fn references(records: &mut Vec<Record>) {
    for (index, content) in REFERENCES.iter().enumerate() {
        let sign = content.starts_with('+');
        each(KINDS[index % 2], sign, "20", &[content], records);
    }
}

const REFERENCES: &[&str] = &[
    "", "A", "A", "+A", "+A", "+", "+", "++", "-", ":", "/", "//", "/A", "/A", "A/", "A/", "A//B",
    "A//B", "A/B", "A/B/C", "+/A", "+A/", "+/", "+//", "+A//B", "A/B//", "//A", "~16", "~17",
    "~16", "~17", "+~15", "+~16", "~15/", "~14//", " ", "'", "A B", "A|B", "+|A", "A|+", " +",
    "'+",
];

/// Every number of two digits near those that 26T takes, and other shapes.
fn purposes(records: &mut Vec<Record>) {
    let numbers = (0..=28)
        .chain([30, 99])
        .map(|number| format!("S{number:02}"));
    for content in numbers {
        each(103, false, "26T", &[&content], records);
    }
    let others = &[
        "", "S", "S1", "S001", "T01", "s01", "S1A", "SA1", "S1:", "S/1", "S:1", "01S", "S01 ",
        "S01|S01", " S01",
    ];
    each(103, true, "26T", others, records);
}

const RELATED: &[&str] = &[
    "", "NONREF", "nonref", "NONRE", "NONREFF", "NONREG", "MONREF", "NONREF ", " NONREF",
    "NONREF|A", "+NONREF",
];

const OPERATIONS: &[&str] = &[
    "", "CRED", "CREd", "CRE", "CREDD", "SPRI", " CRED", "CRED ", "CRED|A", "DRED", "CREE",
];

const CHARGES: &[&str] = &[
    "", "OUR", "our", "OU", "OURS", "BEN", "SHA", " OUR", "OUR ", "OUR|OUR", "OUT",
];

const SETTLEMENT_ACCOUNTS: &[&str] = &[
    "",
    "/D/30111810500000100000",
    "/D/00000000000000000000",
    "/D/99999999999999999999",
    "/D/3011181050000010000",
    "/D/301118105000001000000",
    "/D/",
    "/D",
    "/C/30111810500000100000",
    "/d/30111810500000100000",
    "//D/30111810500000100000",
    "D/30111810500000100000",
    "30111810500000100000",
    "/30111810500000100000",
    "/D/3011181050000010000A",
    "/D/A0111810500000100000",
    "/D/30111810500:00100000",
    "/D/30111810500/00100000",
    "/D/ 30111810500000100000",
    "/D/30111810500000100000 ",
    "/D/30111810500000100000|A",
    "/D/30111810500000100000|30111810500000100000",
];

/// Party lines and BICs.
const BANKS_BY_BIC: &[&str] = &[
    "",
    "SABRRUMM",
    "SABRRUMMXXX",
    "SABRRU12",
    "SABRRU12345",
    "AAAAAA00",
    "ZZZZZZ9Z9Z9",
    "SABRRUM",
    "SABRRUMMX",
    "SABRRUMMXX",
    "SABRRUMMXXXX",
    "SABR1UMM",
    "SABRR1MM",
    "1ABRRUMM",
    "SABRRUMm",
    "sABRRUMM",
    "SABRRUM:",
    "SABRRU:M",
    "SABRRUMMXX/",
    "SABRRUMMXXx",
    "SABRRUMM|SABRRUMM",
    "//RU044525225",
    "//RU044525225|SABRRUMM",
    "//RU044525225|SABRRUMMXXX",
    "//RU044525225|SABRRUMMX",
    "//RU044525225|BANK",
    "//RU044525225|SABRRUMM|SABRRUMM",
    "//RU04452522|SABRRUMM",
    "//RU0445252255|SABRRUMM",
    "//RU054525225|SABRRUMM",
    "//RU144525225|SABRRUMM",
    "//RU04452522A|SABRRUMM",
    "//RU04A525225|SABRRUMM",
    "//RU04452522:|SABRRUMM",
    "//ru044525225|SABRRUMM",
    "//RV044525225|SABRRUMM",
    "/RU044525225|SABRRUMM",
    "///RU044525225|SABRRUMM",
    "//RU|SABRRUMM",
    "//RU044525225.30101810400000000225|SABRRUMM",
    "//RU040000000.00000000000000000000|SABRRUMM",
    "//RU049999999.99999999999999999999|SABRRUMM",
    "//RU044525225.3010181040000000022|SABRRUMM",
    "//RU044525225.301018104000000002255|SABRRUMM",
    "//RU044525225,30101810400000000225|SABRRUMM",
    "//RU044525225 30101810400000000225|SABRRUMM",
    "//RU044525225.3010181040000000022A|SABRRUMM",
    "//RU044525225.A0101810400000000225|SABRRUMM",
    "//RU044525225.|SABRRUMM",
    "//RU044525225..0101810400000000225|SABRRUMM",
    "/30101810400000000225|SABRRUMM",
    "/3010181040000000022|SABRRUMM",
    "/301018104000000002255|SABRRUMM",
    "/3010181040000000022A|SABRRUMM",
    "/|SABRRUMM",
    "//30101810400000000225|SABRRUMM",
    "/D/30101810400000000225|SABRRUMM",
    "30101810400000000225|SABRRUMM",
    "SABRRUMM|//RU044525225",
    "/D/SUMITOMO BANK.,LTD|NOUCHI CHIYODA-KU,|TOKYO JAPAN",
];

const BANKS_BY_NAME: &[&str] = &[
    "",
    "BANK",
    "BANK|BANK",
    "//RU044525202",
    "//RU044525202|BANK",
    "//RU044525202|A|B|C|D",
    "//RU044525202|A|B|C|D|E",
    "//RU044525202|A|B|C|D|E|F",
    "//RU044525202|A|B|C|D|E|F|G",
    "//RU044525202|~35|~35|~35|~35",
    "//RU044525202|~36",
    "//RU044525202|~35|~36",
    "//RU044525202|A|B|C|~36",
    "//RU044525202|/A|/|//RU044525202",
    "//RU044525202|INN7",
    "//RU044525202|INN7707083893",
    "//RU044525202.30101810200000000202|BANK",
    "//RU044525202.3010181020000000020|BANK",
    "//RU054525202|BANK",
    "/30101810200000000202|BANK",
    "/30101810200000000202",
    "/3010181020000000020|BANK",
    "/2155698|BANK",
    "//RU044525202|SABRRUMM",
];

/// 50K without an account; the tax place is then the first line.
const ORDERING: &[&str] = &[
    "",
    "A",
    "-A",
    "-",
    ":A",
    ":",
    "::50K:",
    "A|B|C|D",
    "A|B|C|D|E",
    "A|B|C|D|E|F",
    "~35",
    "~36",
    "~35|~35|~35|~35",
    "~35|~35|~35|~36",
    "INN7707083893|A",
    "INN7707083893",
    "INN7707083893.KPP770701001",
    "INN7707083893.KPP770701001|A|B|C",
    "INN7707083893.KPP770701001|A|B|C|D",
    "INN7|A",
    "INN7707083893A|A",
    "INN77070838931|A",
    "INNA|A",
    "INN|A",
    "INN 7707083893|A",
    "inn7|A",
    "A|INN7",
    "A|/1",
    "A|INN7707083893|INN7",
    " /1|A",
    "//1|NORD",
    "/|NORD",
    "NORBERT SCHALLER GESELLSCHAFT|WIEN",
];

/// An account, perhaps a tax line, names. 58D takes ten digits of INN alone.
const CUSTOMERS: &[&str] = &[
    "/1",
    "/1|A",
    "/1|A|B|C|D",
    "/1|A|B|C|D|E",
    "/1|A|B|C|D|E|F",
    "/1|~35|~35|~35|~35",
    "/1|~36",
    "/1|A|~36",
    "/1|~35|~35|~35|~36",
    "/~34|A",
    "/~35|A",
    "//~33|A",
    "/|A",
    "//|A",
    "//1|A",
    "/1/|A",
    "/1//|A",
    "/-|A",
    "/ 30111810700001003126|A",
    "/1|-",
    "/1|/1",
    "/1|//1|/",
    "/1|INN7707083893|A",
    "/1|INN7707083893|A|B|C",
    "/1|INN7707083893|A|B|C|D",
    "/1|INN7707083893",
    "/1|INN7707083893|INN7707083893",
    "/1|INN770708389312|A",
    "/1|INN770708389|A",
    "/1|INN77070838931|A",
    "/1|INN7707083893123|A",
    "/1|INN7|A",
    "/1|INN7A|A",
    "/1|INN0|A",
    "/1|INN9:|A",
    "/1|INNA|A",
    "/1|INN|A",
    "/1|INN /|A",
    "/1|INN:7|A",
    "/1|IN7707083893|A",
    "/1|inn7707083893|A",
    "/1|INN7707083893.KPP770701001|A",
    "/1|INN770708389312.KPP770701001|A",
    "/1|INN7707083893.KPP77070100|A",
    "/1|INN7707083893.KPP7707010011|A",
    "/1|INN7707083893.KPP77070100A|A",
    "/1|INN7707083893.KPP|A",
    "/1|INN7707083893.|A",
    "/1|INN7707083893 |A",
    "/1|INN7707083893KPP770701001|A",
    "/1|INN7707083893,KPP770701001|A",
    "/1|INN7707083893, KPP770701001|A",
    "/1|INN7707083893.kpp770701001|A",
    "/1|INN7707083893.KPP770701001.|A",
    "/1|KPP770701001|A",
    "/1|A|INN7",
    "/1|A|INN7707083893.KPP770701001",
    "/1|INN7707083893|INN7",
    "A",
    "A|INN7707083893|B",
    "INN7707083893|/1|A",
];

const BENEFICIARY_BICS: &[&str] = &[
    "",
    "/1|SABRRUMM",
    "/~34|SABRRUMMXXX",
    "/~35|SABRRUMM",
    "/564-12-780|BBBBBEBB",
    "/1",
    "SABRRUMM",
    "//1|SABRRUMM",
    "/|SABRRUMM",
    "/1|SABRRUM",
    "/1|SABRRUM1X",
    "/1|BANK",
    "/1|SABRRUMM|A",
    "/1|INN7707083893|SABRRUMM",
    "1|SABRRUMM",
];

/// 70 with the code as it is without the sign.
const DETAILS: &[&str] = &[
    "",
    "A",
    "(VO10100)",
    "(VO10100)A",
    "(VO10100)|A",
    "(VO10100) ",
    "(VO10100)|~35",
    "(VO10100)|~36",
    "(VO10100)~26",
    "(VO10100)~27",
    "(VO10100)~26|~35|~35|~35",
    "(VO10100)~26|~35|~35|~36",
    "(VO10100)A|A|A|A",
    "(VO10100)A|A|A|A|A",
    "(VO10100)|A|A|A",
    "(VO10100)|A|A|A|A",
    "(VO1010)A",
    "(VO101000)A",
    "(VO1010A)A",
    "(VOA0100)A",
    "(VO1 100)A",
    "(VO10100A",
    "(V010100)A",
    "(vo10100)A",
    "VO10100)A",
    "[VO10100)A",
    " (VO10100)A",
    "/(VO10100)A",
    "(VO10100|)A",
    "A|(VO10100)A",
    "(VO00000)-",
    "(VO99999):",
    "(VO10100)'",
    "(VO10100)W|b",
    "(VO10100)|/NZP/",
];

/// 70 with the code as it is with the sign.
const SIGNED_DETAILS: &[&str] = &[
    "'(VO10100)'",
    "'(VO10100)'A",
    "'(VO10100)'|A",
    "'(VO10100)' ",
    "'(VO10100)'~24",
    "'(VO10100)'~25",
    "'(VO10100)'|~35|~35|~35",
    "'(VO10100)'~24|~35|~35|~35",
    "'(VO10100)'~24|~35|~35|~36",
    "'(VO10100)'A|A|A|A|A",
    "'(VO10100)A",
    "'(VO10100)A'",
    "'(VO1010)'A",
    "'(VO101000)'A",
    "'(VO1010A)'A",
    "(VO10100)'A",
    "''(VO10100)'A",
    "'(VO10100)|'A",
    "'(VO10100',A",
    "'(VO10100)''A'",
    "'(VO10100)''A",
    "'(VO10100)'''",
];

const RPP_LINES: &[&str] = &[
    "",
    "/RPP/",
    "/RPP/1.240229.5.POST",
    "/RPP/12.240229.0.TELG",
    "/RPP/123.240229.9.ELEK",
    "/RPP/1.240229.5.BESP",
    "/RPP/1.240229.5.POST.240301",
    "/RPP/123.240229.5.TELG.240301",
    "/RPP/.240229.5.POST",
    "/RPP/1234.240229.5.POST",
    "/RPP/12345.240229.5.POST",
    "/RPP/123456.240229.5.POST",
    "/RPP/000000.240229.5.POST",
    "/RPP/1234567.240229.5.POST",
    "/RPP/12345678901234567890.240229.5.POST",
    "/RPP/12345A.240229.5.POST",
    "/RPP/1A.240229.5.POST",
    "/RPP/A.240229.5.POST",
    "/RPP/1.24022.5.POST",
    "/RPP/1.2402290.5.POST",
    "/RPP/1.24A229.5.POST",
    "/RPP/1.240229.A.POST",
    "/RPP/1.240229..POST",
    "/RPP/1.240229.55.POST",
    "/RPP/1.240229.5.MAIL",
    "/RPP/1.240229.5.post",
    "/RPP/1.240229.5.POS",
    "/RPP/1.240229.5.POSTT",
    "/RPP/1.240229.5.TELE",
    "/RPP/1.240229.5.ELEG",
    "/RPP/1.240229.5.BEST",
    "/RPP/1.240229.5.",
    "/RPP/1.240229.5",
    "/RPP/1.240229.5.POST.",
    "/RPP/1.240229.5.POST.24030",
    "/RPP/1.240229.5.POST.2403010",
    "/RPP/1.240229.5.POST.24030A",
    "/RPP/1.240229.5.POST,240301",
    "/RPP/1.240229.5.POST240301",
    "/RPP/1.240229.5.POST.240301.",
    "/RPP/1.240229.5.POST.01",
    "/RPP/1.240229.5.POST.00",
    "/RPP/1.240229.5.POST.99",
    "/RPP/1.240229.5.POST.240301.01",
    "/RPP/999999.240229.5.ELEK.240229.01",
    "/RPP/346.031014.6.POST.090324.01",
    "/RPP/011.090206.5.ELEK.090213.06",
    "/RPP/011.090206.5.ELEK.090213.02",
    "/RPP/1.240229.5.POST.01.240301",
    "/RPP/1.240229.5.POST.01.01",
    "/RPP/1.240229.5.POST.240301.240301",
    "/RPP/1.240229.5.POST.240301.01.01",
    "/RPP/1.240229.5.POST.1",
    "/RPP/1.240229.5.POST.001",
    "/RPP/1.240229.5.POST.0001",
    "/RPP/1.240229.5.POST.00001",
    "/RPP/1.240229.5.POST.0A",
    "/RPP/1.240229.5.POST.A0",
    "/RPP/1.240229.5.POST,01",
    "/RPP/1.240229.5.POST01",
    "/RPP/1.240229.5.POST.01.",
    "/RPP/1.240229.5.POST..01",
    "/RPP/1.240229.5.POST.240301.1",
    "/RPP/1.240229.5.POST.240301.001",
    "/RPP/1.240229.5.POST.240301.0A",
    "/RPP/1.240229.5.POST.240301,01",
    "/RPP/1.240229.5.POST,240301.01",
    "/RPP/1.240229.5.POST.24030A.01",
    "/RPP/1.240229.5.POST.24030101",
    "/RPP/1.240229.5.POST.240301.01|/NZP/A",
    "/RPP/999999.240229.5.ELEK.240229.01|/NZP/A|//B|//B|//B|//B",
    "/RPP/1234567.240229.5.ELEK|/NZP/A",
    "/RPP/1,240229,5,POST",
    "/RPP/1 .240229.5.POST",
    "/RPP1.240229.5.POST",
    "RPP/1.240229.5.POST",
    "//RPP/1.240229.5.POST",
    "/rpp/1.240229.5.POST",
    " /RPP/1.240229.5.POST",
    "/RPP/1.240229.5.POST|A",
    "/RPP/1.240229.5.POST|/RPP/1.240229.5.POST",
    "/RPP/1.240229.5.POST|/NZP/(VO10100)A",
    "/NZP/(VO10100)A",
];

/// 72 of 202 without the sign: with and without an RPP line.
const COVER_DETAILS: &[&str] = &[
    "",
    "/NZP/(VO10100)A",
    "/NZP/(VO10100)",
    "/NZP/",
    "/NZP/A",
    "/NZP/ (VO10100)A",
    "/NZP/(VO10100) ",
    "/NZP/(VO10100)|//A",
    "/NZP/(VO10100)|//",
    "/NZP/(VO10100)|A",
    "/NZP/(VO10100)|/A",
    "/NZP/(VO10100)|/NZP/A",
    "/NZP/(VO10100)|///",
    "/NZP/(VO10100)A|//B",
    "/NZP/(VO10100)A|//",
    "/NZP/(VO10100)A|//:|//-",
    "/NZP/(VO10100)~21",
    "/NZP/(VO10100)~22",
    "/NZP/(VO10100)|//~33",
    "/NZP/(VO10100)|//~34",
    "/NZP/(VO10100)A|//A|//A|//A|//A|//A",
    "/NZP/(VO10100)A|//A|//A|//A|//A|//A|//A",
    "/NZP/(VO10100)~21|//~33|//~33|//~33|//~33|//~33",
    "/NZP/(VO10100)~21|//~33|//~33|//~33|//~33|//~34",
    "/NZP/'(VO10100)'A",
    "/NZP/(VO1010)A",
    "/NZP(VO10100)A",
    "/nzp/(VO10100)A",
    "NZP/(VO10100)A",
    "//NZP/(VO10100)A",
    "/BNF/(VO10100)A",
    "(VO10100)A",
    "//A",
    "/RPP/1.240229.5.POST",
    "/RPP/1.240229.5.POST|/NZP/(VO10100)A",
    "/RPP/123.240229.5.ELEK.240301|/NZP/(VO10100)|//A",
    "/RPP/999999.240229.5.ELEK.240229.01|/NZP/(VO10100)A",
    "/RPP/12345.240229.5.ELEK.01|/NZP/(VO10100)A",
    "/RPP/1234567.240229.5.ELEK|/NZP/(VO10100)A",
    "/RPP/1.240229.5.POST.01.240229|/NZP/(VO10100)A",
    "/RPP/1.240229.5.POST|/NZP/(VO10100)",
    "/RPP/1.240229.5.POST|/NZP/(VO10100)A|//A|//A|//A|//A",
    "/RPP/1.240229.5.POST|/NZP/(VO10100)A|//A|//A|//A|//A|//A",
    "/RPP/1.240229.5.POST|//A",
    "/RPP/1.240229.5.POST|/RPP/1.240229.5.POST|/NZP/(VO10100)A",
    "/NZP/(VO10100)A|/RPP/1.240229.5.POST",
    "/RPP/1.240229.5.MAIL|/NZP/(VO10100)A",
    "/RPP/|/NZP/(VO10100)A",
    "/RPP/1.240229.5.POST.|/NZP/(VO10100)A",
    "/RPP|/NZP/(VO10100)A",
];

const SIGNED_COVER_DETAILS: &[&str] = &[
    "/NZP/'(VO10100)'A",
    "/NZP/'(VO10100)'",
    "/NZP/(VO10100)A",
    "/NZP/'(VO10100)'|//A",
    "/NZP/'(VO10100)'~19",
    "/NZP/'(VO10100)'~20",
    "/NZP/'(VO10100)'~19|//~33|//~33|//~33|//~33|//~33",
    "/NZP/'(VO10100)|//'A",
    "/RPP/1.240229.5.POST|/NZP/'(VO10100)'A|//B",
    "/RPP/1.240229.5.POST|/NZP/'(VO10100)'~19|//~33|//~33|//~33|//~33",
    "/RPP/1.240229.5.POST|/NZP/'(VO10100)'~19|//~33|//~33|//~33|//~33|//A",
];

const REGULATORY: &[&str] = &[
    "",
    "/",
    "/A",
    "/A|B|C",
    "/A|B|C|D",
    "/~34|~35|~35",
    "/~35",
    "/~34|~36",
    "/~34|~35|~36",
    "A",
    "A|/A",
    ":/A",
    " /A",
    "//|/|//",
    "/N10/NS/N4/18210606032041000110|/N5/25701000/N6/TP/0|N8/0/N9/0",
];
