//! Whole messages and sheets: the rules' own cases, and their open points.
//! `|` stands for CR LF, `→` for a tab, `¶` for LF.

use super::check::{check, content, date, kopecks};
use super::read::to_sheet;
use super::write::to_message;
use super::{refuse, Refusal};
use crate::random::Random;
use crate::signs::desk as sheet;

const SIGNED: &str = "{4:|:20:+A17|:23B:CRED|:32A:240229RUB1500,5|:50K:/40702|'NORD'|\
:53B:/D/30111810500000100000|:59:/40702810700000099079|INN7707083893|OOO PoTR|\
:70:'(VO10100)'OPLATA 'CNTR' 5|:71A:OUR|-}";

const SIGNED_SHEET: &str = "MT→103¶20→+A17¶23B→CRED¶32A→240229RUB1500,5¶50K→/40702→NORD¶\
53B→/D/30111810500000100000¶59→/40702810700000099079→INN7707083893→ООО ПЁТР¶\
70→10100→ОПЛАТА CNTR 5¶71A→OUR¶";

const PLAIN: &str =
    "{4:|:20:A|:23B:CRED|:26T:S01|:32A:800229RUB0,|:50K:INN7707083893.KPP770701001|NORD|\
:52A://RU044525225.30101810400000000225|SABRRUMM|:53B:/D/30111810500000100000|\
:56A:SABRRUMMXXX|:57D:/30101810400000000225|BANK|:59:/1|INN770708389312.KPP770701001|PETR|\
:70:(VO10100)|A|:71A:OUR|:72:/RPP/1.240229.5.POST.791231|:77B:/A|-}";

const COVER: &str = "{4:|:20:+A|:21:NONREF|:32A:240229RUB1,25|:53B:/D/30111810500000100000|\
:58D:/1|INN7707083893|PoTR|:72:/RPP/17.240229.5.ELEK|/NZP/'(VO10100)'A|//B|-}";

fn message(m: &str) -> Vec<u8> {
    m.replace('|', "\r\n").into_bytes()
}

fn read(kind: u32, m: &str) -> Result<Vec<u8>, Refusal> {
    let mut out = [0; 10_000];
    let units = to_sheet(kind, &message(m), &mut out)?;
    Ok(out[..units].to_vec())
}

fn write(text: &str) -> Result<Vec<u8>, Refusal> {
    let mut out = [0; 30_000];
    let units = to_message(&sheet(text), &mut out)?;
    Ok(out[..units].to_vec())
}

/// The refusal of a message after an edit; its place as the text that stands there.
fn refused(kind: u32, m: &str, from: &str, to: &str) -> (u32, String) {
    assert!(m.contains(from), "{from}");
    let m = message(&m.replacen(from, to, 1));
    match check(kind, &m, &mut [0; 42]) {
        Ok(_) => (0, String::new()),
        Err(refusal) => {
            let rest = &m[refusal.place..m.len().min(refusal.place + 4)];
            (refusal.number, String::from_utf8_lossy(rest).into_owned())
        }
    }
}

#[test]
fn the_example_both_ways() {
    assert_eq!(read(103, SIGNED), Ok(sheet(SIGNED_SHEET)));
    assert_eq!(write(SIGNED_SHEET), Ok(message(SIGNED)));
    let cover = "MT→202¶20→+A¶21→NONREF¶32A→240229RUB1,25¶53B→/D/30111810500000100000¶\
58D→/1→INN7707083893→ПЁТР¶72→17.240229.5.ELEK→10100→АБ¶";
    assert_eq!(read(202, COVER), Ok(sheet(cover)));
    let joined = COVER.replace("A|//B", "AB");
    assert_eq!(write(cover), Ok(message(&joined)));
    assert_eq!(read(103, PLAIN).map(|sheet| sheet.len() > 9), Ok(true));
}

#[test]
fn what_callers_get() {
    let m = message(SIGNED);
    assert_eq!(kopecks(103, &m), Ok(150_050));
    assert_eq!(date(103, &m), Ok(20_240_229));
    assert_eq!(date(103, &message(PLAIN)), Ok(19_800_229));
    assert_eq!(kopecks(103, &message(PLAIN)), Ok(0));
    assert_eq!(kopecks(202, &message(COVER)), Ok(125));
    assert_eq!(kopecks(202, &m), refuse(5, 15));
    let (start, end) = content(103, &m, 4).unwrap();
    assert_eq!(m[start..end], *b"/40702\r\n'NORD'");
    assert_eq!(content(103, &m, 5), None);
    assert_eq!(content(103, &m, 14), None);
    assert_eq!(content(202, &m, 0), None);
    let mut list = [9; 25];
    assert_eq!(check(103, &m, &mut list[..23]), refuse(17, 24));
    assert_eq!(check(103, &m, &mut list), Ok((8, 0b1110_0101_1011)));
    assert_eq!(list[24], 9);
    assert_eq!(
        to_sheet(103, &m, &mut [0; 10]),
        refuse(17, SIGNED_SHEET.chars().count())
    );
}

#[test]
fn contents_8() {
    let eight = |kind, m: &str, from: &str, to: &str, place: &str| {
        assert_eq!(
            refused(kind, m, from, to),
            (8, place.to_string()),
            "{from} to {to}"
        );
    };
    for reference in ["", "+", "/A", "A/", "A//B", "AAAABBBBCCCCDDDDE", "A|A"] {
        let m = message(&PLAIN.replacen(":20:A|", &format!(":20:{reference}|"), 1));
        assert_eq!(check(103, &m, &mut [0; 42]), refuse(8, 9), "{reference}");
    }
    eight(103, PLAIN, "S01", "S15", "S15\r");
    eight(103, PLAIN, "S01", "S27", "S27\r");
    eight(103, PLAIN, "S01", "S00", "S00\r");
    eight(103, PLAIN, "RUB0,", "usd0,", "8002");
    eight(103, PLAIN, "RUB0,", "RUB0", "8002");
    eight(103, PLAIN, "RUB0,", "RUB,00", "8002");
    eight(103, PLAIN, "RUB0,", "RUB0,000", "8002");
    eight(103, PLAIN, "RUB0,", "RUB41709.00", "8002");
    eight(103, PLAIN, "RUB0,", "RUB123456789012345,", "8002");
    eight(103, PLAIN, ":50K:INN", ":50K:INN1", "INN1");
    eight(
        103,
        PLAIN,
        ":50K:INN7707083893.KPP770701001|NORD",
        ":50K://1|NORD",
        "//1\r",
    );
    eight(103, PLAIN, "|NORD", "", "INN7");
    eight(103, PLAIN, ":59:/1|", ":59:", "INN7");
    eight(103, PLAIN, "PETR", "A|B|C|D", "/1\r\n");
    eight(103, PLAIN, "SABRRUMM|", "SABRRUM1X|", "//RU");
    eight(103, PLAIN, "(VO10100)|A|", "(VO10100)|", "(VO1");
    eight(103, PLAIN, "(VO10100)|A|", "(VO1010)|A|", "(VO1");
    eight(103, PLAIN, "(VO10100)|A|", "'(VO10100)'|A|", "'(VO");
    eight(103, PLAIN, "POST", "MAIL", "/RPP");
    eight(103, PLAIN, "/RPP/1.", "/RPP/1234567.", "/RPP");
    eight(103, PLAIN, ".791231", ".01.791231", "/RPP");
    eight(103, PLAIN, ".791231", ".791231.1", "/RPP");
    eight(103, PLAIN, ".791231", ".791231.001", "/RPP");
    eight(103, PLAIN, ".791231", ".7912", "/RPP");
    eight(103, PLAIN, ":77B:/A", ":77B:A", "A\r\n-");
    eight(202, COVER, "//B", "//", "/RPP");
    eight(202, COVER, "'(VO10100)'A|//B", "'(VO10100)'", "/RPP");
    eight(202, COVER, "INN7707083893", "INN770708389312", "/1\r\n");
    eight(202, COVER, "//B", "//B|//B|//B|//B|//B", "/RPP");
}

#[test]
fn numbers_9_to_13() {
    let number = |m: &str, from: &str, to: &str, number: u32, place: &str| {
        let kind = if m == COVER { 202 } else { 103 };
        assert_eq!(
            refused(kind, m, from, to),
            (number, place.to_string()),
            "{from} to {to}"
        );
    };
    number(PLAIN, "(VO10100)|A|", "(VO10100)A|", 0, "");
    number(PLAIN, "800229", "810229", 9, "8102");
    number(PLAIN, "800229", "790001", 9, "7900");
    number(PLAIN, "791231", "791232", 9, "7912");
    number(PLAIN, "240229", "230229", 9, "2302");
    // An RPP line with either ending, with both and with none: 9 looks at the
    // dates alone.
    number(PLAIN, ".791231", "", 0, "");
    number(PLAIN, ".791231", ".01", 0, "");
    number(PLAIN, ".791231", ".99", 0, "");
    number(PLAIN, ".791231", ".791231.99", 0, "");
    number(PLAIN, "791231", "791232.01", 9, "7912");
    number(PLAIN, "240229.5.POST.791231", "240230.5.POST.01", 9, "2402");
    number(PLAIN, "/RPP/1.", "/RPP/000000.", 0, "");
    let printed = [
        "999999.240229.5.ELEK.240229.01",
        "346.031014.6.POST.090324.01",
        "011.090206.5.ELEK.090213.06",
    ];
    for line in printed {
        number(PLAIN, "1.240229.5.POST.791231", line, 0, "");
    }
    number(COVER, "17.240229", "17.240230", 9, "2402");
    number(PLAIN, "RUB", "USD", 10, "USD0");
    number(COVER, "RUB", "RUR", 10, "RUR1");
    number(PLAIN, ":57D:/30101810400000000225|BANK|", "", 11, ":56A");
    number(PLAIN, "0000225|SABR", "0000226|SABR", 12, "//RU");
    number(PLAIN, "|:77B:/A", "", 13, ":26T");
    number(PLAIN, ":26T:S01|", "", 13, ":77B");
    number(
        PLAIN,
        "INN7707083893.KPP770701001",
        "INN7707083893",
        13,
        ":26T",
    );
    number(PLAIN, "INN770708389312.KPP770701001", "PETR", 13, ":26T");
    number(
        PLAIN,
        "INN770708389312.KPP770701001|",
        "INN7707083893.KPP770701001|",
        0,
        "",
    );
}

#[test]
fn texts_14() {
    let name = |to: &str, number: u32| {
        let place = match number {
            0 => String::new(),
            _ => message(to)
                .iter()
                .chain(b"\r\n:5")
                .take(4)
                .map(|&b| b as char)
                .collect(),
        };
        assert_eq!(refused(103, SIGNED, "'NORD'", to), (number, place), "{to}");
    };
    for wrong in [
        "W", "''", "'A", "'/'", "''-", "':'A", "I''NN7", "INN''7", "'INN'7", "'INN7'",
    ] {
        name(wrong, 14);
    }
    for fine in ["'I'NN7", "INN", "/A", "'A-'", "INNA", "''A"] {
        name(fine, 0);
    }
    // Outside the tax place such a name is a name.
    assert_eq!(refused(103, SIGNED, "OOO PoTR", "INN7"), (0, String::new()));
    assert_eq!(
        refused(103, SIGNED, "OOO PoTR", "'-'"),
        (14, "'-'\r".into())
    );
    assert_eq!(
        refused(103, SIGNED, "OPLATA 'CNTR' 5", "|''"),
        (14, "''\r\n".into())
    );
    assert_eq!(
        refused(103, SIGNED, "OPLATA 'CNTR' 5", "'A|B'"),
        (0, String::new())
    );
    assert_eq!(refused(202, COVER, "A|//B", "|//W"), (14, "W\r\n-".into()));
    assert_eq!(refused(202, COVER, "A|//B", "W|//W"), (14, "W\r\n/".into()));
}

/// The example's sheet with this text in the record of 70, with the sign or
/// without, and this behind the last record.
fn sheet_with(sign: &str, text: &str, behind: &str) -> String {
    let record = format!("70→10100→{text}¶");
    let sheet = SIGNED_SHEET.replace("70→10100→ОПЛАТА CNTR 5¶", &record);
    let sheet = sheet.replace("20→+A17", &format!("20→{sign}A17"));
    let sheet = if sign.is_empty() {
        sheet.replace("ООО ПЁТР", "PETR")
    } else {
        sheet
    };
    sheet + behind
}

/// The lines of a field of a written message.
fn lines_of(m: &[u8], tag: &str) -> Option<Vec<String>> {
    let m = std::str::from_utf8(m).expect("a message of the x set");
    let field = m.split(&format!("\r\n:{tag}:")).nth(1)?;
    let content = field.split("\r\n:").next().unwrap_or(field);
    let content = content.split("\r\n-}").next().unwrap_or(content);
    Some(content.split("\r\n").map(str::to_string).collect())
}

/// How long the lines of 70 and of 72 are.
fn laid(sign: &str, text: &str, behind: &str) -> Result<(Vec<usize>, Vec<usize>), Refusal> {
    let m = write(&sheet_with(sign, text, behind))?;
    let lengths = |tag| {
        let lines = lines_of(&m, tag).unwrap_or_default();
        lines.iter().map(String::len).collect::<Vec<_>>()
    };
    Ok((lengths("70"), lengths("72")))
}

/// The lines of 70 where nothing may run on: a second record of 70 sees to it.
/// 16 goes before the 6 of that record.
fn details(sign: &str, text: &str) -> Result<Vec<usize>, Refusal> {
    match write(&sheet_with(sign, text, "70→10100→A¶")) {
        Err(Refusal { number: 6, .. }) => laid(sign, text, "").map(|(details, _)| details),
        Err(refusal) => Err(refusal),
        Ok(_) => panic!("two fields 70"),
    }
}

#[test]
fn breaking() {
    assert_eq!(details("", &"A".repeat(131)), Ok(vec![35; 4]));
    assert_eq!(details("", &"A".repeat(132)), refuse(16, 0));
    assert_eq!(details("+", &"Я".repeat(129)), Ok(vec![35; 4]));
    assert_eq!(details("+", &"Я".repeat(130)), refuse(16, 0));
    assert_eq!(
        details("", &format!("{}-", "A".repeat(26))),
        Ok(vec![34, 2])
    );
    assert_eq!(
        details("", &format!("{}{}", "A".repeat(26), "-".repeat(36))),
        refuse(16, 0)
    );
    assert_eq!(
        details("", &format!("A{}", "-".repeat(34))),
        Ok(vec![9, 35])
    );
    assert_eq!(details("", &"-".repeat(26)), Ok(vec![35]));
    assert_eq!(details("", &"-".repeat(27)), refuse(16, 0));
    assert_eq!(details("+", &"-".repeat(25)), refuse(16, 0));
}

const RPP: &str = "72→1.240229.5.POST¶";

#[test]
fn the_whole_goes_first() {
    assert_eq!(
        laid("+", &"Ж".repeat(129), RPP),
        Ok((vec![35; 4], vec![20]))
    );
    assert_eq!(
        laid("+", &"Ж".repeat(129), ""),
        Ok((vec![35; 4], Vec::new()))
    );
    // One letter more: 70 is full, the letter runs on behind the RPP line.
    assert_eq!(
        laid("+", &"Ж".repeat(130), RPP),
        Ok((vec![35; 4], vec![20, 6]))
    );
    assert_eq!(laid("", &"A".repeat(132), ""), Ok((vec![35; 4], vec![6])));
}

#[test]
fn the_longest_first_half_decides() {
    // A later cut costs two bytes more, and those are too many.
    let text = format!("{}{}", "Ж".repeat(125), "A".repeat(72));
    let rest = vec![35, 35, 2 + 74 - 30 - 33];
    assert_eq!(
        laid("+", &text, ""),
        Ok((vec![35, 35, 35, 136 - 105], rest))
    );
    let text = format!("{}{}{}", "Ж".repeat(100), "A".repeat(5), "Ж".repeat(92));
    let rest = vec![35, 35, 2 + 70 - 30 - 33];
    assert_eq!(laid("+", &text, ""), Ok((vec![35; 4], rest)));
    // Between two halves of one word both sides close.
    let m = write(&sheet_with("+", &"A".repeat(140), "")).unwrap();
    let details = lines_of(&m, "70").unwrap().concat();
    assert_eq!(details, format!("'(VO10100)''{}'", "A".repeat(127)));
    let rest = lines_of(&m, "72").unwrap().concat();
    assert_eq!(rest, format!("/NZP/'{}'", "A".repeat(13)));
    // A mark before the cut leaves the Latin side with its next letter.
    let text = format!("{}A--A{}", "Ж".repeat(124), "Ж".repeat(9));
    let m = write(&sheet_with("+", &text, "")).unwrap();
    assert!(lines_of(&m, "70").unwrap().concat().ends_with("J'A'--"));
    assert_eq!(lines_of(&m, "72").unwrap(), ["/NZP/'A'JJJJJJJJJ"]);
}

#[test]
fn what_72_holds_and_what_both_hold() {
    let dashes = |count: usize| "-".repeat(count);
    let full = vec![20, 35, 35, 35, 35, 35];
    assert_eq!(laid("", &dashes(188), RPP), Ok((vec![35], full)));
    assert_eq!(laid("", &dashes(189), RPP), refuse(16, 0));
    let rest = vec![35, 35, 35, 35, 35, 15];
    assert_eq!(laid("", &dashes(201), ""), Ok((vec![35], rest)));
    assert_eq!(laid("", &dashes(202), ""), refuse(16, 0));
    assert!(laid("+", &"Ж".repeat(199), "").is_ok());
    assert_eq!(laid("+", &"Ж".repeat(200), ""), refuse(16, 0));
    assert!(laid("", &"A".repeat(201), RPP).is_ok());
    assert_eq!(laid("", &"A".repeat(202), RPP), refuse(16, 0));
    // 26 letters and 36 barred bytes don't fit 70 alone.
    let text = format!("{}{}", "A".repeat(26), dashes(36));
    assert_eq!(laid("", &text, ""), Ok((vec![34, 35], vec![5 + 2])));
}

#[test]
fn where_the_rest_goes() {
    let long = "A".repeat(140);
    let number = |behind: &str| {
        let refused = write(&sheet_with("", &long, behind)).expect_err("a refusal");
        refused.number
    };
    // Before the first 77B: 13 and not 6, as 26T is missing.
    assert_eq!(number("77B→/A¶"), 13);
    // The one record of 72 takes it, whatever it holds and wherever it is.
    assert_eq!(number("72→X¶"), 8);
    assert_eq!(number("77B→/A¶72→1.240229.5.POST¶"), 6);
    // A second 77B comes behind the new 72.
    assert_eq!(number("77B→/A¶77B→/A¶"), 6);
    // Two records of a tag: nothing runs on, and 16 comes before 6.
    assert_eq!(number("70→10100→A¶"), 16);
    assert_eq!(number(&format!("{RPP}{RPP}")), 16);
    let twice = sheet_with("", "A", &format!("{RPP}{RPP}"));
    assert_eq!(write(&twice), refuse(6, 0));
    // 72 and 77B before 70: the message is built all the same, and then 7.
    let whole = write(&sheet_with("", &long, "")).unwrap().len();
    for (early, line) in [
        ("72→1.240229.5.POST¶", "/RPP/1.240229.5.POST|"),
        ("77B→/A¶", ":77B:/A|"),
    ] {
        let swapped = sheet_with("", &long, "").replace("20→A", &format!("{early}20→A"));
        assert_eq!(write(&swapped), refuse(7, 0));
        let answer = to_message(&sheet(&swapped), &mut []);
        assert_eq!(answer, refuse(17, whole + message(line).len()));
    }
    let m = write(&sheet_with("", &long, "")).unwrap();
    assert!(m.ends_with(b":71A:OUR\r\n:72:/NZP/AAAAAAAAA\r\n-}"));
}

/// The example's message with these lines of 70 and with this 72.
fn message_with(details: &str, note: &str) -> String {
    let m = SIGNED.replace("OPLATA 'CNTR' 5", details);
    m.replace(":71A:OUR|", &format!(":71A:OUR|:72:{note}|"))
}

/// The refusal of a message; its place as what stands there.
fn refusal(m: &str) -> (u32, String) {
    refused(103, m, "", "")
}

#[test]
fn the_form_of_72() {
    let rpp = "/RPP/1.240229.5.POST";
    let number = |note: &str| refusal(&message_with("A", note)).0;
    let long = "J".repeat(30);
    let later = "J".repeat(33);
    for right in [
        rpp.to_string(),
        "/NZP/A".to_string(),
        format!("{rpp}|/NZP/A"),
        "/NZP/A|//B|//B|//B|//B|//B".to_string(),
        format!("{rpp}|/NZP/A|//B|//B|//B|//B"),
        format!("/NZP/{long}|//{later}"),
        "/NZP/-|//:|///".to_string(),
        "/NZP//NZP/".to_string(),
    ] {
        assert_eq!(number(&right), 0, "{right}");
    }
    for wrong in [
        "/NZP/".to_string(),
        "/NZP/A|//".to_string(),
        "/NZP/A|B".to_string(),
        "/NZP/A|/B".to_string(),
        "//A".to_string(),
        format!("{rpp}|//A"),
        format!("{rpp}|{rpp}"),
        format!("/NZP/A|{rpp}"),
        format!("{rpp}|A"),
        "/NZP/A|/NZP/A".to_string(),
        "/NZP/A|//B|//B|//B|//B|//B|//B".to_string(),
        format!("{rpp}|/NZP/A|//B|//B|//B|//B|//B"),
        format!("/NZP/J{long}"),
        format!("/NZP/J|//J{later}"),
        "/RPP/1.240229.5.MAIL|/NZP/A".to_string(),
    ] {
        assert_eq!(number(&wrong), 8, "{wrong}");
    }
    // A code there is text.
    assert_eq!(number("/NZP/'(VO12345)'"), 0);
    assert_eq!(number("/NZP/(VO12345)"), 0);
    // 70 keeps its own rule.
    assert_eq!(refusal(&message_with("", "/NZP/A")).0, 8);
}

#[test]
fn the_sheet_of_a_message_that_runs_on() {
    let read_with = |details: &str, note: &str| read(103, &message_with(details, note));
    let sheet_of = |text: &str, note: &str| sheet(&sheet_with("+", text, note));
    assert_eq!(read_with("A", "/NZP/B"), Ok(sheet_of("АБ", "")));
    let both = "/RPP/1.240229.5.POST|/NZP/B|//'B|//C'";
    assert_eq!(read_with("A|A", both), Ok(sheet_of("ААБBC", RPP)));
    // A 72 without an RPP line has no record, but its bit, its place and its
    // content.
    let m = message(&message_with("A", "/NZP/B"));
    let mut list = [0; 27];
    assert_eq!(check(103, &m, &mut list), Ok((9, 0b1_1110_0101_1011)));
    let (start, end) = content(103, &m, 12).unwrap();
    assert_eq!(m[start..end], *b"/NZP/B");
    assert_eq!(list[25..], [start as u32, end as u32]);
}

#[test]
fn each_half_is_a_text() {
    let fourteen = |details: &str, note: &str, place: &str| {
        let m = message_with(details, note);
        assert_eq!(refusal(&m), (14, place.to_string()), "{m}");
    };
    fourteen("'A", "/NZP/B'", "'A\r\n");
    fourteen("A", "/NZP/B'", "B'\r\n");
    fourteen("A", "/NZP/''", "''\r\n");
    fourteen("A", "/RPP/1.240229.5.POST|/NZP/A|//W", "A\r\n/");
    fourteen("W", "/NZP/W", "W\r\n:");
    // Without the sign there is none.
    let m = message_with("A", "/NZP/'W").replace("'(VO10100)'", "(VO10100)");
    assert_eq!(refusal(&m.replace(":20:+", ":20:")).0, 0);
}

#[test]
fn no_more_than_210_bytes() {
    let line = "J".repeat(35);
    let details = format!("{}|{line}|{line}|{line}", "J".repeat(24));
    let note = |count: usize| {
        format!(
            "/NZP/{}|//{}|//{}",
            "J".repeat(30),
            "J".repeat(33),
            "J".repeat(count)
        )
    };
    assert_eq!(refusal(&message_with(&details, &note(7))).0, 0);
    let over = message_with(&details, &note(8));
    assert_eq!(refusal(&over), (21, "/NZP".to_string()));
    let behind_rpp = message_with(&details, &format!("/RPP/1.240229.5.POST|{}", note(8)));
    assert_eq!(refusal(&behind_rpp), (21, "/NZP".to_string()));
    assert_eq!(read(103, &over).map(|_| ()), refuse(21, over_place(&over)));
    // Apostrophes that stand for nothing count; 14 goes before, 17 behind.
    let idle = message_with(&details, &note(8).replace("/NZP/JJ", "/NZP/''"));
    assert_eq!(refusal(&idle), (21, "/NZP".to_string()));
    let open = message_with(&details, &note(8).replace("/NZP/J", "/NZP/'"));
    assert_eq!(refusal(&open).0, 14);
    assert_eq!(
        check(103, &message(&over), &mut []),
        refuse(21, over_place(&over))
    );
}

fn over_place(m: &str) -> usize {
    let m = message(m);
    let place = m.windows(5).position(|part| part == b"/NZP/");
    place.expect("a rest")
}

/// Read, but not to be written: with the sign, behind an RPP line.
#[test]
fn a_read_message_that_is_16() {
    let later = format!("''{}", "-".repeat(33));
    let details = format!("{}|{later}|{later}|{later}", "-".repeat(24));
    let rest = format!(
        "/NZP/{}|//{}|//{}",
        "-".repeat(30),
        "-".repeat(33),
        "-".repeat(7)
    );
    let text = "-".repeat(193);
    let m = message_with(&details, &format!("/RPP/1.240229.5.POST|{rest}"));
    assert_eq!(read(103, &m), Ok(sheet(&sheet_with("+", &text, RPP))));
    assert_eq!(laid("+", &text, RPP), refuse(16, 0));
    // Without the RPP line it is written.
    assert_eq!(
        read(103, &message_with(&details, &rest)),
        Ok(sheet(&sheet_with("+", &text, "")))
    );
    assert!(laid("+", &text, "").is_ok());
    // What stood in 70 alone is written with a new 72.
    let m = SIGNED.replace("OPLATA 'CNTR' 5", &format!("{}|''--", "-".repeat(23)));
    assert!(read(103, &m).is_ok());
    assert_eq!(laid("+", &"-".repeat(25), ""), Ok((vec![35], vec![6])));
}

/// Whether code and text can be divided in any way into four lines of 35, no
/// later one beginning with `:` or `-`.
fn divides(text: &[u8]) -> bool {
    let whole = [b"(VO10100)", text].concat();
    let may_break = |at: usize| at >= 9 && (at == whole.len() || !matches!(whole[at], b':' | b'-'));
    let mut ends = vec![0];
    for _ in 0..4 {
        let next = |from: &usize| (from + 1..=from + 35).filter(|&at| at <= whole.len());
        let mut reached: Vec<usize> = ends
            .iter()
            .flat_map(next)
            .filter(|&at| may_break(at))
            .collect();
        reached.sort();
        reached.dedup();
        if reached.contains(&whole.len()) {
            return true;
        }
        ends = reached;
    }
    false
}

#[test]
fn details_are_refused_only_if_nothing_divides_them() {
    let mut random = Random::new(5);
    let mut fitting = 0;
    for _ in 0..3_000 {
        let length = random.between(1, 135);
        let often = random.between(1, 9);
        let mut text = vec![b'A'; length];
        for _ in 0..often {
            let from = random.below(length);
            let run = random.between(1, 36);
            text[from..length.min(from + run)].fill(*random.pick(b"-:"));
        }
        let fits = divides(&text);
        let lines = details("", std::str::from_utf8(&text).unwrap());
        assert_eq!(lines.is_ok(), fits, "{text:?}");
        assert_eq!(
            lines.map_or(length + 9, |lines| lines.iter().sum()),
            length + 9
        );
        fitting += usize::from(fits);
    }
    assert!((500..2_500).contains(&fitting), "{fitting}");
}

#[test]
fn sheets_19() {
    for (bad, place) in [
        ("", 0),
        ("¶", 0),
        ("MT¶", 0),
        ("MT→10A¶", 0),
        ("MT→103", 0),
        ("MT→103→X¶", 0),
        ("20→A¶MT→103¶", 0),
        ("MT→103¶¶", 7),
        ("MT→103¶20¶", 7),
        ("MT→103¶20→¶", 7),
        ("MT→103¶20→A→¶", 7),
        ("MT→103¶20→A→-¶", 7),
        ("MT→103¶2→A¶", 7),
        ("MT→103¶20a→A¶", 7),
        ("MT→103¶MT→103¶", 7),
        ("MT→103¶20→A", 7),
        ("MT→103¶20→-¶70→1234→A¶", 12),
        ("MT→103¶70→12345→A→B¶", 7),
        ("MT→103¶72→A→B¶", 7),
        ("MT→202¶72→→12345→¶", 7),
        ("MT→202¶70→→12345→A¶", 7),
        ("MT→103¶59→A→ИНН7¶20→+", 7),
        ("MT→103¶50K→ИНН7¶20→+A¶", 7),
        ("MT→103¶50K→/→ИНН7¶20→+A¶", 7),
    ] {
        assert_eq!(write(bad), refuse(19, place), "{bad}");
    }
}

#[test]
fn the_writers_other_numbers() {
    for (sheet, number, place) in [
        ("MT→104¶70→A→B→W¶", 18, 0),
        ("MT→104¶70→А¶", 18, 0),
        ("MT→103¶", 7, 0),
        ("MT→103¶70→12345→-:¶", 7, 0),
        ("MT→103¶20→A¶59→А¶", 15, 15),
        ("MT→103¶59→А'¶20→+¶", 15, 11),
        ("MT→103¶59→/А¶20→+¶", 15, 11),
        ("MT→202¶72→А→12345→A¶", 15, 10),
        ("MT→202¶72→→12345→А¶", 15, 17),
        ("MT→202¶50K→А¶20→+¶", 15, 11),
        ("MT→103¶50K→INN7'¶20→+¶", 7, 0),
        ("MT→103¶50K→/1→ИНН¶20→+¶", 7, 0),
        ("MT→103¶59→А¶59→А→Б¶", 15, 10),
        ("MT→103¶20→A¶20→A¶23B→Б¶", 15, 21),
    ] {
        assert_eq!(write(sheet), refuse(number, place), "{sheet}");
    }
    let own = SIGNED_SHEET.replace("240229RUB", "240230RUB");
    assert_eq!(write(&own), refuse(9, 0));
    let mut out = [5; 40];
    assert_eq!(
        to_message(&sheet(&own), &mut out),
        refuse(17, message(SIGNED).len())
    );
    assert_eq!(out, [5; 40]);
    let long = SIGNED_SHEET.replace("→NORD", &"→ZЯZЯZЯ".repeat(1_000));
    assert_eq!(write(&long), refuse(1, 0));
    assert_eq!(write(&"A".repeat(10_001)), refuse(1, 10_000));
}
