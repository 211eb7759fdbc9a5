//! Generated messages of both types that break no rule.

use crate::plain::text::read_text;
use crate::random::Random;
use crate::signs::{closed_bank_signs, some, CAPITALS, CAPITALS_AND_DIGITS, DIGITS, SHARED, X_SET};
use std::iter;

/// A field: its tag and the lines of its content.
#[derive(Clone)]
pub struct Field {
    pub tag: String,
    pub lines: Vec<Vec<u8>>,
}

#[derive(Clone)]
pub struct Message {
    pub kind: u32,
    pub fields: Vec<Field>,
}

impl Message {
    pub fn bytes(&self) -> Vec<u8> {
        let mut m = b"{4:\r\n".to_vec();
        for field in &self.fields {
            m.extend(format!(":{}:", field.tag).as_bytes());
            m.extend(field.lines.join(&b"\r\n"[..]));
            m.extend(b"\r\n");
        }
        m.extend(b"-}");
        m
    }
}

/// A common payment, about 500 bytes.
const COMMON: &[&str] = &[
    "{4:",
    ":20:+PAY240229-00417",
    ":23B:CRED",
    ":32A:240229RUB1500250,75",
    ":50K:/40702810900000012345",
    "INN7707083893.KPP770701001",
    "OOO TORGOVYi DOM SEVER",
    "G.MOSKVA UL.LESNAa D.5",
    ":52A://RU044525225.30101810400000000225",
    "SABRRUMM",
    ":53B:/D/30111810500000100000",
    ":57D://RU044030790.30101810900000000790",
    "PAO BANK 'NORD-WEST'",
    "G.SANKT-PETERBURG",
    ":59:/40702810700000099079",
    "INN7812014560.KPP781201001",
    "OOO PoTR I PARTNoRY",
    ":70:'(VO10100)'OPLATA PO DOGOVORU n",
    "17/5 OT 12.03.2024 ZA USLUGI 'CNTR'",
    " 44, V T.c. NDS 20 PROC.",
    ":71A:OUR",
    ":72:/RPP/417.240229.5.ELEK",
    "-}",
];

/// A common payment.
pub fn common() -> Vec<u8> {
    COMMON.join("\r\n").into_bytes()
}

/// A right message of some type, with or without the sign.
pub fn right(random: &mut Random) -> Message {
    let kind = *random.pick(&[103, 202]);
    let sign = random.once_in(2);
    right_of(random, kind, sign)
}

pub fn right_of(random: &mut Random, kind: u32, sign: bool) -> Message {
    let mut builder = Builder {
        random,
        sign,
        longest: false,
    };
    builder.message(kind)
}

/// A right message with every field present and as long as it may be.
pub fn longest(random: &mut Random, kind: u32, sign: bool) -> Message {
    let mut builder = Builder {
        random,
        sign,
        longest: true,
    };
    builder.message(kind)
}

struct Builder<'a> {
    random: &'a mut Random,
    sign: bool,
    longest: bool,
}

impl Builder<'_> {
    fn message(&mut self, kind: u32) -> Message {
        let mut message = Message {
            kind,
            fields: Vec::new(),
        };
        match kind {
            103 => self.mt103(&mut message.fields),
            _ => self.mt202(&mut message.fields),
        }
        message
    }

    fn mt103(&mut self, fields: &mut Vec<Field>) {
        // 26T asks for 77B and for a tax line with KPP in 50K and 59.
        let taxed = self.perhaps();
        fields.push(one("20", self.reference()));
        fields.push(one("23B", b"CRED".to_vec()));
        if taxed {
            fields.push(one("26T", self.purpose()));
        }
        fields.push(one("32A", self.value_date_and_amount()));
        fields.push(many("50K", self.ordering(taxed)));
        if self.perhaps() {
            fields.push(many("52A", self.bank_by_bic()));
        }
        fields.push(one("53B", self.digits_behind(b"/D/", 20)));
        self.banks_between(fields);
        fields.push(many("59", self.beneficiary(taxed, false)));
        let (details, note) = if self.sign && !self.longest && self.random.once_in(24) {
            self.crowded()
        } else {
            let details = self.details_70();
            let note = self.note_103(&details);
            (details, note)
        };
        fields.push(many("70", details));
        fields.push(one("71A", b"OUR".to_vec()));
        if !note.is_empty() {
            fields.push(many("72", note));
        }
        if taxed {
            fields.push(many("77B", self.regulatory()));
        }
    }

    fn mt202(&mut self, fields: &mut Vec<Field>) {
        fields.push(one("20", self.reference()));
        fields.push(one("21", b"NONREF".to_vec()));
        fields.push(one("32A", self.value_date_and_amount()));
        if self.perhaps() {
            fields.push(many("52A", self.bank_by_bic()));
        }
        fields.push(one("53B", self.digits_behind(b"/D/", 20)));
        self.banks_between(fields);
        if self.perhaps() {
            fields.push(many("58D", self.beneficiary(false, true)));
        } else {
            let lines = vec![self.account(), self.bic()];
            fields.push(many("58A", lines));
        }
        fields.push(many("72", self.details_72()));
    }

    /// 56 and 57: the first never without the second.
    fn banks_between(&mut self, fields: &mut Vec<Field>) {
        if !self.perhaps() {
            return;
        }
        let tags = if self.perhaps() {
            &["56A", "56D", "57A", "57D"][..]
        } else {
            &["57A", "57D"]
        };
        for pair in tags.chunks(2) {
            if self.perhaps() {
                fields.push(many(pair[1], self.bank_by_name()));
            } else {
                fields.push(many(pair[0], self.bank_by_bic()));
            }
        }
    }

    fn perhaps(&mut self) -> bool {
        self.longest || self.random.once_in(2)
    }

    /// A length within these bounds.
    fn length(&mut self, low: usize, high: usize) -> usize {
        match self.random.below(4) {
            _ if self.longest => high,
            0 => low,
            1 => high,
            _ => self.random.between(low, high),
        }
    }

    fn digits(&mut self, count: usize) -> Vec<u8> {
        some(self.random, DIGITS, count)
    }

    fn digits_behind(&mut self, mark: &[u8], count: usize) -> Vec<u8> {
        [mark, &self.digits(count)].concat()
    }

    fn reference(&mut self) -> Vec<u8> {
        loop {
            let length = self.length(1, 16);
            let mut reference = some(self.random, X_SET, length);
            if self.sign {
                reference[0] = b'+';
            }
            let slashes = reference.windows(2).any(|two| two == b"//")
                || reference.starts_with(b"/")
                || reference.ends_with(b"/");
            let signed = reference[0] == b'+';
            if !slashes && signed == self.sign && reference != b"+" {
                return reference;
            }
        }
    }

    fn purpose(&mut self) -> Vec<u8> {
        loop {
            match self.random.between(1, 26) {
                15 => {}
                purpose => return format!("S{purpose:02}").into_bytes(),
            }
        }
    }

    fn date(&mut self) -> Vec<u8> {
        let year = self.random.below(100);
        let month = self.random.between(1, 12);
        let days = match month {
            // 2000 is a leap year, so within these years every fourth is.
            2 if year.is_multiple_of(4) => 29,
            2 => 28,
            4 | 6 | 9 | 11 => 30,
            _ => 31,
        };
        let day = self.length(1, days);
        format!("{year:02}{month:02}{day:02}").into_bytes()
    }

    fn value_date_and_amount(&mut self) -> Vec<u8> {
        let decimals = self.length(0, 2);
        let whole = self.length(1, 14 - decimals);
        let mut content = self.date();
        content.extend(b"RUB");
        content.extend(self.digits(whole));
        content.push(b',');
        content.extend(self.digits(decimals));
        content
    }

    /// A BIK, at times with the account that ends as it does; or an account.
    fn party_line(&mut self) -> Vec<u8> {
        if !self.longest && self.random.once_in(3) {
            return self.digits_behind(b"/", 20);
        }
        let mut line = self.digits_behind(b"//RU04", 7);
        if self.perhaps() {
            let ending = line[line.len() - 3..].to_vec();
            line.push(b'.');
            line.extend(self.digits(17));
            line.extend(ending);
        }
        line
    }

    fn bic(&mut self) -> Vec<u8> {
        let mut bic = some(self.random, CAPITALS, 6);
        let rest = if self.perhaps() { 5 } else { 2 };
        bic.extend(some(self.random, CAPITALS_AND_DIGITS, rest));
        bic
    }

    fn bank_by_bic(&mut self) -> Vec<Vec<u8>> {
        let mut lines = Vec::new();
        if self.perhaps() {
            lines.push(self.party_line());
        }
        lines.push(self.bic());
        lines
    }

    fn bank_by_name(&mut self) -> Vec<Vec<u8>> {
        let mut lines = vec![self.party_line()];
        for _ in 0..self.length(1, 4) {
            lines.push(self.name(Spot::Anywhere));
        }
        lines
    }

    fn account(&mut self) -> Vec<u8> {
        let length = self.length(1, 34);
        loop {
            let account = some(self.random, X_SET, length);
            if account[0] != b'/' {
                return [b"/", &account[..]].concat();
            }
        }
    }

    fn tax_line(&mut self, with_kpp: bool, ten_digits: bool) -> Vec<u8> {
        let digits = if !ten_digits && self.perhaps() {
            12
        } else {
            10
        };
        let mut line = self.digits_behind(b"INN", digits);
        if with_kpp || self.perhaps() {
            line.extend(self.digits_behind(b".KPP", 9));
        }
        line
    }

    /// 50K, with or without an account.
    fn ordering(&mut self, taxed: bool) -> Vec<Vec<u8>> {
        let mut lines = Vec::new();
        if self.perhaps() {
            lines.push(self.account());
        }
        self.tax_line_and_names(&mut lines, taxed, false);
        lines
    }

    /// 59 and 58D, always with an account.
    fn beneficiary(&mut self, taxed: bool, ten_digits: bool) -> Vec<Vec<u8>> {
        let mut lines = vec![self.account()];
        self.tax_line_and_names(&mut lines, taxed, ten_digits);
        lines
    }

    /// Beside the account at most four lines, at least one of them a name.
    fn tax_line_and_names(&mut self, lines: &mut Vec<Vec<u8>>, taxed: bool, ten_digits: bool) {
        let mut most = 4;
        let mut spot = if lines.is_empty() {
            Spot::FirstAndTax
        } else {
            Spot::Tax
        };
        if taxed || self.perhaps() {
            lines.push(self.tax_line(taxed, ten_digits));
            most = 3;
            spot = Spot::Anywhere;
        }
        for _ in 0..self.length(1, most) {
            lines.push(self.name(spot));
            spot = Spot::Anywhere;
        }
    }

    fn name(&mut self, spot: Spot) -> Vec<u8> {
        let length = self.length(1, 35);
        loop {
            let name = self.text(length);
            if !matches!(name[0], b':' | b'-') && self.name_may_stand(&name, spot) {
                return name;
            }
        }
    }

    /// Bytes of the x set; with the sign, such as have a reading at times.
    fn text(&mut self, length: usize) -> Vec<u8> {
        if self.sign {
            closed_bank_signs(self.random, length)
        } else {
            some(self.random, X_SET, length)
        }
    }

    fn name_may_stand(&self, name: &[u8], spot: Spot) -> bool {
        let in_tax_place = spot != Spot::Anywhere;
        if spot == Spot::FirstAndTax && name[0] == b'/' {
            return false;
        }
        if in_tax_place && begins_with_digit_behind(b"INN", name) {
            return false;
        }
        if !self.sign {
            return true;
        }
        let Some(reading) = reading(name) else {
            return false;
        };
        let hidden_mark = name[0] == b'\'' && matches!(reading[0], b'/' | b':' | b'-');
        let tax_like = begins_with_digit_behind(b"INN", &reading)
            || begins_with_digit_behind(b"\xC8\xCD\xCD", &reading);
        !(hidden_mark || in_tax_place && tax_like)
    }

    fn vo_code(&mut self) -> Vec<u8> {
        let code = self.digits_behind(b"(VO", 5);
        if self.sign {
            [b"'", &code[..], b")'"].concat()
        } else {
            [&code[..], b")"].concat()
        }
    }

    fn details_70(&mut self) -> Vec<Vec<u8>> {
        loop {
            let lines = self.details(&[35; 4]);
            let begins_well = |line: &Vec<u8>| !matches!(line[0], b':' | b'-');
            if lines[1..].iter().all(begins_well) {
                return lines;
            }
        }
    }

    fn details_72(&mut self) -> Vec<Vec<u8>> {
        let mut lines = Vec::new();
        let mut room = vec![30, 33, 33, 33, 33, 33];
        if self.perhaps() {
            lines.push(self.rpp_line());
            room.pop();
        }
        let details = self.details(&room);
        lines.extend(marked(&details));
        lines
    }

    /// 72 of a 103: an RPP line, a rest of these details, both or neither.
    fn note_103(&mut self, details: &[Vec<u8>]) -> Vec<Vec<u8>> {
        let mut lines = Vec::new();
        if self.perhaps() {
            lines.push(self.rpp_line());
        }
        if self.perhaps() {
            let most = 6 - lines.len();
            let rest = self.rest(most, 210 - details.concat().len());
            lines.extend(marked(&rest));
        }
        lines
    }

    /// A text of its own in so many lines of 72 at most, and so many bytes.
    fn rest(&mut self, lines: usize, mut bytes: usize) -> Vec<Vec<u8>> {
        let mut lengths = Vec::new();
        for line in 0..self.length(1, lines) {
            let width = if line == 0 { 30 } else { 33 };
            let length = self.length(1, width).min(bytes);
            if length > 0 {
                lengths.push(length);
            }
            bytes -= length;
        }
        loop {
            let text = self.details_text(lengths.iter().sum());
            if !self.sign || reading(&text).is_some() {
                return in_lines(&text, &lengths);
            }
        }
    }

    /// Nearly all dashes, with apostrophes that let a line of 70 begin: read,
    /// but perhaps too much for 72 when written again.
    fn crowded(&mut self) -> (Vec<Vec<u8>>, Vec<Vec<u8>>) {
        let first = [&self.vo_code()[..], &[b'-'; 24]].concat();
        let later = [&b"''"[..], &[b'-'; 33]].concat();
        let mut details = vec![first, later.clone(), later.clone(), later];
        let last = self.random.between(1, 7);
        let mut rest = marked(&[vec![b'-'; 30], vec![b'-'; 33], vec![b'-'; last]]);
        if self.random.once_in(3) {
            // A letter somewhere gives another line a beginning.
            let line = self.random.between(1, 3);
            let place = self.random.between(2, 34);
            details[line][place] = *self.random.pick(b"JABV");
        }
        if self.random.once_in(3) {
            rest.pop();
        }
        let mut note = Vec::new();
        if !self.random.once_in(3) {
            note.push(self.rpp_line());
        }
        note.extend(rest);
        (details, note)
    }

    /// A VO code and a text behind it, in lines of at most these widths.
    fn details(&mut self, widths: &[usize]) -> Vec<Vec<u8>> {
        let count = self.length(1, widths.len());
        loop {
            let code = self.vo_code();
            let mut lengths = Vec::new();
            for (i, &width) in widths[..count].iter().enumerate() {
                let low = if i == 0 { code.len() } else { 1 };
                lengths.push(self.length(low, width));
            }
            let text = self.details_text(lengths.iter().sum::<usize>() - code.len());
            if text.is_empty() || self.sign && reading(&text).is_none() {
                continue;
            }
            return in_lines(&[code, text].concat(), &lengths);
        }
    }

    /// At times nearly all dashes, behind apostrophes that stand for nothing.
    fn details_text(&mut self, length: usize) -> Vec<u8> {
        if self.sign && self.random.once_in(8) {
            dashes(self.random, length)
        } else {
            self.text(length)
        }
    }

    fn rpp_line(&mut self) -> Vec<u8> {
        let number = self.length(1, 6);
        let mut line = self.digits_behind(b"/RPP/", number);
        line.push(b'.');
        line.extend(self.date());
        line.extend(self.digits_behind(b".", 1));
        let way = self.random.pick(&[".POST", ".TELG", ".ELEK", ".BESP"]);
        line.extend(way.as_bytes());
        if self.perhaps() {
            line.push(b'.');
            line.extend(self.date());
        }
        if self.perhaps() {
            line.extend(self.digits_behind(b".", 2));
        }
        line
    }

    fn regulatory(&mut self) -> Vec<Vec<u8>> {
        let room = self.length(0, 34);
        let mut lines = vec![[b"/", &some(self.random, X_SET, room)[..]].concat()];
        for _ in 1..self.length(1, 3) {
            let length = self.length(1, 35);
            let mut line = some(self.random, X_SET, length);
            if matches!(line[0], b':' | b'-') {
                line[0] = *self.random.pick(&SHARED[..12]);
            }
            lines.push(line);
        }
        lines
    }
}

/// Where a name stands: what it may begin with depends on it.
#[derive(Clone, Copy, PartialEq)]
enum Spot {
    /// First line of a 50K without account, which is its tax place.
    FirstAndTax,
    Tax,
    Anywhere,
}

fn one(tag: &str, line: Vec<u8>) -> Field {
    many(tag, vec![line])
}

fn many(tag: &str, lines: Vec<Vec<u8>>) -> Field {
    Field {
        tag: tag.to_string(),
        lines,
    }
}

/// Lines of details as they stand in 72.
pub fn marked(lines: &[Vec<u8>]) -> Vec<Vec<u8>> {
    let marks = [&b"/NZP/"[..]].into_iter().chain(iter::repeat(&b"//"[..]));
    let lines = lines.iter().zip(marks);
    lines.map(|(line, mark)| [mark, line].concat()).collect()
}

/// The text in lines of these lengths.
fn in_lines(mut text: &[u8], lengths: &[usize]) -> Vec<Vec<u8>> {
    let mut lines = Vec::new();
    for &length in lengths {
        let (line, behind) = text.split_at(length);
        lines.push(line.to_vec());
        text = behind;
    }
    lines
}

/// A bank text that reads as dashes alone: its apostrophes stand for nothing,
/// but let a line begin.
fn dashes(random: &mut Random, length: usize) -> Vec<u8> {
    let mut text = Vec::new();
    while text.len() < length {
        text.extend(*random.pick(&[b"--", b"--", b"''"]));
    }
    text.truncate(length);
    text
}

/// The reading of a bank text, if it has one that isn't empty.
fn reading(bank: &[u8]) -> Option<Vec<u8>> {
    let mut out = vec![0; bank.len()];
    let units = read_text(true, bank, &mut out).ok()?;
    out.truncate(units);
    (units > 0).then_some(out)
}

fn begins_with_digit_behind(mark: &[u8], text: &[u8]) -> bool {
    let behind = text.strip_prefix(mark).and_then(|rest| rest.first());
    behind.is_some_and(u8::is_ascii_digit)
}
