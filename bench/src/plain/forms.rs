//! What each field holds: its lines, their forms, and which of them are texts.

use super::frame::MOST_LINES;
use super::types::Tag;

/// The widest line.
pub const WIDTH: usize = 35;

/// What an RPP line begins with.
pub const RPP: &[u8] = b"/RPP/";

/// How details are laid out: the marks that lines begin with, the room behind
/// them, and how many lines there may be.
pub struct Layout {
    pub first_mark: &'static [u8],
    pub later_mark: &'static [u8],
    pub first_room: usize,
    pub later_room: usize,
    pub lines: usize,
}

/// Details in 70.
pub static IN_70: Layout = Layout {
    first_mark: b"",
    later_mark: b"",
    first_room: WIDTH,
    later_room: WIDTH,
    lines: 4,
};

/// Details in 72 of 202, and in 72 of 103 the rest that 70 can't hold; an RPP
/// line before them takes one of the lines.
pub static IN_72: Layout = Layout {
    first_mark: b"/NZP/",
    later_mark: b"//",
    first_room: 30,
    later_room: 33,
    lines: MOST_LINES,
};

impl Layout {
    /// How many bytes so many lines hold.
    pub fn room(&self, lines: usize) -> usize {
        self.first_room + (lines - 1) * self.later_room
    }

    /// Whether a later line may begin with this byte: a mark keeps it from
    /// being taken for a new field.
    pub fn may_begin(&self, b: u8) -> bool {
        !self.later_mark.is_empty() || !matches!(b, b':' | b'-')
    }
}

/// The most bytes that the VO code and the texts of 70 and 72 come to in a 103.
pub const MOST_DETAILS: usize = 210;

/// How a field's lines stand in the sheet.
#[derive(Clone, Copy, PartialEq)]
pub enum Form {
    /// 50K, 59, 58D: an account, a tax line, names.
    Customer,
    /// 56D, 57D: a party line and names.
    NamedBank,
    /// 70: VO code and text.
    Details,
    /// 72 in 103: the RPP line, the rest of the details, or both in this order.
    RppAndRest,
    /// 72 in 202: perhaps the RPP line, then VO code and text.
    RppAndDetails,
    /// Line for line.
    Copied,
}

/// The form of a tag in a type; tags not of the type are copied.
pub fn form(kind: u32, tag: Tag) -> Form {
    match (kind, &tag) {
        (103, b"50K" | b"59\0") | (202, b"58D") => Form::Customer,
        (103 | 202, b"56D" | b"57D") => Form::NamedBank,
        (103, b"70\0") => Form::Details,
        (103, b"72\0") => Form::RppAndRest,
        (202, b"72\0") => Form::RppAndDetails,
        _ => Form::Copied,
    }
}

/// The line where a customer's tax line may stand.
pub fn tax_place(tag: Tag, first: &[u8]) -> usize {
    match &tag {
        b"50K" if !first.starts_with(b"/") => 0,
        _ => 1,
    }
}

/// What a line or a part of a customer's or a named bank's field is.
#[derive(Clone, Copy, PartialEq)]
pub enum Role {
    Copied,
    Name,
    NameInTaxPlace,
}

/// The role of line number `index`; `first` is the field's first line, or
/// begins with it.
pub fn role(form: Form, tag: Tag, first: &[u8], index: usize, line: &[u8]) -> Role {
    match form {
        Form::NamedBank if index > 0 => Role::Name,
        Form::Customer if index == 0 && line.starts_with(b"/") => Role::Copied,
        Form::Customer if index != tax_place(tag, first) => Role::Name,
        Form::Customer if !begins_tax_line(line) => Role::NameInTaxPlace,
        _ => Role::Copied,
    }
}

/// Rule 8: whether the content is as the field's tag asks.
pub fn right(kind: u32, tag: Tag, sign: bool, lines: &[&[u8]]) -> bool {
    match &tag {
        b"20\0" => one(lines, reference),
        b"21\0" => *lines == [b"NONREF"],
        b"23B" => *lines == [b"CRED"],
        b"26T" => one(lines, purpose),
        b"32A" => one(lines, date_currency_amount),
        b"50K" | b"59\0" | b"58D" => customer(tag, lines),
        b"52A" | b"56A" | b"57A" => bank_by_bic(lines),
        b"53B" => one(lines, settlement_account),
        b"56D" | b"57D" => bank_by_name(lines),
        b"58A" => matches!(*lines, [first, second] if account(first) && bic(second)),
        b"70\0" => details(&IN_70, lines, sign),
        b"71A" => *lines == [b"OUR"],
        b"72\0" if kind == 103 => rpp_and_rest(lines),
        b"72\0" => rpp_and_details(lines, sign),
        b"77B" => regulatory(lines),
        _ => false,
    }
}

fn one(lines: &[&[u8]], form: impl Fn(&[u8]) -> bool) -> bool {
    matches!(*lines, [line] if form(line))
}

fn reference(line: &[u8]) -> bool {
    (1..=16).contains(&line.len())
        && !line.starts_with(b"/")
        && !line.ends_with(b"/")
        && !line.windows(2).any(|two| two == b"//")
        && line != b"+"
}

fn purpose(line: &[u8]) -> bool {
    match *line {
        [b'S', tens, ones] if digits(&line[1..]) => {
            let number = 10 * (tens - b'0') + (ones - b'0');
            (1..=26).contains(&number) && number != 15
        }
        _ => false,
    }
}

fn date_currency_amount(line: &[u8]) -> bool {
    line.len() >= 9
        && digits(&line[..6])
        && line[6..9].iter().all(u8::is_ascii_uppercase)
        && amount(&line[9..])
}

fn amount(amount: &[u8]) -> bool {
    let Some(comma) = amount.iter().position(|&b| b == b',') else {
        return false;
    };
    let (whole, decimals) = (&amount[..comma], &amount[comma + 1..]);
    amount.len() <= 15
        && !whole.is_empty()
        && digits(whole)
        && decimals.len() <= 2
        && digits(decimals)
}

fn settlement_account(line: &[u8]) -> bool {
    line.strip_prefix(b"/D/").is_some_and(twenty_digits)
}

fn customer(tag: Tag, lines: &[&[u8]]) -> bool {
    let with_account = lines[0].starts_with(b"/");
    if with_account && !account(lines[0]) || !with_account && tag != *b"50K" {
        return false;
    }
    let beside = &lines[with_account as usize..];
    let names = match beside {
        [first, names @ ..] if begins_tax_line(first) => {
            if tax_line(tag, first).is_none() {
                return false;
            }
            names
        }
        names => names,
    };
    beside.len() <= 4 && some_names(names)
}

fn some_names(lines: &[&[u8]]) -> bool {
    (1..=4).contains(&lines.len()) && lines.iter().all(|line| name(line))
}

fn name(line: &[u8]) -> bool {
    (1..=WIDTH).contains(&line.len())
}

fn account(line: &[u8]) -> bool {
    matches!(line, [b'/', first, rest @ ..] if *first != b'/' && rest.len() <= 33)
}

/// Such a line in the tax place is a tax line, right or wrong.
pub fn begins_tax_line(line: &[u8]) -> bool {
    matches!(line, [b'I', b'N', b'N', digit, ..] if digit.is_ascii_digit())
}

/// Whether a right tax line has a KPP; none for a wrong one.
pub fn tax_line(tag: Tag, line: &[u8]) -> Option<bool> {
    let rest = line.strip_prefix(b"INN")?;
    let count = rest.iter().take_while(|b| b.is_ascii_digit()).count();
    if count != 10 && (count != 12 || tag == *b"58D") {
        return None;
    }
    match rest[count..].strip_prefix(b".KPP") {
        Some(kpp) => (kpp.len() == 9 && digits(kpp)).then_some(true),
        None => (rest.len() == count).then_some(false),
    }
}

fn bank_by_bic(lines: &[&[u8]]) -> bool {
    match *lines {
        [one] => bic(one),
        [first, second] => party_line(first) && bic(second),
        _ => false,
    }
}

fn bank_by_name(lines: &[&[u8]]) -> bool {
    matches!(lines, [first, names @ ..] if party_line(first) && some_names(names))
}

fn bic(line: &[u8]) -> bool {
    (line.len() == 8 || line.len() == 11)
        && line[..6].iter().all(u8::is_ascii_uppercase)
        && line[6..]
            .iter()
            .all(|b| b.is_ascii_uppercase() || b.is_ascii_digit())
}

fn party_line(line: &[u8]) -> bool {
    let Some(bank) = line.strip_prefix(b"//RU") else {
        return line.strip_prefix(b"/").is_some_and(twenty_digits);
    };
    let bik = |bik: &[u8]| bik.starts_with(b"04") && digits(bik);
    match bank.len() {
        9 => bik(bank),
        30 => bik(&bank[..9]) && bank[9] == b'.' && digits(&bank[10..]),
        _ => false,
    }
}

/// Whether a right party line has a BIK and an account that end in different
/// three digits.
pub fn endings_differ(party_line: &[u8]) -> bool {
    match party_line.strip_prefix(b"//RU") {
        Some(bank) if bank.len() == 30 => bank[6..9] != bank[27..30],
        _ => false,
    }
}

/// Where the dates of a right RPP line stand in it.
pub fn rpp_dates(line: &[u8]) -> Option<(usize, Option<usize>)> {
    let rest = line.strip_prefix(RPP)?;
    let number = rest.iter().take_while(|b| b.is_ascii_digit()).count();
    let rest = &rest[number..];
    let in_form = (1..=6).contains(&number)
        && rest.len() >= 14
        && rest[0] == b'.'
        && digits(&rest[1..7])
        && rest[7] == b'.'
        && rest[8].is_ascii_digit()
        && rest[9] == b'.'
        && matches!(&rest[10..14], b"POST" | b"TELG" | b"ELEK" | b"BESP");
    if !in_form {
        return None;
    }
    let body = RPP.len() + number;
    let value_date = ends_dated(&rest[14..])?.then_some(body + 15);
    Some((body + 1, value_date))
}

/// Whether a value date stands at the end of an RPP line, before the two digits
/// or without them; none if it ends in anything else.
fn ends_dated(behind_way: &[u8]) -> Option<bool> {
    let behind_point = |part: &[u8]| part[0] == b'.' && digits(&part[1..]);
    match behind_way.len() {
        0 => Some(false),
        3 => behind_point(behind_way).then_some(false),
        7 => behind_point(behind_way).then_some(true),
        10 => {
            let (date, two) = behind_way.split_at(7);
            (behind_point(date) && behind_point(two)).then_some(true)
        }
        _ => None,
    }
}

fn rpp_and_rest(lines: &[&[u8]]) -> bool {
    match split_rpp(lines) {
        (Some(rpp), []) => rpp_dates(rpp).is_some(),
        (Some(rpp), rest) => rpp_dates(rpp).is_some() && marked(&IN_72, rest),
        (None, rest) => marked(&IN_72, rest),
    }
}

fn rpp_and_details(lines: &[&[u8]], sign: bool) -> bool {
    let (rpp, rest) = split_rpp(lines);
    rpp.is_none_or(|line| rpp_dates(line).is_some()) && details(&IN_72, rest, sign)
}

/// The RPP line in front of what else stands in 72, if there is one.
pub fn split_rpp<'l, 'a>(lines: &'l [&'a [u8]]) -> (Option<&'a [u8]>, &'l [&'a [u8]]) {
    match lines {
        [first, rest @ ..] if first.starts_with(RPP) => (Some(first), rest),
        _ => (None, lines),
    }
}

/// Details: the VO code first, and a byte behind it.
fn details(layout: &Layout, lines: &[&[u8]], sign: bool) -> bool {
    marked(layout, lines)
        && behind_vo_code(&lines[0][layout.first_mark.len()..], sign)
            .is_some_and(|text| !text.is_empty() || lines.len() > 1)
}

/// A mark on each line, and some of the room behind it used.
fn marked(layout: &Layout, lines: &[&[u8]]) -> bool {
    let Some((first, later)) = lines.split_first() else {
        return false;
    };
    let within = |line: &[u8], mark: &[u8], room: usize| {
        let used = line.strip_prefix(mark);
        used.is_some_and(|used| (1..=room).contains(&used.len()))
    };
    let later_within = |line: &&[u8]| within(line, layout.later_mark, layout.later_room);
    lines.len() <= layout.lines
        && within(first, layout.first_mark, layout.first_room)
        && later.iter().all(later_within)
}

/// The VO code with the sign's two apostrophes, or without.
pub fn vo_code_length(sign: bool) -> usize {
    if sign {
        11
    } else {
        9
    }
}

/// What stands behind the VO code on the line that it begins.
pub fn behind_vo_code(line: &[u8], sign: bool) -> Option<&[u8]> {
    let (opening, closing): (&[u8], &[u8]) = if sign {
        (b"'(VO", b")'")
    } else {
        (b"(VO", b")")
    };
    let (code, text) = line.strip_prefix(opening)?.split_at_checked(5)?;
    digits(code).then_some(())?;
    text.strip_prefix(closing)
}

fn regulatory(lines: &[&[u8]]) -> bool {
    lines.len() <= 3 && lines[0].starts_with(b"/") && lines.iter().all(|line| name(line))
}

fn twenty_digits(text: &[u8]) -> bool {
    text.len() == 20 && digits(text)
}

pub fn digits(text: &[u8]) -> bool {
    text.iter().all(u8::is_ascii_digit)
}

/// Right details: the VO code's digits, and the text.
pub struct Details {
    /// The VO code's five digits.
    pub code: [u8; 5],
    pub text: Joined,
    /// How far from the details' first byte the text's first byte stands.
    pub offset: usize,
}

impl Details {
    pub fn of(layout: &Layout, lines: &[&[u8]], sign: bool) -> Details {
        let code_start = layout.first_mark.len() + 3 + sign as usize;
        let mut offset = layout.first_mark.len() + vo_code_length(sign);
        let mut code = [0; 5];
        code.copy_from_slice(&lines[0][code_start..code_start + 5]);
        let text = Joined::of(layout, lines, vo_code_length(sign));
        if lines[0].len() == offset {
            // The code ends its line: behind CR LF and the next line's mark.
            offset += 2 + layout.later_mark.len();
        }
        Details { code, text, offset }
    }
}

/// The lines of right details behind their marks, with nothing between.
pub struct Joined {
    bytes: [u8; 200],
    length: usize,
}

impl Joined {
    /// All behind so many bytes of code.
    pub fn of(layout: &Layout, lines: &[&[u8]], code: usize) -> Joined {
        let mut joined = Joined {
            bytes: [0; 200],
            length: 0,
        };
        joined.add(&lines[0][layout.first_mark.len() + code..]);
        for line in &lines[1..] {
            joined.add(&line[layout.later_mark.len()..]);
        }
        joined
    }

    fn add(&mut self, part: &[u8]) {
        self.bytes[self.length..self.length + part.len()].copy_from_slice(part);
        self.length += part.len();
    }

    pub fn bytes(&self) -> &[u8] {
        &self.bytes[..self.length]
    }
}
