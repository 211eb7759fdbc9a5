//! The check of a whole message, and what callers get from a right one.
//!
//! 18 and 1 to 7 come from the frame. Then each number from 8 to 14 in turn,
//! at its earliest place, and 21.

use super::forms::{
    begins_tax_line, endings_differ, form, right, role, rpp_dates, split_rpp, tax_line, tax_place,
    Details, Form, Joined, Layout, Role, IN_70, IN_72, MOST_DETAILS,
};
use super::frame::{fields, Field, Fields};
use super::text::{fill_reading, measure_reading};
use super::types::Tag;
use super::{refuse, Refusal};

/// Checks a message and fills the list of its fields' places; answers the
/// number of fields and the presence word.
pub fn check(kind: u32, m: &[u8], list: &mut [u32]) -> Result<(usize, u32), Refusal> {
    judged(kind, m)?.fill(list)
}

/// Start and end of the content at a place; none if the message is refused.
pub fn content(kind: u32, m: &[u8], place: u32) -> Option<(usize, usize)> {
    let fields = judged(kind, m).ok()?;
    let field = fields.at(place as usize)?;
    Some((field.start, field.end))
}

/// The amount of 32A.
pub fn kopecks(kind: u32, m: &[u8]) -> Result<u64, Refusal> {
    let amount = &value_content(kind, m)?[9..];
    let decimals = amount.len() - 1 - amount.iter().take_while(|&&b| b != b',').count();
    let digits = amount.iter().filter(|&&b| b != b',');
    let number = digits.fold(0, |number, digit| 10 * number + u64::from(digit - b'0'));
    Ok(number * 10_u64.pow(2 - decimals as u32))
}

/// The date of 32A as year * 10000 + month * 100 + day.
pub fn date(kind: u32, m: &[u8]) -> Result<u32, Refusal> {
    let (year, month, day) = year_month_day(&value_content(kind, m)?[..6]);
    Ok(10_000 * year + 100 * month + day)
}

/// The content of 32A in a message that breaks no rule.
fn value_content(kind: u32, m: &[u8]) -> Result<&[u8], Refusal> {
    let fields = judged(kind, m)?;
    let value = fields.all().iter().find(|field| field.tag == *b"32A");
    Ok(value.map_or(&[], |field| &m[field.start..field.end]))
}

/// The fields of a message that breaks no rule.
pub fn judged(kind: u32, m: &[u8]) -> Result<Fields, Refusal> {
    let fields = fields(kind, m)?;
    let message = Message {
        kind,
        m,
        fields: fields.all(),
        sign: has_sign(m, &fields),
    };
    message.contents()?;
    message.days()?;
    message.currency()?;
    message.banks_between()?;
    message.bank_codes()?;
    message.tax_fields()?;
    message.texts()?;
    message.length_of_details()?;
    Ok(fields)
}

/// Whether the texts are transliterated: 20 is the first field of both types.
pub fn has_sign(m: &[u8], fields: &Fields) -> bool {
    m[fields.all()[0].start] == b'+'
}

struct Message<'a> {
    kind: u32,
    m: &'a [u8],
    fields: &'a [Field],
    sign: bool,
}

impl<'a> Message<'a> {
    fn content(&self, field: &Field) -> &'a [u8] {
        &self.m[field.start..field.end]
    }

    fn tagged(&self, tag: Tag) -> Option<&'a Field> {
        self.fields.iter().find(|field| field.tag == tag)
    }

    fn tagged_either(&self, one: Tag, other: Tag) -> Option<&'a Field> {
        self.tagged(one).or_else(|| self.tagged(other))
    }

    /// 8: contents against their fields' forms.
    fn contents(&self) -> Result<(), Refusal> {
        for field in self.fields {
            let lines = field.lines(self.m);
            if !lines.is_some_and(|lines| right(self.kind, field.tag, self.sign, lines.all())) {
                return refuse(8, field.start);
            }
        }
        Ok(())
    }

    /// 9: the date of 32A and those of an RPP line.
    fn days(&self) -> Result<(), Refusal> {
        if let Some(field) = self.tagged(*b"32A") {
            self.day(field.start)?;
        }
        let Some(field) = self.tagged(*b"72\0") else {
            return Ok(());
        };
        if let Some((first, second)) = rpp_dates(field.first_line(self.m)) {
            self.day(field.start + first)?;
            if let Some(second) = second {
                self.day(field.start + second)?;
            }
        }
        Ok(())
    }

    fn day(&self, place: usize) -> Result<(), Refusal> {
        if is_day(&self.m[place..place + 6]) {
            Ok(())
        } else {
            refuse(9, place)
        }
    }

    /// 10: roubles only.
    fn currency(&self) -> Result<(), Refusal> {
        match self.tagged(*b"32A") {
            Some(field) if self.content(field)[6..9] != *b"RUB" => refuse(10, field.start + 6),
            _ => Ok(()),
        }
    }

    /// 11: 56 asks for 57.
    fn banks_between(&self) -> Result<(), Refusal> {
        match self.tagged_either(*b"56A", *b"56D") {
            Some(field) if self.tagged_either(*b"57A", *b"57D").is_none() => {
                refuse(11, field.colon)
            }
            _ => Ok(()),
        }
    }

    /// 12: BIK and account of a party line end alike.
    fn bank_codes(&self) -> Result<(), Refusal> {
        for field in self.fields {
            let has_party_line = matches!(&field.tag, [b'5', b'2' | b'6' | b'7', _]);
            if has_party_line && endings_differ(field.first_line(self.m)) {
                return refuse(12, field.start);
            }
        }
        Ok(())
    }

    /// 13: 26T, 77B and the tax lines with KPP ask for each other.
    fn tax_fields(&self) -> Result<(), Refusal> {
        let regulatory = self.tagged(*b"77B");
        match (self.tagged(*b"26T"), regulatory) {
            (Some(purpose), _) => {
                let whole = regulatory.is_some() && self.has_kpp(*b"50K") && self.has_kpp(*b"59\0");
                if whole {
                    Ok(())
                } else {
                    refuse(13, purpose.colon)
                }
            }
            (None, Some(regulatory)) => refuse(13, regulatory.colon),
            (None, None) => Ok(()),
        }
    }

    fn has_kpp(&self, tag: Tag) -> bool {
        let Some(lines) = self.tagged(tag).and_then(|field| field.lines(self.m)) else {
            return false;
        };
        let lines = lines.all();
        let line = lines[tax_place(tag, lines[0])];
        begins_tax_line(line) && tax_line(tag, line) == Some(true)
    }

    /// 14: with the sign, every text has a reading that harms nothing.
    fn texts(&self) -> Result<(), Refusal> {
        if !self.sign {
            return Ok(());
        }
        for field in self.fields {
            let form = form(self.kind, field.tag);
            if form == Form::Copied {
                continue;
            }
            let Some(lines) = field.lines(self.m) else {
                continue;
            };
            match form {
                Form::Details => details_text(&IN_70, lines.all(), field.start)?,
                Form::RppAndDetails => {
                    let (behind, rest) = behind_rpp(lines.all());
                    details_text(&IN_72, rest, field.start + behind)?
                }
                Form::RppAndRest => {
                    let (behind, rest) = behind_rpp(lines.all());
                    rest_text(rest, field.start + behind)?
                }
                _ => names(form, field, lines.all())?,
            }
        }
        Ok(())
    }

    /// 21: in a 103 the code and both texts, as they stand, aren't too long.
    fn length_of_details(&self) -> Result<(), Refusal> {
        let (Some(details), Some(note)) = (self.tagged(*b"70\0"), self.tagged(*b"72\0")) else {
            return Ok(());
        };
        let (Some(lines), Some(note_lines)) = (details.lines(self.m), note.lines(self.m)) else {
            return Ok(());
        };
        let (behind, rest) = behind_rpp(note_lines.all());
        if rest.is_empty() {
            return Ok(());
        }
        let bytes = |lines: &[&[u8]]| lines.iter().map(|line| line.len()).sum::<usize>();
        let marks = IN_72.first_mark.len() + (rest.len() - 1) * IN_72.later_mark.len();
        if bytes(lines.all()) + bytes(rest) - marks > MOST_DETAILS {
            return refuse(21, note.start + behind);
        }
        Ok(())
    }
}

/// The lines of 72 behind an RPP line, and how far from the first they stand.
fn behind_rpp<'l, 'a>(lines: &'l [&'a [u8]]) -> (usize, &'l [&'a [u8]]) {
    let (rpp, rest) = split_rpp(lines);
    (rpp.map_or(0, |line| line.len() + 2), rest)
}

/// 14 for the names of a field.
fn names(form: Form, field: &Field, lines: &[&[u8]]) -> Result<(), Refusal> {
    let mut place = field.start;
    for (index, line) in lines.iter().enumerate() {
        let in_tax_place = match role(form, field.tag, lines[0], index, line) {
            Role::Copied => None,
            Role::Name => Some(false),
            Role::NameInTaxPlace => Some(true),
        };
        if in_tax_place.is_some_and(|in_tax_place| !name_reads_well(line, in_tax_place)) {
            return refuse(14, place);
        }
        place += line.len() + 2;
    }
    Ok(())
}

/// 14 for details that start at this place.
fn details_text(layout: &Layout, lines: &[&[u8]], start: usize) -> Result<(), Refusal> {
    let details = Details::of(layout, lines, true);
    text_reads(&details.text, start + details.offset)
}

/// 14 for the rest of the details in 72 of 103, if there is one.
fn rest_text(lines: &[&[u8]], start: usize) -> Result<(), Refusal> {
    if lines.is_empty() {
        return Ok(());
    }
    let text = Joined::of(&IN_72, lines, 0);
    text_reads(&text, start + IN_72.first_mark.len())
}

fn text_reads(text: &Joined, place: usize) -> Result<(), Refusal> {
    match measure_reading(text.bytes()) {
        Ok(1..) => Ok(()),
        _ => refuse(14, place),
    }
}

/// Whether a name has a reading, and one that can't be taken for a mark or a
/// tax line.
fn name_reads_well(name: &[u8], in_tax_place: bool) -> bool {
    let Ok(units @ 1..) = measure_reading(name) else {
        return false;
    };
    let from_apostrophe = name[0] == b'\'';
    if !from_apostrophe && !in_tax_place {
        return true;
    }
    // A name is a line, so its reading has no more bytes than that.
    let mut room = [0; super::forms::WIDTH];
    let reading = &mut room[..units];
    fill_reading(name, reading);
    let mark = from_apostrophe && matches!(reading[0], b'/' | b':' | b'-');
    !(mark || in_tax_place && begins_as_tax_line(reading))
}

/// Whether a desk text begins INN and a digit, in either alphabet.
fn begins_as_tax_line(desk: &[u8]) -> bool {
    begins_tax_line(desk) || begins_russian_tax_line(desk)
}

/// Whether a desk text begins with Russian ИНН and a digit.
pub fn begins_russian_tax_line(desk: &[u8]) -> bool {
    matches!(desk, [0xC8, 0xCD, 0xCD, digit, ..] if digit.is_ascii_digit())
}

/// Year, month and day of six digits: from 80 on in the last century.
fn year_month_day(digits: &[u8]) -> (u32, u32, u32) {
    let two =
        |place: usize| 10 * u32::from(digits[place] - b'0') + u32::from(digits[place + 1] - b'0');
    let year = two(0);
    let century = if year >= 80 { 1900 } else { 2000 };
    (century + year, two(2), two(4))
}

fn is_day(digits: &[u8]) -> bool {
    let (year, month, day) = year_month_day(digits);
    let days = match month {
        // Of 1980 to 2079 every fourth year is a leap year, 2000 too.
        2 if year.is_multiple_of(4) => 29,
        2 => 28,
        4 | 6 | 9 | 11 => 30,
        1..=12 => 31,
        _ => 0,
    };
    (1..=days).contains(&day)
}
