//! Sheet to message.
//!
//! The records are judged and the message is built in one walk; what the walk
//! finds is then named in the order of the rules. Details of a 103 that 70 can't
//! hold whole are put in behind the walk, when it is known what 72 there is.

use super::breaking::put;
use super::check::{begins_russian_tax_line, judged};
use super::forms::{
    digits, form, role, vo_code_length, Form, Layout, Role, IN_70, IN_72, MOST_DETAILS, RPP,
};
use super::run_on::Whole;
use super::text::{fill_writing, first_missing, measure_writing, X_SET};
use super::types::{places, Tag};
use super::{refuse, Refusal};

/// The longest sheet.
pub const SHEET_LIMIT: usize = 10_000;

/// Writes the message of a sheet; answers the bytes written to `out`.
pub fn to_message(sheet: &[u8], out: &mut [u8]) -> Result<usize, Refusal> {
    if sheet.len() > SHEET_LIMIT {
        return refuse(1, SHEET_LIMIT);
    }
    let Some((kind, records)) = kind_and_records(sheet) else {
        return refuse(19, 0);
    };
    let mut build = Build::new(kind, sheet.len(), has_sign(records));
    for record in Records(records, sheet.len() - records.len()) {
        if build.record(&record).is_none() {
            return refuse(19, record.start);
        }
    }
    if places(kind).is_none() {
        return refuse(18, 0);
    }
    let message = build.finish()?;
    let Some(room) = out.get_mut(..message.len()) else {
        return refuse(17, message.len());
    };
    if let Err(own) = judged(kind, &message) {
        return refuse(own.number, 0);
    }
    room.copy_from_slice(&message);
    Ok(message.len())
}

/// The type in the first record, and all behind that record.
fn kind_and_records(sheet: &[u8]) -> Option<(u32, &[u8])> {
    match sheet {
        [b'M', b'T', b'\t', a, b, c, b'\n', records @ ..] if digits(&[*a, *b, *c]) => {
            let value = |digit: &u8| u32::from(digit - b'0');
            Some((100 * value(a) + 10 * value(b) + value(c), records))
        }
        _ => None,
    }
}

/// The sign comes from the first record of 20, whatever is wrong with it.
fn has_sign(records: &[u8]) -> bool {
    let reference = Records(records, 0).find(|record| record.tag == b"20");
    reference.is_some_and(|record| {
        record
            .content
            .is_some_and(|content| content.starts_with(b"+"))
    })
}

/// A record: its tag, and all behind the tab that follows it.
struct Record<'a> {
    start: usize,
    tag: &'a [u8],
    content: Option<&'a [u8]>,
    /// Whether an LF ends it.
    ended: bool,
}

/// The records of these bytes, which start at this place of the sheet.
struct Records<'a>(&'a [u8], usize);

impl<'a> Iterator for Records<'a> {
    type Item = Record<'a>;

    fn next(&mut self) -> Option<Record<'a>> {
        let Records(rest, start) = *self;
        if rest.is_empty() {
            return None;
        }
        let end = rest.iter().position(|&b| b == b'\n');
        let bytes = &rest[..end.unwrap_or(rest.len())];
        let next = end.map_or(rest.len(), |end| end + 1);
        *self = Records(&rest[next..], start + next);
        let tab = bytes.iter().position(|&b| b == b'\t');
        Some(Record {
            start,
            tag: &bytes[..tab.unwrap_or(bytes.len())],
            content: tab.map(|tab| &bytes[tab + 1..]),
            ended: end.is_some(),
        })
    }
}

impl Record<'_> {
    /// The tag, if it has the shape of one.
    fn shaped_tag(&self) -> Option<Tag> {
        match *self.tag {
            [a, b] if digits(self.tag) => Some([a, b, 0]),
            [a, b, c] if digits(&self.tag[..2]) && c.is_ascii_uppercase() => Some([a, b, c]),
            _ => None,
        }
    }
}

fn parts(content: &[u8]) -> impl Iterator<Item = &[u8]> {
    content.split(|&b| b == b'\t')
}

/// The message as it grows.
struct Build<'a> {
    kind: u32,
    sign: bool,
    message: Vec<u8>,
    /// The first byte that can't be written.
    unwritable: Option<usize>,
    /// Whether some details don't fit their lines, and can't run on.
    unfit: bool,
    /// Details of 70 that it can't hold whole, and where their lines go.
    long: Option<(Written<'a>, usize)>,
    /// How many records of 70 and of 72 a 103 has.
    details_records: usize,
    note_records: usize,
    /// Where the RPP line of a 103 ends.
    rpp_end: usize,
    /// Where the first 77B begins.
    regulatory: Option<usize>,
}

impl<'a> Build<'a> {
    fn new(kind: u32, sheet_length: usize, sign: bool) -> Build<'a> {
        // Enough for a common sheet: a tab becomes CR LF, and so on.
        let mut message = Vec::with_capacity(sheet_length + sheet_length / 4 + 64);
        message.extend(b"{4:\r\n");
        Build {
            kind,
            sign,
            message,
            unwritable: None,
            unfit: false,
            long: None,
            details_records: 0,
            note_records: 0,
            rpp_end: 0,
            regulatory: None,
        }
    }

    /// 15 and 16, or the whole message.
    fn finish(mut self) -> Result<Vec<u8>, Refusal> {
        if let Some(place) = self.unwritable {
            return refuse(15, place);
        }
        if let Some((long, at)) = self.long.take() {
            self.unfit |= self.run_on(&long, at).is_none();
        }
        if self.unfit {
            return refuse(16, 0);
        }
        self.message.extend(b"-}");
        Ok(self.message)
    }

    /// Adds the field of a record; none if the record is against the sheet's rules.
    fn record(&mut self, record: &Record<'a>) -> Option<()> {
        let tag = record.shaped_tag()?;
        let content = record.content.filter(|_| record.ended)?;
        let place = record.start + record.tag.len() + 1;
        if tag == *b"77B" {
            self.regulatory.get_or_insert(self.message.len());
        }
        self.message.push(b':');
        self.message.extend(record.tag);
        self.message.push(b':');
        match form(self.kind, tag) {
            Form::RppAndRest => {
                self.rpp(content, place)?;
                self.note_records += 1;
                self.rpp_end = self.message.len();
            }
            Form::Details => {
                let (code, text) = code_and_text(content)?;
                self.details_records += 1;
                self.details(&IN_70, IN_70.lines, code, text, place + 6);
            }
            Form::RppAndDetails => self.rpp_and_details(content, place)?,
            form => self.lines(form, tag, content, place)?,
        }
        self.message.extend(b"\r\n");
        Some(())
    }

    /// A line a part: none is empty, and none but the first begins with `:` or `-`.
    fn lines(&mut self, form: Form, tag: Tag, content: &[u8], mut place: usize) -> Option<()> {
        for (index, part) in parts(content).enumerate() {
            let first = *part.first()?;
            if index > 0 {
                if matches!(first, b':' | b'-') {
                    return None;
                }
                self.message.extend(b"\r\n");
            }
            match role(form, tag, content, index, part) {
                Role::Copied => self.copy(part, place),
                Role::Name => self.text(part, place),
                // With the sign, Russian ИНН and a digit may not stand here.
                Role::NameInTaxPlace if self.sign && begins_russian_tax_line(part) => return None,
                Role::NameInTaxPlace => self.text(part, place),
            }
            place += part.len() + 1;
        }
        Some(())
    }

    /// Just one part: what follows the mark.
    fn rpp(&mut self, content: &[u8], place: usize) -> Option<()> {
        if content.is_empty() || content.contains(&b'\t') {
            return None;
        }
        self.message.extend(RPP);
        self.copy(content, place);
        Some(())
    }

    fn rpp_and_details(&mut self, content: &'a [u8], place: usize) -> Option<()> {
        let (rpp, code, text) = rpp_code_and_text(content)?;
        let mut lines = IN_72.lines;
        if !rpp.is_empty() {
            self.rpp(rpp, place)?;
            self.message.extend(b"\r\n");
            lines -= 1;
        }
        self.details(&IN_72, lines, code, text, place + rpp.len() + 7);
        Some(())
    }

    /// A part that stays as it is.
    fn copy(&mut self, part: &[u8], place: usize) {
        self.note(first_missing(&X_SET, part), place);
        self.message.extend(part);
    }

    /// A part that is a text of its own.
    fn text(&mut self, part: &[u8], place: usize) {
        if !self.sign {
            return self.copy(part, place);
        }
        match measure_writing(part) {
            Ok(units) => {
                let start = self.message.len();
                self.message.resize(start + units, 0);
                fill_writing(part, &mut self.message[start..]);
            }
            Err(refusal) => self.note(Some(refusal.place), place),
        }
    }

    fn note(&mut self, unwritable: Option<usize>, place: usize) {
        if self.unwritable.is_none() {
            self.unwritable = unwritable.map(|offset| place + offset);
        }
    }

    /// Details of 72, or of 70 in a 103: those may run on if they don't fit.
    fn details(
        &mut self,
        layout: &Layout,
        lines: usize,
        code: &'a [u8],
        text: &'a [u8],
        place: usize,
    ) {
        match Written::of(self.sign, code, text) {
            Err(unwritable) => self.note(Some(unwritable), place),
            Ok(written) if written.put(layout, lines, &mut self.message).is_some() => {}
            Ok(long) if self.kind == 103 => self.long = Some((long, self.message.len())),
            Ok(_) => self.unfit = true,
        }
    }

    /// Cuts details in two for 70 and 72. None if they are too long, if no cut
    /// fits, or if there are two records of one of the fields.
    fn run_on(&mut self, long: &Written, at: usize) -> Option<()> {
        if self.details_records > 1 || self.note_records > 1 {
            return None;
        }
        let mut whole = Whole::new();
        long.fill(&mut whole)?;
        let lines = IN_72.lines - self.note_records;
        let (first, rest) = whole.cut(self.sign, long.text, IN_72.room(lines))?;
        let mut details = Vec::with_capacity(MOST_DETAILS);
        put(
            &IN_70,
            IN_70.lines,
            vo_code_length(self.sign),
            first,
            &mut details,
        )?;
        let mut note = Vec::with_capacity(MOST_DETAILS);
        let note_at = if self.note_records > 0 {
            note.extend(b"\r\n");
            put(&IN_72, lines, 0, rest, &mut note)?;
            self.rpp_end
        } else {
            note.extend(b":72:");
            put(&IN_72, lines, 0, rest, &mut note)?;
            note.extend(b"\r\n");
            self.regulatory.unwrap_or(self.message.len())
        };
        if at < note_at {
            self.insert(note_at, note);
            self.insert(at, details);
        } else {
            self.insert(at, details);
            self.insert(note_at, note);
        }
        Some(())
    }

    fn insert(&mut self, at: usize, bytes: Vec<u8>) {
        self.message.splice(at..at, bytes);
    }
}

/// A text that can be written, and the VO code in front of it.
struct Written<'a> {
    sign: bool,
    code: &'a [u8],
    text: &'a [u8],
    /// How many bytes the text is written in.
    units: usize,
}

impl<'a> Written<'a> {
    /// Or the offset of what can't be written.
    fn of(sign: bool, code: &'a [u8], text: &'a [u8]) -> Result<Written<'a>, usize> {
        let units = match sign {
            true => measure_writing(text).map_err(|refusal| refusal.place)?,
            false => first_missing(&X_SET, text).map_or(Ok(text.len()), Err)?,
        };
        Ok(Written {
            sign,
            code,
            text,
            units,
        })
    }

    fn length(&self) -> usize {
        vo_code_length(self.sign) + self.units
    }

    /// Fills in the code and the text written; none if they are too long for
    /// any fields.
    fn fill(&self, whole: &mut Whole) -> Option<()> {
        let filled = whole.room.get_mut(..self.length())?;
        let (code_room, text_room) = filled.split_at_mut(vo_code_length(self.sign));
        fill_code(self.sign, self.code, code_room);
        if self.sign {
            fill_writing(self.text, text_room);
        } else {
            text_room.copy_from_slice(self.text);
        }
        whole.length = self.length();
        Some(())
    }

    /// Puts them in so many lines; none, and nothing put, if they don't fit.
    fn put(&self, layout: &Layout, lines: usize, to: &mut Vec<u8>) -> Option<()> {
        if self.length() > layout.room(lines) {
            return None;
        }
        let mut whole = Whole::new();
        self.fill(&mut whole)?;
        put(layout, lines, vo_code_length(self.sign), whole.bytes(), to)
    }
}

fn fill_code(sign: bool, code: &[u8], room: &mut [u8]) {
    let form: &[u8] = if sign { b"'(VO00000)'" } else { b"(VO00000)" };
    room.copy_from_slice(form);
    let first = 3 + sign as usize;
    room[first..first + 5].copy_from_slice(code);
}

/// Just two parts: the five digits of a VO code, and a text.
fn code_and_text(content: &[u8]) -> Option<(&[u8], &[u8])> {
    let (code, rest) = content.split_at_checked(5)?;
    let text = rest.strip_prefix(b"\t")?;
    let in_order = digits(code) && !text.is_empty() && !text.contains(&b'\t');
    in_order.then_some((code, text))
}

/// Just three parts: an RPP part that may be empty, VO digits, and a text.
fn rpp_code_and_text(content: &[u8]) -> Option<(&[u8], &[u8], &[u8])> {
    let tab = content.iter().position(|&b| b == b'\t')?;
    let (code, text) = code_and_text(&content[tab + 1..])?;
    Some((&content[..tab], code, text))
}
