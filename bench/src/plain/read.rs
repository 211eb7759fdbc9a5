//! Message to sheet.

use super::check::{has_sign, judged};
use super::forms::{form, role, split_rpp, Details, Form, Joined, Role, IN_70, IN_72, RPP};
use super::frame::Field;
use super::text::fill_reading;
use super::types::Tag;
use super::{refuse, Refusal};

/// Reads a message; answers the bytes of the sheet written to `out`.
pub fn to_sheet(kind: u32, m: &[u8], out: &mut [u8]) -> Result<usize, Refusal> {
    let fields = judged(kind, m)?;
    let sign = has_sign(m, &fields);
    let mut measured = Measure(0);
    write_sheet(kind, sign, m, fields.all(), &mut measured);
    let needed = measured.0;
    let Some(room) = out.get_mut(..needed) else {
        return refuse(17, needed);
    };
    let mut fill = Fill { room, filled: 0 };
    write_sheet(kind, sign, m, fields.all(), &mut fill);
    Ok(needed)
}

/// Where the sheet goes: first it is measured, then written.
trait Sink {
    fn put(&mut self, bytes: &[u8]);
    /// Puts the reading of a bank text that has one.
    fn put_reading(&mut self, bank: &[u8]);
}

struct Measure(usize);

impl Sink for Measure {
    fn put(&mut self, bytes: &[u8]) {
        self.0 += bytes.len();
    }

    fn put_reading(&mut self, bank: &[u8]) {
        self.0 += bank.iter().filter(|&&b| b != b'\'').count();
    }
}

struct Fill<'a> {
    room: &'a mut [u8],
    filled: usize,
}

impl Sink for Fill<'_> {
    fn put(&mut self, bytes: &[u8]) {
        self.room[self.filled..self.filled + bytes.len()].copy_from_slice(bytes);
        self.filled += bytes.len();
    }

    fn put_reading(&mut self, bank: &[u8]) {
        let units = bank.iter().filter(|&&b| b != b'\'').count();
        fill_reading(bank, &mut self.room[self.filled..self.filled + units]);
        self.filled += units;
    }
}

fn write_sheet(kind: u32, sign: bool, m: &[u8], fields: &[Field], sink: &mut impl Sink) {
    sink.put(if kind == 103 {
        b"MT\t103\n"
    } else {
        b"MT\t202\n"
    });
    for field in fields {
        // In a right message every field has few enough lines.
        let Some(lines) = field.lines(m) else {
            continue;
        };
        match form(kind, field.tag) {
            Form::Details => {
                write_tag(field.tag, sink);
                write_details(Details::of(&IN_70, lines.all(), sign), sign, sink);
                write_rest(m, fields, sign, sink);
            }
            Form::RppAndRest => match split_rpp(lines.all()) {
                (Some(rpp), _) => {
                    write_tag(field.tag, sink);
                    write_rpp(rpp, sink);
                }
                // What it holds stands in the record of 70.
                (None, _) => continue,
            },
            Form::RppAndDetails => {
                let (rpp, rest) = split_rpp(lines.all());
                write_tag(field.tag, sink);
                write_rpp(rpp.unwrap_or(RPP), sink);
                write_details(Details::of(&IN_72, rest, sign), sign, sink);
            }
            form => {
                write_tag(field.tag, sink);
                write_lines(form, field.tag, lines.all(), sign, sink);
            }
        }
        sink.put(b"\n");
    }
}

fn write_tag(tag: Tag, sink: &mut impl Sink) {
    sink.put(if tag[2] == 0 { &tag[..2] } else { &tag });
}

fn write_lines(form: Form, tag: Tag, lines: &[&[u8]], sign: bool, sink: &mut impl Sink) {
    for (index, line) in lines.iter().enumerate() {
        sink.put(b"\t");
        let copied = role(form, tag, lines[0], index, line) == Role::Copied;
        write_text(line, sign && !copied, sink);
    }
}

/// What 72 of a 103 holds of the details: a text by itself.
fn write_rest(m: &[u8], fields: &[Field], sign: bool, sink: &mut impl Sink) {
    let note = fields.iter().find(|field| field.tag == *b"72\0");
    let Some(lines) = note.and_then(|note| note.lines(m)) else {
        return;
    };
    let (_, rest) = split_rpp(lines.all());
    if !rest.is_empty() {
        write_text(Joined::of(&IN_72, rest, 0).bytes(), sign, sink);
    }
}

/// The part that stands for an RPP line: what follows its mark.
fn write_rpp(line: &[u8], sink: &mut impl Sink) {
    sink.put(b"\t");
    sink.put(&line[RPP.len()..]);
}

fn write_details(details: Details, sign: bool, sink: &mut impl Sink) {
    sink.put(b"\t");
    sink.put(&details.code);
    sink.put(b"\t");
    write_text(details.text.bytes(), sign, sink);
}

fn write_text(text: &[u8], transliterated: bool, sink: &mut impl Sink) {
    if transliterated {
        sink.put_reading(text);
    } else {
        sink.put(text);
    }
}
