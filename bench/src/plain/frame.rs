//! Frame, lines and tags: refusals 18 and 1 to 7, and where each field stands.
//!
//! One pass over the bytes. A line is judged as soon as its end is found, but
//! 3 is settled over the whole message before 4, and 4 before the walk; so the
//! first wrong line and the walk's first fault are kept until the end.

use super::text::{first_missing, X_SET};
use super::types::{places, Place, Tag, MOST_FIELDS};
use super::{refuse, Refusal};

/// The longest message.
pub const MESSAGE_LIMIT: usize = 10_000;

const OPENING: &[u8] = b"{4:\r\n";
const CLOSING: &[u8] = b"\r\n-}";

/// No field of any type has more lines.
pub const MOST_LINES: usize = 6;

/// A field by its places in the message: its colon, its content, its lines.
#[derive(Clone, Copy, Default)]
pub struct Field {
    pub tag: Tag,
    /// Which of its type's places it fills.
    pub place: usize,
    pub colon: usize,
    pub start: usize,
    pub end: usize,
    /// How many lines it has; one more than the most stands for any greater number.
    lines: u8,
    /// Where its first lines end. No message has more bytes than fit a u16.
    line_ends: [u16; MOST_LINES],
}

impl Field {
    fn end_line(&mut self, end: usize) {
        if let Some(slot) = self.line_ends.get_mut(usize::from(self.lines)) {
            *slot = end as u16;
            self.lines += 1;
        } else {
            self.lines = MOST_LINES as u8 + 1;
        }
    }

    pub fn first_line<'m>(&self, m: &'m [u8]) -> &'m [u8] {
        &m[self.start..usize::from(self.line_ends[0])]
    }

    /// The lines of the content; none if there are more than any field has.
    pub fn lines<'m>(&self, m: &'m [u8]) -> Option<Lines<'m>> {
        let count = usize::from(self.lines);
        let mut lines = [&m[..0]; MOST_LINES];
        let mut start = self.start;
        for (line, &end) in lines.iter_mut().zip(self.line_ends.get(..count)?) {
            let end = usize::from(end);
            *line = &m[start..end];
            start = end + 2;
        }
        Some(Lines { lines, count })
    }
}

/// The lines of a content.
pub struct Lines<'m> {
    lines: [&'m [u8]; MOST_LINES],
    count: usize,
}

impl<'m> Lines<'m> {
    pub fn all(&self) -> &[&'m [u8]] {
        &self.lines[..self.count]
    }
}

/// The fields of a message that 18 and 1 to 7 let pass.
pub struct Fields {
    fields: [Field; MOST_FIELDS],
    count: usize,
}

impl Fields {
    pub fn all(&self) -> &[Field] {
        &self.fields[..self.count]
    }

    /// The field that fills a place of the type.
    pub fn at(&self, place: usize) -> Option<&Field> {
        self.all().iter().find(|field| field.place == place)
    }

    /// One bit for each place present.
    pub fn word(&self) -> u32 {
        let bits = self.all().iter().map(|field| 1 << field.place);
        bits.fold(0, |word, bit: u32| word | bit)
    }

    /// Colon, content start and content end of each field into the lent list.
    pub fn fill(&self, list: &mut [u32]) -> Result<(usize, u32), Refusal> {
        let needed = 3 * self.count;
        let Some(room) = list.get_mut(..needed) else {
            return refuse(17, needed);
        };
        for (three, field) in room.chunks_exact_mut(3).zip(self.all()) {
            three[0] = field.colon as u32;
            three[1] = field.start as u32;
            three[2] = field.end as u32;
        }
        Ok((self.count, self.word()))
    }
}

/// The fields of a message, or its refusal by 18 or 1 to 7.
pub fn fields(kind: u32, m: &[u8]) -> Result<Fields, Refusal> {
    let Some(places) = places(kind) else {
        return refuse(18, 0);
    };
    if m.len() > MESSAGE_LIMIT {
        return refuse(1, MESSAGE_LIMIT);
    }
    // The CR LF of the opening may be the one of the closing.
    if !m.starts_with(OPENING) || !m.ends_with(CLOSING) {
        return refuse(2, 0);
    }
    let closing = m.len() - 2;
    let mut walk = Walk::new(places);
    let mut wrong_line = None;
    let mut line = OPENING.len();
    while line < closing {
        let end = line_end(m, line)?;
        if wrong_line.is_none() {
            match Line::of(&m[line..end]) {
                Line::Opens(tag, content) => walk.field(tag, line, line + content, end),
                Line::Continues if line > OPENING.len() => walk.line(end),
                _ => wrong_line = Some(line),
            }
        }
        line = end + 2;
    }
    match wrong_line {
        Some(line) => refuse(4, line),
        None => walk.finish(closing),
    }
}

/// The CR that ends the line, or 3 at the first byte that may not stand there.
/// There is a CR before the message's end, as it ends in CR LF `-}`.
fn line_end(m: &[u8], line: usize) -> Result<usize, Refusal> {
    let rest = &m[line..];
    let end = line + first_missing(&X_SET, rest).unwrap_or(rest.len());
    if m[end..].starts_with(b"\r\n") {
        Ok(end)
    } else {
        refuse(3, end)
    }
}

/// What a line is by its first bytes.
enum Line {
    /// It opens a field: the tag, and how far into the line the content starts.
    Opens(Tag, usize),
    Continues,
    Wrong,
}

impl Line {
    fn of(line: &[u8]) -> Line {
        match *line {
            [] | [b'-', ..] => Line::Wrong,
            [b':', tens, ones, b':', ..] if digits(tens, ones) => Line::Opens([tens, ones, 0], 4),
            [b':', tens, ones, capital, b':', ..]
                if digits(tens, ones) && capital.is_ascii_uppercase() =>
            {
                Line::Opens([tens, ones, capital], 5)
            }
            [b':', ..] => Line::Wrong,
            _ => Line::Continues,
        }
    }
}

fn digits(tens: u8, ones: u8) -> bool {
    tens.is_ascii_digit() && ones.is_ascii_digit()
}

/// The walk over the fields: 5, 6 and 7, the first faulty field decides.
struct Walk {
    places: &'static [Place],
    /// The first place that the next field may fill.
    next: usize,
    fault: Option<Refusal>,
    found: Fields,
}

impl Walk {
    fn new(places: &'static [Place]) -> Walk {
        let found = Fields {
            fields: [Field::default(); MOST_FIELDS],
            count: 0,
        };
        Walk {
            places,
            next: 0,
            fault: None,
            found,
        }
    }

    /// A line that opens a field and ends at this CR.
    fn field(&mut self, tag: Tag, colon: usize, start: usize, end: usize) {
        if self.fault.is_some() {
            return;
        }
        match self.place_of(tag) {
            Ok(place) => {
                let field = &mut self.found.fields[self.found.count];
                field.tag = tag;
                field.place = place;
                field.colon = colon;
                field.start = start;
                field.end = end;
                field.end_line(end);
                self.found.count += 1;
                self.next = place + 1;
            }
            Err(number) => {
                self.fault = Some(Refusal {
                    number,
                    place: colon,
                })
            }
        }
    }

    /// A line that continues the field opened last, up to this CR.
    fn line(&mut self, end: usize) {
        if let Some(last) = self.found.count.checked_sub(1) {
            let field = &mut self.found.fields[last];
            field.end = end;
            field.end_line(end);
        }
    }

    /// The place that the tag fills, or the number it is refused with.
    fn place_of(&self, tag: Tag) -> Result<usize, u32> {
        let (before, after) = self.places.split_at(self.next);
        let takes = |place: &Place| place.tags.contains(&tag);
        match after.iter().position(takes) {
            Some(skipped) if after[..skipped].iter().any(|place| place.mandatory) => Err(7),
            Some(skipped) => Ok(self.next + skipped),
            None if before.iter().any(takes) => Err(6),
            None => Err(5),
        }
    }

    fn finish(self, closing: usize) -> Result<Fields, Refusal> {
        if let Some(fault) = self.fault {
            return Err(fault);
        }
        if self.places[self.next..].iter().any(|place| place.mandatory) {
            return refuse(7, closing);
        }
        Ok(self.found)
    }
}

#[cfg(test)]
mod tests {
    use super::*;

    /// `|` stands for CR LF, `<` for CR alone, `>` for LF alone.
    fn bytes(m: &str) -> Vec<u8> {
        let m = m.replace('|', "\r\n").replace('<', "\r");
        m.replace('>', "\n").into_bytes()
    }

    fn refusal(kind: u32, m: &str) -> (u32, usize) {
        match fields(kind, &bytes(m)) {
            Ok(_) => (0, 0),
            Err(refusal) => (refusal.number, refusal.place),
        }
    }

    #[test]
    fn frame_and_line_ends() {
        for (m, number, place) in [
            ("", 2, 0),
            ("{4:|", 2, 0),
            ("{4:|-", 2, 0),
            ("{4:|A|-}|", 2, 0),
            ("{4:|-}", 7, 5),
            ("{4:||-}", 4, 5),
            ("{4:|-}|-}", 3, 6),
            ("{4:|A<|-}", 3, 6),
            ("{4:|A>|-}", 3, 6),
            ("{4:|A|>|-}", 3, 8),
            ("{4:|>|-}", 3, 5),
            ("{4:|<-|-}", 3, 5),
            ("{4:|A|!|-}", 3, 8),
        ] {
            assert_eq!(refusal(103, m), (number, place), "{m}");
        }
        assert_eq!(refusal(104, ""), (18, 0));
        assert_eq!(
            fields(202, &[0; 10_001]).err(),
            refuse::<()>(1, 10_000).err()
        );
    }

    #[test]
    fn lines_and_tags() {
        for (m, number, place) in [
            ("{4:|A|-}", 4, 5),
            ("{4:|:20:A|-B|-}", 4, 12),
            ("{4:|:20:A||-}", 4, 12),
            ("{4:|:2:A|-}", 4, 5),
            ("{4:|:20|-}", 4, 5),
            ("{4:|:20a:|-}", 4, 5),
            ("{4:|:20AB:|-}", 4, 5),
            ("{4:|:20A|-}", 4, 5),
            ("{4:|:20:A|:99:|:|-}", 4, 18),
            ("{4:|:20:|-}", 7, 11),
            ("{4:|:20::|:20:-|-}", 6, 12),
            ("{4:|:21:A|-}", 5, 5),
            ("{4:|:23B:A|-}", 7, 5),
        ] {
            assert_eq!(refusal(103, m), (number, place), "{m}");
        }
    }

    const RIGHT: &str = "{4:|:20:A|:21:B|:32A:C|D|:53B:|:56D:E|:58A:F|:72:|-}";

    #[test]
    fn places_and_word() {
        let m = bytes(RIGHT);
        let found = fields(202, &m).ok().expect("a right frame");
        let mut list = [7; 22];
        assert_eq!(found.fill(&mut list[..20]), refuse(17, 21));
        assert_eq!(list, [7; 22]);
        assert_eq!(found.fill(&mut list), Ok((7, 0b1_1011_0111)));
        assert_eq!(list[6..12], [19, 24, 28, 30, 35, 35]);
        assert_eq!(list[18..], [53, 57, 57, 7]);
        let part = |place| found.at(place).map(|field| (field.start, field.end));
        assert_eq!(part(2), Some((24, 28)));
        assert_eq!(part(3), None);
        assert_eq!(part(8), Some((57, 57)));
        assert_eq!(part(9), None);
    }

    #[test]
    fn the_first_faulty_field_decides() {
        for (from, to, number, place) in [
            (":21:B|:32A:C|D|", ":32A:C|D|:21:B|", 7, 12),
            (":56D:E|", ":56A:E|:56D:E|", 6, 45),
            (":72:|", "", 7, 53),
            (":72:|", ":70:|:20:|", 5, 53),
            (":58A:F|:72:|", ":72:|:58A:F|", 7, 45),
        ] {
            assert_eq!(
                refusal(202, &RIGHT.replace(from, to)),
                (number, place),
                "{to}"
            );
        }
    }
}
