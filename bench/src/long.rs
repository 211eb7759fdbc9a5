//! Details of a 103 that 70 can't hold, or nearly so.

use crate::exhaustive::laid;
use crate::plain::{refuse, Refusal};
use crate::random::Random;
use crate::signs::{some, DIGITS, LATIN, RUSSIAN, SHARED, X_SET};

/// A text of about a length where the whole or a cut stops to fit.
pub fn text(random: &mut Random, sign: bool) -> Vec<u8> {
    let text = if sign {
        signed(random)
    } else {
        unsigned(random)
    };
    let most = match random.below(8) {
        0 | 1 => random.between(138, 142),
        2 | 3 => random.between(207, 213),
        4 => random.between(194, 200),
        5 => random.between(160, 215),
        _ => random.between(100, 215),
    };
    front(text, sign, most - code(sign).len())
}

/// The code as it stands in the message of any sheet made here.
pub fn code(sign: bool) -> &'static [u8] {
    match sign {
        true => b"'(VO10100)'",
        false => b"(VO10100)",
    }
}

/// No text is made longer than this, in desk bytes or in bank bytes.
const ENOUGH: usize = 220;

fn signed(random: &mut Random) -> Vec<u8> {
    match random.below(10) {
        0 => some(random, RUSSIAN, ENOUGH),
        1 => runs(random, &[LATIN], 1),
        2 => words(random),
        3 => letter_by_letter(random),
        4 | 5 => blocks(random),
        6 => few_letters(random, &[RUSSIAN, LATIN]),
        7 => few_letters(random, &[LATIN]),
        8 => barred_here_and_there(random, true),
        _ => {
            let longest = *random.pick(&[1, 2, 3, 12, 40]);
            runs(random, &[RUSSIAN, LATIN, SHARED], longest)
        }
    }
}

fn unsigned(random: &mut Random) -> Vec<u8> {
    match random.below(4) {
        0 => runs(random, &[LATIN], 1),
        1 => runs(random, &[X_SET], 1),
        2 => few_letters(random, &[LATIN, b"'"]),
        _ => barred_here_and_there(random, false),
    }
}

fn runs(random: &mut Random, kinds: &[&[u8]], longest: usize) -> Vec<u8> {
    let mut text = Vec::new();
    while text.len() < ENOUGH {
        let kind = *random.pick(kinds);
        let run = random.between(1, longest);
        text.extend(some(random, kind, run));
    }
    text
}

/// Russian words, Latin ones among them, and numbers.
fn words(random: &mut Random) -> Vec<u8> {
    let rarely = *random.pick(&[2, 4, 10]);
    let mut text = Vec::new();
    while text.len() < ENOUGH {
        let kind = match random.below(6) {
            0 => DIGITS,
            _ if random.once_in(rarely) => LATIN,
            _ => RUSSIAN,
        };
        let length = random.between(1, 10);
        text.extend(some(random, kind, length));
        text.push(*random.pick(b"    -/.:"));
    }
    text
}

fn letter_by_letter(random: &mut Random) -> Vec<u8> {
    let marks = random.once_in(2);
    let mut text = Vec::new();
    while text.len() < ENOUGH {
        text.push(*random.pick(RUSSIAN));
        text.push(*random.pick(LATIN));
        if marks && random.once_in(9) {
            text.push(*random.pick(SHARED));
        }
    }
    text
}

/// A few long runs.
fn blocks(random: &mut Random) -> Vec<u8> {
    let mut kinds = [RUSSIAN, LATIN];
    let mut text = Vec::new();
    while text.len() < ENOUGH {
        let run = *random.pick(&[1, 2, 5, 30, 60, 90, 110, 125, 127]);
        let length = run + random.below(4);
        text.extend(some(random, kinds[0], length));
        kinds.swap(0, 1);
    }
    text
}

/// Nearly all of it may not begin a line of 70.
fn few_letters(random: &mut Random, kinds: &[&[u8]]) -> Vec<u8> {
    let rarely = *random.pick(&[2, 4, 12, 33, 36, 70, 200]);
    let mut text = Vec::new();
    while text.len() < ENOUGH {
        if random.once_in(rarely) {
            let kind = *random.pick(kinds);
            text.push(*random.pick(kind));
        } else {
            text.push(*random.pick(b"-----:"));
        }
    }
    text
}

/// Runs of such bytes, often about where lines end.
fn barred_here_and_there(random: &mut Random, sign: bool) -> Vec<u8> {
    let longest = *random.pick(&[1, 6, 40]);
    let mut text = match (sign, random.below(3)) {
        (false, _) | (true, 0) => runs(random, &[LATIN], longest),
        (true, 1) => some(random, RUSSIAN, ENOUGH),
        _ => runs(random, &[RUSSIAN, LATIN], longest),
    };
    for _ in 0..*random.pick(&[1, 3, 6]) {
        let from = random.below(text.len());
        let run = *random.pick(&[1, 2, 8, 20, 34, 35, 36]);
        for byte in text.iter_mut().skip(from).take(run) {
            *byte = *random.pick(b"---:");
        }
    }
    text
}

/// The longest front that is written in no more than so many bytes.
fn front(mut text: Vec<u8>, sign: bool, most: usize) -> Vec<u8> {
    let (mut units, mut latin) = (0, false);
    let fits = |&b: &u8| {
        units += 1;
        if sign && b.is_ascii_alphabetic() {
            units += if latin { 0 } else { 2 };
            latin = true;
        } else if RUSSIAN.contains(&b) {
            latin = false;
        }
        units <= most
    };
    let length = text.iter().copied().take_while(fits).count();
    text.truncate(length);
    text
}

/// A sheet whose details are judged, and nothing else of it.
pub struct Long {
    pub sign: bool,
    /// Whether it has a record of 72, and one of 77B.
    pub rpp: bool,
    pub regulatory: bool,
    pub text: Vec<u8>,
}

pub fn some_long(random: &mut Random) -> Long {
    let sign = random.once_in(2);
    Long {
        sign,
        rpp: random.once_in(2),
        regulatory: random.once_in(4),
        text: text(random, sign),
    }
}

const RPP: &str = "417.240229.5.ELEK";

/// Details of a 202, with an RPP part or an empty one.
pub fn sheet_202(sign: bool, rpp: bool, text: &[u8]) -> Vec<u8> {
    let reference = if sign { "+B2" } else { "B2" };
    let rpp = if rpp { RPP } else { "" };
    let mut sheet = format!("MT\t202\n20\t{reference}\n21\tNONREF\n32A\t240229RUB1500,5\n");
    sheet += "53B\t/D/30111810500000100000\n58A\t/30101810400000000225\tSABRRUMM\n";
    [
        sheet.as_bytes(),
        b"72\t",
        rpp.as_bytes(),
        b"\t10100\t",
        text,
        b"\n",
    ]
    .concat()
}

impl Long {
    pub fn sheet(&self) -> Vec<u8> {
        let Long { text, .. } = self;
        let mut sheet = format!("MT\t103\n20\t{}\n23B\tCRED\n", self.reference());
        if self.regulatory {
            sheet += "26T\tS08\n";
        }
        sheet += "32A\t240229RUB1500,5\n50K\t/40702\tINN7707083893.KPP770701001\tNORD\n";
        sheet += "53B\t/D/30111810500000100000\n59\t/1\tINN7707083893.KPP770701001\tPETR\n";
        let mut sheet = [sheet.as_bytes(), b"70\t10100\t", text, b"\n71A\tOUR\n"].concat();
        if self.rpp {
            sheet.extend(format!("72\t{RPP}\n").bytes());
        }
        if self.regulatory {
            sheet.extend(b"77B\t/N10/NS\n");
        }
        sheet
    }

    /// The message of that sheet by the exhaustive version, or 16.
    pub fn message(&self) -> Result<Vec<u8>, Refusal> {
        let Some(laid) = laid(self.sign, code(self.sign), &self.text, self.rpp) else {
            return refuse(16, 0);
        };
        let name = |name: &str| match self.sign {
            true => format!("'{name}'"),
            false => name.to_string(),
        };
        let mut m = format!("{{4:|:20:{}|:23B:CRED|", self.reference());
        if self.regulatory {
            m += ":26T:S08|";
        }
        m += &format!(
            ":32A:240229RUB1500,5|:50K:/40702|INN7707083893.KPP770701001|{}|",
            name("NORD")
        );
        m += &format!(
            ":53B:/D/30111810500000100000|:59:/1|INN7707083893.KPP770701001|{}|",
            name("PETR")
        );
        let mut m = m.replace('|', "\r\n").into_bytes();
        m.extend(b":70:");
        m.extend(laid.details.join(&b"\r\n"[..]));
        m.extend(b"\r\n:71A:OUR\r\n");
        let mut note = Vec::new();
        if self.rpp {
            note.push(format!("/RPP/{RPP}").into_bytes());
        }
        let mut mark: &[u8] = b"/NZP/";
        for line in &laid.rest {
            note.push([mark, line].concat());
            mark = b"//";
        }
        if !note.is_empty() {
            m.extend(b":72:");
            m.extend(note.join(&b"\r\n"[..]));
            m.extend(b"\r\n");
        }
        if self.regulatory {
            m.extend(b":77B:/N10/NS\r\n");
        }
        m.extend(b"-}");
        Ok(m)
    }

    fn reference(&self) -> &str {
        if self.sign {
            "+A17"
        } else {
            "A17"
        }
    }
}

#[cfg(test)]
mod tests {
    use super::*;
    use crate::cases::runs_on;
    use crate::plain::read::to_sheet;
    use crate::plain::write::to_message;
    use std::collections::BTreeMap;

    /// What a sheet comes to: how often it is whole, cut or refused.
    #[derive(Debug, PartialEq, Eq, PartialOrd, Ord)]
    enum Way {
        Whole,
        Cut,
        Refused,
    }

    /// The plain build writes what the exhaustive version does, and reads it
    /// back.
    fn hold(long: &Long) -> Way {
        let sheet = long.sheet();
        let mut room = [0; 2_000];
        let answer = to_message(&sheet, &mut room);
        let expected = long.message();
        let message = answer.map(|units| room[..units].to_vec());
        assert_eq!(message, expected, "{:?}", long.text);
        let Ok(message) = message else {
            return Way::Refused;
        };
        let units = to_sheet(103, &message, &mut room);
        assert!(
            units == Ok(sheet.len()) && room[..sheet.len()] == sheet,
            "{:?}",
            long.text
        );
        match runs_on(103, &message) {
            true => Way::Cut,
            false => Way::Whole,
        }
    }

    fn each_way(text: &[u8], ways: &mut BTreeMap<(bool, Way), usize>) {
        for sign in [false, true] {
            if !sign && !text.is_ascii() {
                continue;
            }
            for rpp in [false, true] {
                let long = Long {
                    sign,
                    rpp,
                    regulatory: false,
                    text: text.to_vec(),
                };
                *ways.entry((sign, hold(&long))).or_default() += 1;
            }
        }
    }

    #[test]
    fn generated_details_are_laid_as_the_exhaustive_version_lays_them() {
        let mut random = Random::new(7);
        let mut ways = BTreeMap::new();
        for _ in 0..100_000 {
            let long = some_long(&mut random);
            *ways.entry((long.sign, hold(&long))).or_default() += 1;
        }
        assert_eq!(ways.len(), 6);
        assert!(
            ways.values().all(|&times: &usize| times > 2_000),
            "{ways:?}"
        );
    }

    /// Two blocks and three, one sign alone, and one letter among marks, of each
    /// length about the limits.
    #[test]
    fn edges() {
        let mut ways = BTreeMap::new();
        for length in 20..216 {
            for sign in [b'-', b':', b'A', b'.', 0xC6] {
                each_way(&vec![sign; length], &mut ways);
            }
        }
        let blocks = |blocks: &[(u8, usize)]| -> Vec<u8> {
            let run = |&(sign, times): &(u8, usize)| vec![sign; times];
            blocks.iter().flat_map(run).collect()
        };
        for first in (0..12).chain(90..135) {
            for rest in (55..80).chain(184..190) {
                for (one, other) in [(b'-', b'A'), (0xC6, b'A'), (b'A', 0xC6), (b'A', b'-')] {
                    each_way(&blocks(&[(one, first), (other, rest)]), &mut ways);
                    let three = blocks(&[(one, first), (other, 5), (one, rest)]);
                    each_way(&three, &mut ways);
                    let apart = blocks(&[(b'A', first), (b'-', 7), (other, 1), (one, rest)]);
                    each_way(&apart, &mut ways);
                }
            }
        }
        assert_eq!(ways.len(), 6);
    }
}
