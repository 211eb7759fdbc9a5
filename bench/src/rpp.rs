//! RPP lines, right and damaged, and what is said of them by trying every form
//! that such a line may have. It shares no code with the plain build, and holds
//! it and the archive.

use crate::random::Random;

const KINDS: &[&str] = &["POST", "TELG", "ELEK", "BESP"];

/// Messages that are right but for an RPP line, which stands in the gap.
const FRAMES: &[(u32, &str, &str)] = &[
    (
        103,
        "{4:|:20:A|:23B:CRED|:32A:240229RUB1,|:50K:A|:53B:/D/30111810500000100000|:59:/1|A|\
         :70:(VO10100)A|:71A:OUR|:72:",
        "|-}",
    ),
    (
        103,
        "{4:|:20:+A|:23B:CRED|:32A:240229RUB1,|:50K:A|:53B:/D/30111810500000100000|:59:/1|A|\
         :70:'(VO10100)'A|:71A:OUR|:72:",
        "|-}",
    ),
    (
        202,
        "{4:|:20:+B|:21:NONREF|:32A:240229RUB1,|:53B:/D/30111810500000100000|:58D:/1|A|:72:",
        "|/NZP/'(VO10100)'AB|-}",
    ),
];

/// A message with an RPP line, and where that line starts.
pub struct Noted {
    pub kind: u32,
    pub bytes: Vec<u8>,
    pub start: usize,
}

pub fn noted(random: &mut Random, line: &[u8]) -> Noted {
    let &(kind, before, behind) = random.pick(FRAMES);
    let [before, behind] = [before, behind].map(|part| part.replace('|', "\r\n"));
    Noted {
        kind,
        bytes: [before.as_bytes(), line, behind.as_bytes()].concat(),
        start: before.len(),
    }
}

/// Every form of an RPP line: `n` stands for a digit, six `d` for a date.
pub fn forms() -> Vec<String> {
    let mut forms = Vec::new();
    for size in 1..=6 {
        let number = "n".repeat(size);
        for kind in KINDS {
            for endings in ["", ".dddddd", ".nn", ".dddddd.nn"] {
                forms.push(format!("/RPP/{number}.dddddd.n.{kind}{endings}"));
            }
        }
    }
    forms
}

/// 8 if the line has none of the forms, else 9 at its first date that is no
/// day, else nothing; places count from the line's start.
pub fn judged(forms: &[String], line: &[u8]) -> Result<(), (u32, usize)> {
    let mut found = forms.iter().filter(|form| has(form, line));
    let Some(form) = found.next() else {
        return Err((8, 0));
    };
    assert!(found.next().is_none(), "a line of two forms");
    let mut dates = form.match_indices("dddddd").map(|(place, _)| place);
    match dates.find(|&place| !is_day(&line[place..place + 6])) {
        Some(place) => Err((9, place)),
        None => Ok(()),
    }
}

fn has(form: &str, line: &[u8]) -> bool {
    let is = |(sign, &b): (u8, &u8)| match sign {
        b'n' | b'd' => b.is_ascii_digit(),
        _ => b == sign,
    };
    form.len() == line.len() && form.bytes().zip(line).all(is)
}

/// From 1980 to 2079 each fourth year has a leap day.
fn is_day(date: &[u8]) -> bool {
    let two =
        |place: usize| usize::from(date[place] - b'0') * 10 + usize::from(date[place + 1] - b'0');
    let (year, month, day) = (two(0), two(2), two(4));
    let february = if year % 4 == 0 { 29 } else { 28 };
    let days = [31, february, 31, 30, 31, 30, 31, 31, 30, 31, 30, 31];
    (1..=12).contains(&month) && (1..=days[month - 1]).contains(&day)
}

/// Mostly right; at times with other endings, or with bytes behind the mark
/// lost, put in or changed.
pub fn some_line(random: &mut Random) -> Vec<u8> {
    let most = if random.once_in(8) { 8 } else { 6 };
    let number = random.between(1, most);
    let mut line = [&b"/RPP/"[..], &digits(random, number), b"."].concat();
    line.extend(some_date(random));
    line.extend(digits_behind_point(random, 1));
    line.push(b'.');
    line.extend(random.pick(KINDS).as_bytes());
    line.extend(some_endings(random));
    while random.once_in(4) {
        damage(random, &mut line);
    }
    line
}

fn digits(random: &mut Random, size: usize) -> Vec<u8> {
    (0..size).map(|_| *random.pick(b"0123456789")).collect()
}

fn digits_behind_point(random: &mut Random, size: usize) -> Vec<u8> {
    [&b"."[..], &digits(random, size)].concat()
}

/// Mostly a day.
fn some_date(random: &mut Random) -> Vec<u8> {
    if random.once_in(8) {
        return digits(random, 6);
    }
    let (year, month) = (random.below(100), random.between(1, 12));
    format!("{year:02}{month:02}{:02}", random.between(1, 29)).into_bytes()
}

/// A value date, two digits, both or none; at times any parts behind points.
fn some_endings(random: &mut Random) -> Vec<u8> {
    let mut endings = Vec::new();
    if random.once_in(4) {
        for _ in 0..random.below(4) {
            let size = random.between(1, 7);
            endings.extend(digits_behind_point(random, size));
        }
        return endings;
    }
    if random.once_in(2) {
        endings.push(b'.');
        endings.extend(some_date(random));
    }
    if random.once_in(2) {
        endings.extend(digits_behind_point(random, 2));
    }
    endings
}

fn damage(random: &mut Random, line: &mut Vec<u8>) {
    let place = random.between("/RPP/".len(), line.len());
    let sign = *random.pick(b"0123456789.,/APOSTELGKB ");
    match random.below(4) {
        0 => line.insert(place, sign),
        1 => line.truncate(place),
        2 if place < line.len() => line[place] = sign,
        _ if place < line.len() => drop(line.remove(place)),
        _ => (),
    }
}

#[cfg(test)]
mod tests {
    use super::*;
    use crate::plain::check::check;
    use std::collections::BTreeMap;

    /// The plain build's number, 0 for none, which must be that of the forms.
    fn hold(forms: &[String], random: &mut Random, line: &[u8]) -> u32 {
        let noted = noted(random, line);
        let answer = check(noted.kind, &noted.bytes, &mut [0; 42]);
        let answer = answer.map_err(|refusal| (refusal.number, refusal.place));
        let expected = judged(forms, line);
        let expected = expected.map_err(|(number, place)| (number, noted.start + place));
        let shown = String::from_utf8_lossy(line);
        assert_eq!(answer.map(|_| ()), expected, "{shown}");
        expected.map_or_else(|(number, _)| number, |()| 0)
    }

    #[test]
    fn generated_lines_are_judged_as_their_forms_say() {
        let (forms, mut random) = (forms(), Random::new(7));
        let mut numbers = BTreeMap::new();
        for _ in 0..100_000 {
            let line = some_line(&mut random);
            let number = hold(&forms, &mut random, &line);
            *numbers.entry(number).or_insert(0) += 1;
        }
        assert_eq!(numbers.keys().copied().collect::<Vec<u32>>(), [0, 8, 9]);
        assert!(numbers.values().all(|&times| times > 5_000), "{numbers:?}");
    }

    /// Each form, and each of its bytes lost, doubled or changed to a digit, a
    /// point or a letter.
    #[test]
    fn each_form_and_what_is_next_to_it() {
        let (forms, mut random) = (forms(), Random::new(1));
        for form in &forms {
            let right = form
                .replace("dddddd", "240229")
                .replace('n', "7")
                .into_bytes();
            assert_eq!(hold(&forms, &mut random, &right), 0);
            for place in "/RPP/".len()..right.len() {
                for part in [&b""[..], &[right[place]; 2], b"7", b".", b"A"] {
                    let changed = [&right[..place], part, &right[place + 1..]].concat();
                    hold(&forms, &mut random, &changed);
                }
            }
        }
    }
}
