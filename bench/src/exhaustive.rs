//! Details by trying everything: each choice of sides for a text, each cut of
//! those of a 103, and each division into lines at lawful breaks. It shares no
//! code with the plain build, and holds it and the archive.

use crate::signs::{desk, READABLE, SHARED};
use std::sync::LazyLock;

/// The most bytes that the code and both texts come to.
const MOST: usize = 210;
const WIDTHS_70: &[usize] = &[35; 4];
const WIDTHS_72: &[usize] = &[30, 33, 33, 33, 33, 33];
/// What may begin no line of 70 but the first.
const BARRED_70: &[u8] = b":-";

/// How details stand in a message, without marks: lines that put together with
/// nothing between are the code and the text, or the rest of it.
pub struct Laid {
    pub details: Vec<Vec<u8>>,
    /// None of them if 70 has the whole.
    pub rest: Vec<Vec<u8>>,
}

/// The whole if it fits 70; else the longest first half that fits it while the
/// rest fits 72, there behind an RPP line or not; else none.
pub fn laid(sign: bool, code: &[u8], text: &[u8], rpp: bool) -> Option<Laid> {
    let details = Details::of(sign, code, text, rpp);
    let whole = details.in_70(text).map(|details| Laid {
        details,
        rest: Vec::new(),
    });
    whole.or_else(|| (1..text.len()).rev().find_map(|first| details.cut(first)))
}

/// An RPP line takes one of the later lines.
fn widths_72(rpp: bool) -> &'static [usize] {
    &WIDTHS_72[..WIDTHS_72.len() - usize::from(rpp)]
}

struct Details<'a> {
    sign: bool,
    code: &'a [u8],
    text: &'a [u8],
    rpp: bool,
    /// The fewest bytes for each front of the text, and for each rest of it by
    /// its length.
    fronts: Vec<usize>,
    rests: Vec<usize>,
}

impl<'a> Details<'a> {
    fn of(sign: bool, code: &'a [u8], text: &'a [u8], rpp: bool) -> Details<'a> {
        Details {
            sign,
            code,
            text,
            rpp,
            fronts: fewest(sign, text.iter().copied()),
            // Backwards a text takes as many bytes.
            rests: fewest(sign, text.iter().rev().copied()),
        }
    }

    /// The lines of both halves if the cut is lawful.
    fn cut(&self, first: usize) -> Option<Laid> {
        let front = self.code.len() + self.fronts[first];
        let rest = self.rests[self.text.len() - first];
        // Said once more by the division, at more cost.
        let fits_70 = front <= WIDTHS_70.iter().sum();
        if !fits_70 || front + rest > MOST {
            return None;
        }
        Some(Laid {
            rest: self.in_72(&self.text[first..])?,
            details: self.in_70(&self.text[..first])?,
        })
    }

    fn in_70(&self, text: &[u8]) -> Option<Vec<Vec<u8>>> {
        let whole = [self.code, &written(self.sign, text)].concat();
        division(&whole, self.code.len(), WIDTHS_70, BARRED_70)
    }

    fn in_72(&self, text: &[u8]) -> Option<Vec<Vec<u8>>> {
        division(&written(self.sign, text), 1, widths_72(self.rpp), b"")
    }
}

const RUSSIAN: usize = 0;
const LATIN: usize = 1;

/// What a desk byte is written as on each side; 0 where it can't stand.
static WRITTEN: LazyLock<[[u8; 2]; 256]> = LazyLock::new(|| {
    let mut table = [[0; 2]; 256];
    let russian = desk("АБВГДЕЁЖЗИЙКЛМНОПРСТУФХЦЧШЩЪЫЬЭЮЯ№");
    for (&sign, &letter) in russian.iter().zip(READABLE) {
        table[usize::from(sign)][RUSSIAN] = letter;
    }
    for letter in (b'A'..=b'Z').chain(b'a'..=b'z') {
        table[usize::from(letter)][LATIN] = letter;
    }
    for &mark in SHARED {
        table[usize::from(mark)] = [mark; 2];
    }
    table
});

/// Cost of a bank text: its bytes, and of those the ones between apostrophes.
type Cost = (usize, usize);
const NEVER: Cost = (usize::MAX / 2, 0);

/// The best bank text of all that read as this one.
fn written(sign: bool, text: &[u8]) -> Vec<u8> {
    if !sign {
        return text.to_vec();
    }
    // What the text from a place on costs, if a side is in force before it.
    let mut costs = vec![[(0, 0), (1, 0)]];
    for &b in text.iter().rev() {
        let behind = costs[costs.len() - 1];
        let cost = |from: usize| {
            let on = |side: usize| match WRITTEN[usize::from(b)][side] {
                0 => NEVER,
                _ => {
                    let (bytes, between) = behind[side];
                    (bytes + 1 + usize::from(side != from), between + side)
                }
            };
            on(RUSSIAN).min(on(LATIN))
        };
        costs.push([cost(RUSSIAN), cost(LATIN)]);
    }
    costs.reverse();
    let mut bank = Vec::new();
    let mut side = RUSSIAN;
    for (&b, costs) in text.iter().zip(costs.windows(2)) {
        let letters = WRITTEN[usize::from(b)];
        let (bytes, between) = costs[1][side];
        if letters[side] == 0 || costs[0][side] != (bytes + 1, between + side) {
            bank.push(b'\'');
            side = 1 - side;
        }
        bank.push(letters[side]);
    }
    if side == LATIN {
        bank.push(b'\'');
    }
    bank
}

/// The fewest bytes for each front of a text, the empty one first.
fn fewest(sign: bool, text: impl Iterator<Item = u8>) -> Vec<usize> {
    if !sign {
        return (0..=text.count()).collect();
    }
    sides(text).iter().map(|costs| costs[RUSSIAN]).collect()
}

/// The fewest bytes for each front of a text with each side in force behind it.
fn sides(text: impl Iterator<Item = u8>) -> Vec<[usize; 2]> {
    let mut costs = [0, 1];
    let mut all = vec![costs];
    for b in text {
        let letters = WRITTEN[usize::from(b)];
        let on = |side: usize| match letters[side] {
            0 => NEVER.0,
            _ => costs[side] + 1,
        };
        let (russian, latin) = (on(RUSSIAN), on(LATIN));
        costs = [russian.min(latin + 1), latin.min(russian + 1)];
        all.push(costs);
    }
    all
}

/// Of all divisions into lines of at most these widths, where no line but the
/// first begins with a barred byte and the first has `least` bytes or more: the
/// one with the longest lines, an earlier line before a later.
fn division(whole: &[u8], least: usize, widths: &[usize], barred: &[u8]) -> Option<Vec<Vec<u8>>> {
    let end = whole.len();
    if end > widths.iter().sum() {
        return None;
    }
    let divides = divides(whole, widths, barred);
    let mut lines = Vec::new();
    let mut from = 0;
    for (line, width) in widths.iter().enumerate() {
        let least = if line == 0 { least } else { 1 };
        let furthest = end.min(from + width);
        let mut ends = (from + least..=furthest).rev();
        let at = ends.find(|&at| may_end(whole, barred, at) && divides[line + 1][at])?;
        lines.push(whole[from..at].to_vec());
        from = at;
        if from == end {
            return Some(lines);
        }
    }
    None
}

/// Whether a line may end at a place, and another begin there.
fn may_end(whole: &[u8], barred: &[u8], at: usize) -> bool {
    at == whole.len() || !barred.contains(&whole[at])
}

/// For each line, and behind the last, and for each place: whether the bytes
/// from there on can be divided over the lines from that one on.
fn divides(whole: &[u8], widths: &[usize], barred: &[u8]) -> Vec<[bool; MOST + 1]> {
    let end = whole.len();
    let mut divides = vec![[false; MOST + 1]; widths.len() + 1];
    divides[widths.len()][end] = true;
    for line in (0..widths.len()).rev() {
        divides[line][end] = true;
        let mut nearest = None;
        for from in (0..end).rev() {
            if may_end(whole, barred, from + 1) && divides[line + 1][from + 1] {
                nearest = Some(from + 1);
            }
            divides[line][from] = nearest.is_some_and(|at| at - from <= widths[line]);
        }
    }
    divides
}

/// What is true of all divisions of a text.
#[derive(Debug, PartialEq, Eq)]
pub struct Divisions {
    /// How many lines the one with the fewest has.
    pub fewest: usize,
    /// For each line where it ends at the latest, and at the earliest.
    pub latest: Vec<usize>,
    pub earliest: Vec<usize>,
}

/// Over all divisions of a code and a text in 70.
pub fn divisions_70(whole: &[u8], code: usize) -> Divisions {
    divisions(whole, code, WIDTHS_70, BARRED_70)
}

/// In 72, behind a code or with none before it.
pub fn divisions_72(whole: &[u8], code: usize, rpp: bool) -> Divisions {
    divisions(whole, code.max(1), widths_72(rpp), b"")
}

fn divisions(whole: &[u8], least: usize, widths: &[usize], barred: &[u8]) -> Divisions {
    let end = whole.len();
    let divides = divides(whole, widths, barred);
    let mut all = Divisions {
        fewest: usize::MAX,
        latest: Vec::new(),
        earliest: Vec::new(),
    };
    // The places where a line may begin, in some division up to there.
    let mut begins = vec![0];
    for (line, width) in widths.iter().enumerate() {
        let least = if line == 0 { least } else { 1 };
        let mut ends = [false; MOST + 1];
        for from in begins {
            for at in from + least..=end.min(from + width) {
                ends[at] |= may_end(whole, barred, at) && divides[line + 1][at];
            }
        }
        let places = (0..=end).filter(|&at| ends[at]);
        all.latest.extend(places.clone().last());
        all.earliest.extend(places.clone().next());
        if ends[end] {
            all.fewest = all.fewest.min(line + 1);
        }
        begins = places.filter(|&at| at < end).collect();
    }
    all
}

/// The fewest lines of 70 for a text behind its code, with the sign, over all
/// its shortest spellings and all divisions of each; none if none fits.
pub fn fewest_lines(code: &[u8], text: &[u8]) -> Option<usize> {
    let forwards = sides(text.iter().copied());
    let mut backwards = sides(text.iter().rev().copied());
    backwards.reverse();
    let bytes = forwards[text.len()][RUSSIAN];
    let is_shortest =
        |(i, side): Spot, (j, to): Spot| forwards[i][side] + 1 + backwards[j][to] == bytes;
    let width = WIDTHS_70[0];
    // Where the line at hand has so many bytes, how many lines there are.
    let mut lines = vec![[vec![NO_LINE; width + 1], vec![NO_LINE; width + 1]]; text.len() + 1];
    lines[0][RUSSIAN][code.len()] = 1;
    let mut spots: Vec<Spot> = (0..=text.len())
        .flat_map(|i| [(i, RUSSIAN), (i, LATIN)])
        .collect();
    spots.sort_by_key(|&(i, side)| forwards[i][side]);
    for (i, side) in spots {
        let mut go = |to: Spot, byte: u8| {
            if !is_shortest((i, side), to) {
                return;
            }
            let may_begin = !BARRED_70.contains(&byte);
            for column in 1..=width {
                let line = lines[i][side][column];
                let there = &mut lines[to.0][to.1];
                if column < width {
                    there[column + 1] = there[column + 1].min(line);
                }
                if may_begin && line < WIDTHS_70.len() {
                    there[1] = there[1].min(line + 1);
                }
            }
        };
        go((i, 1 - side), b'\'');
        if i < text.len() {
            let letter = WRITTEN[usize::from(text[i])][side];
            if letter != 0 {
                go((i + 1, side), letter);
            }
        }
    }
    let fewest = lines[text.len()][RUSSIAN].iter().copied().min();
    fewest.filter(|&line| line != NO_LINE)
}

/// So many characters of a text are written, and a side is in force.
type Spot = (usize, usize);

const NO_LINE: usize = usize::MAX;

#[cfg(test)]
mod tests {
    use super::*;

    fn cuts(text: &[u8], rpp: bool) -> Vec<usize> {
        let details = Details::of(true, b"'(VO10100)'", text, rpp);
        let lawful = |first: &usize| details.cut(*first).is_some();
        (1..text.len()).filter(lawful).collect()
    }

    #[test]
    fn the_cuts_that_fit_are_no_interval() {
        let letters = |count: usize| "Ж".repeat(count);
        let text = desk(&format!("{}AAAAA{}", letters(100), letters(92)));
        let fitting: Vec<usize> = (4..=100).chain(105..=127).collect();
        assert_eq!(cuts(&text, false), fitting);
        // Behind an RPP line 72 has a line less.
        let fitting: Vec<usize> = (37..=100).chain(105..=127).collect();
        assert_eq!(cuts(&text, true), fitting);
        let text = desk(&format!("{}{}", letters(125), "A".repeat(72)));
        assert_eq!(cuts(&text, false), Vec::from_iter(4..=125));
    }

    /// Every choice of breaks, lawful or not.
    fn by_breaks(whole: &[u8], least: usize, widths: &[usize], barred: &[u8]) -> Vec<Vec<usize>> {
        let is_lawful = |ends: &Vec<usize>| {
            let mut from = 0;
            let fits = |(line, &at): (usize, &usize)| {
                let least = if line == 0 { least } else { 1 };
                let long = at - std::mem::replace(&mut from, at);
                least <= long && long <= widths[line] && may_end(whole, barred, at)
            };
            ends.len() <= widths.len() && ends.iter().enumerate().all(fits)
        };
        let ends = |breaks: u32| -> Vec<usize> {
            let is_end = |at: &usize| *at == whole.len() || breaks >> at & 1 == 1;
            (1..=whole.len()).filter(is_end).collect()
        };
        let all = (0..1 << whole.len()).filter(|breaks| breaks & 1 == 0);
        all.map(ends).filter(is_lawful).collect()
    }

    #[test]
    fn all_divisions_of_short_texts() {
        for widths in [&[3, 2, 3][..], &[2, 1, 2], &[1, 3], &[4, 4, 4, 4]] {
            for (length, marks) in
                (1..9).flat_map(|length| (0..1 << length).map(move |m| (length, m)))
            {
                let byte = |at: usize| if marks >> at & 1 == 1 { b'-' } else { b'A' };
                let whole: Vec<u8> = (0..length).map(byte).collect();
                for least in 1..3 {
                    let each = by_breaks(&whole, least, widths, b"-");
                    let all = divisions(&whole, least, widths, b"-");
                    let ends =
                        |line: usize| each.iter().filter_map(move |ends| ends.get(line).copied());
                    let lines = || 0..widths.len();
                    let fewest = each.iter().map(Vec::len).min().unwrap_or(usize::MAX);
                    let latest = lines().filter_map(|line| ends(line).max()).collect();
                    let earliest = lines().filter_map(|line| ends(line).min()).collect();
                    let expected = Divisions {
                        fewest,
                        latest,
                        earliest,
                    };
                    assert_eq!(all, expected, "{whole:?} {least} {widths:?}");
                }
            }
        }
    }

    #[test]
    fn another_spelling_may_take_a_line_less() {
        let code = b"'(VO10100)'";
        let lines = |behind: usize| {
            let text = desk(&format!("{}AB-{}", "Ж".repeat(20), "Ж".repeat(behind)));
            let ours = Details::of(true, code, &text, false).in_70(&text);
            (ours.map(|lines| lines.len()), fewest_lines(code, &text))
        };
        assert_eq!(lines(33), (Some(2), Some(2)));
        assert_eq!(lines(34), (Some(3), Some(2)));
        assert_eq!(lines(104), (None, Some(4)));
        assert_eq!(lines(105), (None, None));
    }

    #[test]
    fn the_best_text_of_all() {
        for (text, bank) in [
            ("ПЁТР", "PoTR"),
            ("ABC 12 DEF", "'ABC 12 DEF'"),
            ("ABЯC", "'AB'a'C'"),
            (" 1A 2 Б 3", " 1'A' 2 B 3"),
        ] {
            let text = desk(text);
            assert_eq!(written(true, &text), bank.as_bytes());
            assert_eq!(fewest(true, text.iter().copied()).last(), Some(&bank.len()));
        }
    }
}
