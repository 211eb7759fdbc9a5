//! Texts alone: reading and writing by both builds, and round trips.

use super::{some_room, stop, Lent, Seen};
use crate::calls as proved;
use crate::plain::{text as plain, Refusal};
use crate::random::Random;
use crate::signs::{closed_bank_signs, LATIN, NEAR, READABLE, RUSSIAN, SHARED};

type Call = fn(bool, &[u8], &mut [u8]) -> Result<usize, Refusal>;

/// A call in both builds.
struct Pair {
    name: &'static str,
    proved: Call,
    plain: Call,
}

const READ: Pair = Pair {
    name: "read_text",
    proved: proved::read_text,
    plain: plain::read_text,
};

const WRITE: Pair = Pair {
    name: "write_text",
    proved: proved::write_text,
    plain: plain::write_text,
};

/// No text in or out is longer than this, refused ones aside.
const AMPLE: usize = 10_000;

pub fn run(count: usize, seed: u64) {
    let mut bench = Bench {
        random: Random::new(seed),
        seen: Seen::default(),
        proved_room: Lent::new(),
        plain_room: Lent::new(),
    };
    for number in 0..count {
        let text = bench.text(number);
        bench.both_ways(false, &text);
        bench.both_ways(true, &text);
    }
    println!("{count} texts, 0 differences");
    bench.seen.print();
}

struct Bench {
    random: Random,
    seen: Seen,
    proved_room: Lent<u8>,
    plain_room: Lent<u8>,
}

impl Bench {
    /// Uses the text as a desk text and as a bank text.
    fn both_ways(&mut self, sign: bool, text: &[u8]) {
        if let Some(written) = self.hold(&WRITE, sign, text) {
            match self.hold(&READ, sign, &written) {
                Some(again) if again == text => {}
                _ => stop("what is written does not read back", text),
            }
        }
        if let Some(reading) = self.hold(&READ, sign, text) {
            self.no_longer_than(sign, text, &reading);
        }
    }

    /// What was read can be written, in no more bytes than it came in.
    fn no_longer_than(&mut self, sign: bool, bank: &[u8], reading: &[u8]) {
        match self.hold(&WRITE, sign, reading) {
            Some(again) if again.len() <= bank.len() => {}
            None if reading.len() > plain::DESK_LIMIT => {}
            _ => stop("what is read is written longer or not at all", bank),
        }
    }

    /// One call in both builds: first in ample room, then in a room of some
    /// other size. Hands on what was written in ample room.
    fn hold(&mut self, pair: &Pair, sign: bool, text: &[u8]) -> Option<Vec<u8>> {
        let answer = self.compare(pair, sign, text, AMPLE.min(3 * text.len() + 3));
        self.seen.note(pair.name, &answer);
        let needed = answer.ok()?;
        let written = self.proved_room.written(needed).to_vec();
        let room = some_room(&mut self.random, needed);
        let answer = self.compare(pair, sign, text, room);
        self.seen.note(pair.name, &answer);
        let expected = if room < needed {
            Err(Refusal {
                number: 17,
                place: needed,
            })
        } else {
            Ok(needed)
        };
        if answer != expected {
            stop(&format!("{} with room {room}: {answer:?}", pair.name), text);
        }
        Some(written)
    }

    /// Both builds on one input and one size of room.
    fn compare(
        &mut self,
        pair: &Pair,
        sign: bool,
        text: &[u8],
        room: usize,
    ) -> Result<usize, Refusal> {
        let by_proved = (pair.proved)(sign, text, self.proved_room.prepare(room));
        let by_plain = (pair.plain)(sign, text, self.plain_room.prepare(room));
        let name = pair.name;
        if by_proved != by_plain {
            let what = format!(
                "{name}, sign {sign}, room {room}: proved {by_proved:?}, plain {by_plain:?}"
            );
            stop(&what, text);
        }
        if !self.proved_room.same_as(&self.plain_room) {
            stop(
                &format!("{name}, sign {sign}, room {room}: lent bytes differ"),
                text,
            );
        }
        if !self.proved_room.kept_from(by_proved.unwrap_or(0)) {
            stop(
                &format!("{name}, sign {sign}, room {room}: bytes changed behind the answer"),
                text,
            );
        }
        by_proved
    }
}

// Generated texts.

impl Bench {
    /// First the empty text and every single byte, then all sorts.
    fn text(&mut self, number: usize) -> Vec<u8> {
        match number {
            0 => Vec::new(),
            1..=256 => vec![(number - 1) as u8],
            _ => self.random_text(),
        }
    }

    fn random_text(&mut self) -> Vec<u8> {
        let length = self.length();
        let mut text = match self.random.below(6) {
            0 => (0..length).map(|_| self.random.byte()).collect(),
            1 | 2 => self.runs(&[RUSSIAN, LATIN, SHARED], length),
            3 => self.runs(&[LATIN, SHARED], length),
            4 => self.runs(&[READABLE, SHARED, b"'"], length),
            _ => closed_bank_signs(&mut self.random, length),
        };
        if self.random.once_in(4) {
            self.damage(&mut text);
        }
        text
    }

    /// Mostly short; at times long, or just at or over a limit.
    fn length(&mut self) -> usize {
        match self.random.below(400) {
            0 => *self
                .random
                .pick(&[4_999, 5_000, 5_001, 9_999, 10_000, 10_001]),
            1 => self.random.between(1_000, 11_000),
            2..=19 => self.random.between(60, 300),
            20..=199 => self.random.between(0, 8),
            _ => self.random.between(0, 60),
        }
    }

    /// Runs of one kind of byte after another; all runs of a text are about
    /// as long, so that there are texts that change at every byte.
    fn runs(&mut self, kinds: &[&[u8]], length: usize) -> Vec<u8> {
        let longest = *self.random.pick(&[1, 2, 3, 8, 40]);
        let mut text = Vec::with_capacity(length + longest);
        while text.len() < length {
            let kind = *self.random.pick(kinds);
            for _ in 0..self.random.between(1, longest) {
                text.push(*self.random.pick(kind));
            }
        }
        text.truncate(length);
        text
    }

    /// One change: at an end or anywhere, a byte replaced, added or taken out.
    fn damage(&mut self, text: &mut Vec<u8>) {
        let place = match self.random.below(4) {
            0 => 0,
            1 => text.len().saturating_sub(1),
            _ => self.random.below(text.len() + 1),
        };
        let byte = match self.random.below(3) {
            0 => self.random.byte(),
            1 => *self.random.pick(NEAR),
            _ => b'\'',
        };
        match self.random.below(3) {
            0 => text.insert(place, byte),
            _ if place >= text.len() => {}
            1 => text[place] = byte,
            _ => {
                text.remove(place);
            }
        }
    }
}
