//! The check of whole messages, contents, kopecks and dates by both builds.

use super::{some_room, stop, Lent, Seen};
use crate::calls as proved;
use crate::cases::{self, Case};
use crate::plain::{check as plain, Refusal};
use crate::random::Random;

/// Numbers of a list that is long enough for every message.
const AMPLE: usize = 45;

/// Places that no type has, some of which end in the bits of one that it has.
const FAR: &[u32] = &[15, 16, 31, 32, 33, 35, 256, 259, 65_539, u32::MAX];

pub fn run(count: usize, seed: u64) {
    let mut bench = Bench {
        random: Random::new(seed),
        seen: Seen::default(),
        proved_list: Lent::new(),
        plain_list: Lent::new(),
    };
    for _ in 0..count {
        let case = cases::message(&mut bench.random);
        let accepted = bench.hold_check(&case);
        bench.hold_contents(&case, accepted);
        bench.hold_values(&case);
    }
    println!("{count} messages, 0 differences");
    bench.seen.print();
}

struct Bench {
    random: Random,
    seen: Seen,
    proved_list: Lent<u32>,
    plain_list: Lent<u32>,
}

impl Bench {
    /// The check in an ample list and in one of another size; whether it accepts.
    fn hold_check(&mut self, case: &Case) -> bool {
        let answer = self.compare(case, AMPLE);
        self.seen.note("check", &answer);
        let Ok((fields, word)) = answer else {
            if case.right {
                stop(&format!("a right message: {answer:?}"), &case.bytes);
            }
            // 17 comes last: a refused message needs no room.
            let room = self.random.below(AMPLE);
            if self.compare(case, room) != answer {
                stop(&format!("not {answer:?} in room {room}"), &case.bytes);
            }
            return false;
        };
        if word.count_ones() as usize != fields {
            stop(&format!("{fields} fields, word {word:b}"), &case.bytes);
        }
        let room = some_room(&mut self.random, 3 * fields);
        let answer = self.compare(case, room);
        self.seen.note("check", &answer);
        true
    }

    fn compare(&mut self, case: &Case, room: usize) -> Result<(usize, u32), Refusal> {
        let Case { kind, bytes, .. } = case;
        let by_proved = proved::check(*kind, bytes, self.proved_list.prepare(room));
        let by_plain = plain::check(*kind, bytes, self.plain_list.prepare(room));
        let what = format!("check, type {kind}, room {room}");
        same(&what, case, by_proved, by_plain);
        if !self.proved_list.same_as(&self.plain_list) {
            stop(&format!("{what}: the lists differ"), bytes);
        }
        let units = by_proved.map_or(0, |(fields, _)| 3 * fields);
        if !self.proved_list.kept_from(units) {
            stop(
                &format!("{what}: numbers changed behind the fields' own"),
                bytes,
            );
        }
        by_proved
    }

    /// Of a right message every place, of a refused one some; and places that
    /// no type has.
    fn hold_contents(&mut self, case: &Case, accepted: bool) {
        let first = self.random.below(14) as u32;
        let places = if accepted { 0..14 } else { first..first + 2 };
        let far = self.random.word() as u32;
        for place in places.chain([14, *self.random.pick(FAR), far]) {
            let by_proved = proved::content(case.kind, &case.bytes, place);
            let by_plain = plain::content(case.kind, &case.bytes, place);
            let what = format!("content, type {}, place {place}", case.kind);
            same(&what, case, by_proved, by_plain);
        }
    }

    fn hold_values(&mut self, case: &Case) {
        let Case { kind, bytes, .. } = case;
        let kopecks = plain::kopecks(*kind, bytes);
        let date = plain::date(*kind, bytes).map(u64::from);
        self.seen.note("kopecks", &kopecks);
        self.seen.note("date", &date);
        let what = format!("kopecks, type {kind}");
        same(&what, case, proved::kopecks(*kind, bytes), kopecks);
        let what = format!("date, type {kind}");
        same(&what, case, proved::date(*kind, bytes), date);
    }
}

fn same<T: PartialEq + std::fmt::Debug>(what: &str, case: &Case, by_proved: T, by_plain: T) {
    if by_proved != by_plain {
        let what = format!("{what}: proved {by_proved:?}, plain {by_plain:?}");
        stop(&what, &case.bytes);
    }
}
