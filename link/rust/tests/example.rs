//! The example of the rules, both ways, and what callers get from it.

use rimpelsloot::{check, content, date, kopecks, read_text, to_message, to_sheet, write_text};
use rimpelsloot::{mt103, mt202, number, Checked, Date, Kind, Refusal, LIST_ROOM};
use std::error::Error;

const SHEET: &[u8] = include_bytes!("../../../crates/tomessage/stdin");
const MESSAGE: &[u8] = include_bytes!("../../../crates/tomessage/stdout");

#[test]
fn the_sheet_becomes_the_message() {
    let mut room = [7; 300];
    assert_eq!(to_message(SHEET, &mut room), Ok(MESSAGE.len()));
    assert_eq!(&room[..MESSAGE.len()], MESSAGE);
    assert!(room[MESSAGE.len()..].iter().all(|&unit| unit == 7));
}

#[test]
fn the_message_becomes_the_sheet() {
    let mut room = [7; 300];
    assert_eq!(to_sheet(Kind::Mt103, MESSAGE, &mut room), Ok(SHEET.len()));
    assert_eq!(&room[..SHEET.len()], SHEET);
    assert!(room[SHEET.len()..].iter().all(|&unit| unit == 7));
}

#[test]
fn what_callers_get() {
    let checked = Checked {
        fields: 8,
        word: 0b1110_0101_1011,
    };
    let mut list = [7; LIST_ROOM];
    assert_eq!(check(Kind::Mt103, MESSAGE, &mut list), Ok(checked));
    assert_eq!(list[..3], [5, 9, 13]);
    assert!(list[24..].iter().all(|&unit| unit == 7));
    assert_eq!(kopecks(Kind::Mt103, MESSAGE), Ok(150_050));
    let date_of_32a = Date {
        year: 2024,
        month: 2,
        day: 29,
    };
    assert_eq!(date(Kind::Mt103, MESSAGE), Ok(date_of_32a));
}

#[test]
fn contents_by_their_places() {
    let of = |place| content(Kind::Mt103, MESSAGE, place);
    assert_eq!(of(mt103::F20), Some(&b"+A17"[..]));
    assert_eq!(of(mt103::F26T), None);
    assert_eq!(of(mt103::F32A), Some(&b"240229RUB1500,5"[..]));
    assert_eq!(of(mt103::F50K), Some(&b"/40702\r\n'NORD'"[..]));
    assert_eq!(of(mt103::F77B), None);
    assert_eq!(of(14), None);
    assert_eq!(of(u32::MAX), None);
    assert_eq!(content(Kind::Mt202, MESSAGE, mt202::F20), None);
    let mut list = [0; LIST_ROOM];
    let checked = check(Kind::Mt103, MESSAGE, &mut list).expect("a right message");
    let places = (0..40).chain([u32::MAX]);
    let present: Vec<u32> = places.filter(|&place| checked.has(place)).collect();
    assert_eq!(present.len(), checked.fields);
    for (&place, numbers) in present.iter().zip(list.chunks(3)) {
        let part = numbers[1] as usize..numbers[2] as usize;
        assert_eq!(of(place), Some(&MESSAGE[part]));
    }
}

#[test]
fn texts() {
    let mut room = [0; 12];
    let text = b"ABC 12 DEF";
    assert_eq!(write_text(true, text, &mut room[..10]), refused(17, 12));
    assert_eq!(write_text(true, text, &mut room), Ok(12));
    assert_eq!(&room, b"'ABC 12 DEF'");
    assert_eq!(read_text(true, b"'AB", &mut room), refused(14, 3));
    assert_eq!(read_text(false, b"'AB", &mut room), Ok(3));
}

#[test]
fn refusals_leave_the_room() {
    let mut room = [7; 300];
    let other = Kind::Other(104);
    assert_eq!(to_sheet(other, MESSAGE, &mut room), refused(18, 0));
    let last_record = SHEET.len() - b"71A\tOUR\n".len();
    let unended = &SHEET[..SHEET.len() - 1];
    assert_eq!(to_message(unended, &mut room), refused(19, last_record));
    let short = &mut room[..10];
    assert_eq!(to_message(SHEET, short), refused(17, MESSAGE.len()));
    assert!(room.iter().all(|&unit| unit == 7));
}

#[test]
fn empty_slices() {
    let mut room = [7; 300];
    for sign in [false, true] {
        assert_eq!(read_text(sign, &[], &mut room), Ok(0));
        assert_eq!(read_text(sign, &[], &mut []), Ok(0));
        assert_eq!(read_text(sign, b"A", &mut []), refused(17, 1));
        assert_eq!(write_text(sign, &[], &mut room), Ok(0));
        assert_eq!(write_text(sign, &[], &mut []), Ok(0));
    }
    assert_eq!(write_text(true, b"A", &mut []), refused(17, 3));
    for kind in [Kind::Mt103, Kind::Mt202] {
        assert_eq!(check(kind, &[], &mut []), refused(2, 0));
        assert_eq!(content(kind, &[], 0), None);
        assert_eq!(kopecks(kind, &[]), refused(2, 0));
        assert_eq!(date(kind, &[]), refused(2, 0));
        assert_eq!(to_sheet(kind, &[], &mut room), refused(2, 0));
        assert_eq!(to_sheet(kind, &[], &mut []), refused(2, 0));
    }
    assert_eq!(check(Kind::Mt103, MESSAGE, &mut []), refused(17, 24));
    let sheet = to_sheet(Kind::Mt103, MESSAGE, &mut []);
    assert_eq!(sheet, refused(17, SHEET.len()));
    assert_eq!(to_message(&[], &mut room), refused(19, 0));
    assert_eq!(to_message(&[], &mut []), refused(19, 0));
    assert_eq!(to_message(SHEET, &mut []), refused(17, MESSAGE.len()));
    assert!(room.iter().all(|&unit| unit == 7));
}

#[test]
fn a_type_by_its_number() {
    for number in [103, 202, 0, 104, u32::MAX] {
        assert_eq!(Kind::from(number).number(), number);
        assert_eq!(
            kopecks(Kind::from(number), MESSAGE),
            kopecks(Kind::Other(number), MESSAGE)
        );
    }
    assert_eq!(date(Kind::from(104), MESSAGE), refused(number::TYPE, 0));
}

#[test]
fn a_refusal_is_an_error() {
    fn length(sheet: &[u8]) -> Result<usize, Box<dyn Error>> {
        Ok(to_message(sheet, &mut [0; 300])?)
    }
    let error = length(b"").expect_err("no sheet");
    assert_eq!(
        error.to_string(),
        "refused by 19 at 0: The sheet is not built as a sheet must be: a record without its end, \
         an empty part, a wrong tag, VO digits that are not five."
    );
    assert!((1..=19).all(|number| Refusal { number, place: 0 }.meaning().is_some()));
    let unknown = Refusal {
        number: 0,
        place: 3,
    };
    assert_eq!(unknown.to_string(), "refused by 0 at 3");
}

fn refused<T>(number: u32, place: usize) -> Result<T, Refusal> {
    Err(Refusal { number, place })
}
