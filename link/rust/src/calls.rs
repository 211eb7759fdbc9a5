//! The exports, as `include/desk.h` declares them, and each as a safe call with its answer still one number.
//! All unsafe code of the crate is here.
//!
//! The exports ask for nothing but what slices have, and for 32 KB of stack. A slice's pointer is not null, is aligned
//! and stands before as many units as its length says, an empty one's too; a shared and a unique borrow lie apart. The
//! exports read no further, write to the unique borrow alone, and keep no pointer.

mod exports {
    extern "C" {
        pub fn desk_read_text(
            sign: u32,
            bank: *const u8,
            bank_len: usize,
            out: *mut u8,
            out_len: usize,
        ) -> u64;
        pub fn desk_write_text(
            sign: u32,
            text: *const u8,
            text_len: usize,
            out: *mut u8,
            out_len: usize,
        ) -> u64;
        pub fn desk_check(
            kind: u32,
            message: *const u8,
            len: usize,
            list: *mut u32,
            list_len: usize,
        ) -> u64;
        pub fn desk_content(kind: u32, message: *const u8, len: usize, place: u32) -> u64;
        pub fn desk_kopecks(kind: u32, message: *const u8, len: usize) -> u64;
        pub fn desk_date(kind: u32, message: *const u8, len: usize) -> u64;
        pub fn desk_to_sheet(
            kind: u32,
            message: *const u8,
            len: usize,
            out: *mut u8,
            out_len: usize,
        ) -> u64;
        pub fn desk_to_message(sheet: *const u8, len: usize, out: *mut u8, out_len: usize) -> u64;
    }
}

pub fn read_text(sign: bool, bank: &[u8], room: &mut [u8]) -> u64 {
    let (out, out_len) = (room.as_mut_ptr(), room.len());
    // SAFETY: `bank` is read for its length, `room` written for its own; the borrows lie apart and outlive the call.
    unsafe { exports::desk_read_text(sign.into(), bank.as_ptr(), bank.len(), out, out_len) }
}

pub fn write_text(sign: bool, text: &[u8], room: &mut [u8]) -> u64 {
    let (out, out_len) = (room.as_mut_ptr(), room.len());
    // SAFETY: `text` is read for its length, `room` written for its own; the borrows lie apart and outlive the call.
    unsafe { exports::desk_write_text(sign.into(), text.as_ptr(), text.len(), out, out_len) }
}

pub fn check(kind: u32, message: &[u8], list: &mut [u32]) -> u64 {
    let (numbers, count) = (list.as_mut_ptr(), list.len());
    // SAFETY: `message` is read for its length, `list` written for its own, in numbers of 32 bits, for which a slice of
    // u32 is aligned; the borrows lie apart and outlive the call.
    unsafe { exports::desk_check(kind, message.as_ptr(), message.len(), numbers, count) }
}

pub fn content(kind: u32, message: &[u8], place: u32) -> u64 {
    // SAFETY: `message` is read for its length, and nothing is written; the borrow outlives the call.
    unsafe { exports::desk_content(kind, message.as_ptr(), message.len(), place) }
}

pub fn kopecks(kind: u32, message: &[u8]) -> u64 {
    // SAFETY: `message` is read for its length, and nothing is written; the borrow outlives the call.
    unsafe { exports::desk_kopecks(kind, message.as_ptr(), message.len()) }
}

pub fn date(kind: u32, message: &[u8]) -> u64 {
    // SAFETY: `message` is read for its length, and nothing is written; the borrow outlives the call.
    unsafe { exports::desk_date(kind, message.as_ptr(), message.len()) }
}

pub fn to_sheet(kind: u32, message: &[u8], room: &mut [u8]) -> u64 {
    let (out, out_len) = (room.as_mut_ptr(), room.len());
    // SAFETY: `message` is read for its length, `room` written for its own; the borrows lie apart and outlive the call.
    unsafe { exports::desk_to_sheet(kind, message.as_ptr(), message.len(), out, out_len) }
}

pub fn to_message(sheet: &[u8], room: &mut [u8]) -> u64 {
    let (out, out_len) = (room.as_mut_ptr(), room.len());
    // SAFETY: `sheet` is read for its length, `room` written for its own; the borrows lie apart and outlive the call.
    unsafe { exports::desk_to_message(sheet.as_ptr(), sheet.len(), out, out_len) }
}
