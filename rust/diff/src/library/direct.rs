//! The C functions themselves.

#![allow(unsafe_code)]

use super::{Left, UNSET};

extern "C" {
    fn vu_verdict(asked: u8, question: *const u8, n: usize, verdict: *mut u8, place: *mut u64) -> u8;

    fn vu_write(
        asked: u8,
        question: *const u8,
        n: usize,
        room: *mut u8,
        room_len: usize,
        verdict: *mut u8,
        length_or_place: *mut u64,
    ) -> u8;

    fn vu_check(
        asked: u8,
        question: *const u8,
        n: usize,
        sheet: *const u8,
        m: usize,
        verdict: *mut u8,
        place: *mut u64,
    ) -> u8;
}

pub fn verdict(asked: u8, question: &[u8]) -> Left {
    let (mut said, mut beside) = UNSET;
    // SAFETY: a slice is as many readable bytes as it says, never null; the results are our own.
    let number = unsafe { vu_verdict(asked, question.as_ptr(), question.len(), &mut said, &mut beside) };
    Left { number, said, beside }
}

pub fn write(asked: u8, question: &[u8], room: &mut [u8]) -> Left {
    let (mut said, mut beside) = UNSET;
    let (bytes, n, to, length) = (question.as_ptr(), question.len(), room.as_mut_ptr(), room.len());
    // SAFETY: as above; the room is lent to us alone, so it overlaps nothing.
    let number = unsafe { vu_write(asked, bytes, n, to, length, &mut said, &mut beside) };
    Left { number, said, beside }
}

pub fn check(asked: u8, question: &[u8], sheet: &[u8]) -> Left {
    let (mut said, mut beside) = UNSET;
    let (bytes, n, from, length) = (question.as_ptr(), question.len(), sheet.as_ptr(), sheet.len());
    // SAFETY: as above.
    let number = unsafe { vu_check(asked, bytes, n, from, length, &mut said, &mut beside) };
    Left { number, said, beside }
}
