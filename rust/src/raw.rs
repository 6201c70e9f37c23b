//! The five C functions as the static library has them. Each answers 0 for accepted or a refusal's number.

use core::ffi::c_uchar;

extern "C" {
    pub fn adarbukoi_read(
        dump: *const c_uchar,
        dump_len: usize,
        book: *mut c_uchar,
        book_room: usize,
        length_or_place: *mut u64,
    ) -> u32;

    pub fn adarbukoi_write(
        book: *const c_uchar,
        book_len: usize,
        dump: *mut c_uchar,
        dump_room: usize,
        length_or_place: *mut u64,
    ) -> u32;

    pub fn adarbukoi_list(
        book: *const c_uchar,
        book_len: usize,
        rows: *mut u32,
        rows_room: usize,
        length_or_place: *mut u64,
    ) -> u32;

    pub fn adarbukoi_field(
        book: *const c_uchar,
        book_len: usize,
        object: u32,
        kind: u32,
        offset_or_place: *mut u64,
        length: *mut u64,
    ) -> u32;

    pub fn adarbukoi_why(
        book: *const c_uchar,
        book_len: usize,
        row: u64,
        answer: *mut u32,
        offset_or_place: *mut u64,
        kind: *mut u32,
    ) -> u32;
}
