//! The C functions of the archive, as `include/litres.h` declares them.

/// How many numbers a ground has, `LITRES_GROUND_LEN` in the header.
pub const GROUND_LEN: usize = 5;

extern "C" {
    pub fn litres_words(k: u32, n: u32, m: u32, g: u32) -> usize;
    pub fn litres_make(book: *mut u32, len: usize, k: u32, n: u32, m: u32, g: u32) -> u32;
    pub fn litres_clock(book: *mut u32, len: usize, clock: u32) -> u32;
    pub fn litres_delivery(
        book: *mut u32,
        len: usize,
        grade: u32,
        stamp: u32,
        volume: u32,
        halvings: *mut u32,
    ) -> u32;
    pub fn litres_query(
        book: *const u32,
        len: usize,
        grade: u32,
        window: u32,
        sum: *mut u64,
    ) -> u32;
    pub fn litres_ground(
        book: *const u32,
        len: usize,
        grade: u32,
        window: u32,
        ground: *mut [u64; GROUND_LEN],
    ) -> u32;
    pub fn litres_day(
        trace: *const u32,
        trace_len: usize,
        day: u32,
        start: *mut usize,
        length: *mut usize,
    ) -> u32;
    pub fn litres_replay(
        book: *mut u32,
        len: usize,
        trace: *const u32,
        trace_len: usize,
        day: u32,
        answers: *mut u32,
        answers_len: usize,
    ) -> u32;
    pub fn litres_merge(
        first: *const u32,
        first_len: usize,
        first_day: u32,
        second: *const u32,
        second_len: usize,
        second_day: u32,
        out: *mut u32,
        out_len: usize,
    ) -> u32;
}
