//! The library's functions as it exports them. `include/justrave.h` says what each does and what a caller owes; [`crate::Arbiter`]
//! and [`crate::order()`] see to it that nothing is owed.
//!
//! A slice crosses as a pointer and a length. Where the length is 0 nothing is read or written behind the pointer, and it may be
//! null. Memory that is lent for writing overlaps no other memory of the same call (clause 15.7).

#![allow(missing_docs)]

extern "C" {
    pub fn justrave_layout() -> u64;

    pub fn justrave_state_words(places: usize) -> usize;

    pub fn justrave_start(
        table: *const u8,
        table_length: usize,
        first: u64,
        state: *mut u64,
        state_length: usize,
    ) -> u64;

    pub fn justrave_start_numbers(
        numbers: *const u32,
        numbers_length: usize,
        first: u64,
        state: *mut u64,
        state_length: usize,
    ) -> u64;

    pub fn justrave_carry(old: *const u64, old_length: usize, state: *mut u64, state_length: usize) -> u64;

    pub fn justrave_order(
        table: *const u8,
        table_length: usize,
        buffer: *mut u8,
        buffer_length: usize,
        answer: *mut u64,
        answer_length: usize,
    ) -> u64;

    pub fn justrave_post(state: *mut u64, state_length: usize, place: usize, count: u64) -> u64;

    pub fn justrave_slot(state: *mut u64, state_length: usize, answer: *mut u64, answer_length: usize) -> u64;

    pub fn justrave_run(state: *mut u64, state_length: usize, log: *mut u8, log_length: usize) -> u64;

    pub fn justrave_figures(
        state: *const u64,
        state_length: usize,
        place: usize,
        transfers: u64,
        answer: *mut u64,
        answer_length: usize,
    ) -> u64;

    pub fn justrave_chain(
        state: *const u64,
        state_length: usize,
        place: usize,
        names: *const u8,
        names_length: usize,
        answer: *mut u64,
        answer_length: usize,
    ) -> u64;

    pub fn justrave_lead(
        state: *const u64,
        state_length: usize,
        place: usize,
        log: *const u8,
        log_length: usize,
        answer: *mut i64,
        answer_length: usize,
    ) -> u64;

    pub fn justrave_write(
        state: *const u64,
        state_length: usize,
        buffer: *mut u8,
        buffer_length: usize,
        answer: *mut u64,
        answer_length: usize,
    ) -> u64;

    pub fn justrave_account(
        state: *const u64,
        state_length: usize,
        place: usize,
        answer: *mut u64,
        answer_length: usize,
    ) -> u64;

    pub fn justrave_standing(state: *const u64, state_length: usize, answer: *mut u64, answer_length: usize) -> u64;
}
