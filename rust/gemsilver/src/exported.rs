//! What the proved crates export: `c/gemsilver.h` says what each does.

use crate::Identifier;

unsafe extern "C" {
    pub fn gemsilver_register_ok(register: *const u8, length: usize) -> u8;
    pub fn gemsilver_start(
        image: *mut u8,
        image_length: usize,
        card: *mut u8,
        card_length: usize,
        register: *mut u8,
        register_length: usize,
    ) -> u32;
    pub fn gemsilver_open(image: *mut u8, image_length: usize) -> u32;
    pub fn gemsilver_close(image: *mut u8, image_length: usize) -> u32;
    pub fn gemsilver_event(
        image: *mut u8,
        image_length: usize,
        card: *mut u8,
        card_length: usize,
        register: *mut u8,
        register_length: usize,
        identifier: *const u8,
        identifier_length: usize,
    ) -> u32;
    pub fn gemsilver_flush(
        image: *mut u8,
        image_length: usize,
        card: *mut u8,
        card_length: usize,
    ) -> u32;
    pub fn gemsilver_remove(
        image: *mut u8,
        image_length: usize,
        card: *mut u8,
        card_length: usize,
        window: u32,
    ) -> u32;
    pub fn gemsilver_remove_all(
        image: *mut u8,
        image_length: usize,
        card: *mut u8,
        card_length: usize,
        windows: *const u32,
        window_count: usize,
    ) -> u32;
    pub fn gemsilver_step(
        image: *mut u8,
        image_length: usize,
        card: *mut u8,
        card_length: usize,
    ) -> u32;
    pub fn gemsilver_query(
        image: *const u8,
        image_length: usize,
        card: *const u8,
        card_length: usize,
        register: *const u8,
        register_length: usize,
        identifiers: *const Identifier<'_>,
        count: usize,
        first: u16,
        last: u16,
        hits: *mut u8,
        hits_length: usize,
    ) -> u64;
    pub fn gemsilver_mean(
        image: *const u8,
        image_length: usize,
        card: *const u8,
        card_length: usize,
        register: *const u8,
        register_length: usize,
        identifier: *const u8,
        identifier_length: usize,
    ) -> u64;
    pub fn gemsilver_forecast(
        image: *const u8,
        image_length: usize,
        register: *const u8,
        register_length: usize,
        plan: *const u8,
        plan_length: usize,
        counts: *const u32,
        count_count: usize,
        told: *mut u64,
    ) -> u32;
}
