//! The functions of corwaphi.h that are used here.

use std::ffi::c_char;

#[derive(Clone, Copy)]
#[repr(C)]
pub struct Store {
    pub number: u64,
}

#[repr(C)]
pub struct Options {
    pub cache: u32,
    pub sectors: u32,
    pub log_sectors: u16,
}

#[repr(C)]
pub struct Row {
    pub key: *const u8,
    pub key_length: usize,
    pub value: *const u8,
    pub value_length: usize,
}

#[repr(C)]
pub struct Page {
    pub bytes: *const u8,
    pub length: usize,
    pub rows: usize,
    pub at: usize,
    pub has_next: bool,
    pub next: Row,
}

#[derive(Default)]
#[repr(C)]
pub struct Numbers {
    pub generation: u64,
    pub batches: u64,
    pub synced: u64,
    pub runs: u64,
    pub tables: u64,
    pub log_room: u32,
    pub free_blocks: u32,
    pub waiting: bool,
}

pub const NOW: u64 = u64::MAX;
pub const MOST_VALUE: usize = 2048;
pub const MOST_ROWS: u64 = 64;
pub const PAGE_BYTES: usize = 64 * (4 + 255 + 2048) + 4 + 255;

extern "C" {
    pub fn corwaphi_name(code: u32) -> *const c_char;
    pub fn corwaphi_remedy(code: u32) -> *const c_char;
    pub fn corwaphi_create(path: *const c_char, options: *const Options) -> u32;
    pub fn corwaphi_open(path: *const c_char, options: *const Options, store: *mut Store) -> u32;
    pub fn corwaphi_open_or_create(path: *const c_char, options: *const Options, store: *mut Store) -> u32;
    pub fn corwaphi_close(store: Store) -> u32;
    pub fn corwaphi_put(store: Store, key: *const u8, key_length: usize, value: *const u8, value_length: usize, number: *mut u64) -> u32;
    pub fn corwaphi_delete(store: Store, key: *const u8, key_length: usize, number: *mut u64) -> u32;
    pub fn corwaphi_write(store: Store, text: *const u8, text_length: usize, number: *mut u64) -> u32;
    pub fn corwaphi_write_if(
        store: Store,
        guards: *const u8,
        guards_length: usize,
        text: *const u8,
        text_length: usize,
        number: *mut u64,
        place: *mut u8,
    ) -> u32;
    pub fn corwaphi_sync(store: Store) -> u32;
    pub fn corwaphi_sync_to(store: Store, number: u64) -> u32;
    pub fn corwaphi_compact(store: Store) -> u32;
    pub fn corwaphi_get(
        store: Store,
        snapshot: u64,
        key: *const u8,
        key_length: usize,
        value: *mut u8,
        room: usize,
        length: *mut usize,
    ) -> u32;
    pub fn corwaphi_rows(
        store: Store,
        snapshot: u64,
        from: *const u8,
        from_length: usize,
        to: *const u8,
        to_length: usize,
        limit: u64,
        buffer: *mut u8,
        room: usize,
        page: *mut Page,
    ) -> u32;
    pub fn corwaphi_snapshot(store: Store, snapshot: *mut u64) -> u32;
    pub fn corwaphi_release(store: Store, snapshot: u64) -> u32;
    pub fn corwaphi_stat(store: Store, numbers: *mut Numbers) -> u32;
}
