//! The calls of libksmbook as `ksmbook.h` has them, and their numbers.

use crate::book::Counters;
use core::ffi::c_void;
use core::ptr::null_mut;

pub const DONE: u32 = 0;
pub const VACANT: u32 = 1;
pub const ZERO: u32 = 2;
pub const LIFE: u32 = 3;
pub const BUSY: u32 = 4;
pub const DIFFERS: u32 = 5;
pub const USED: u32 = 6;
pub const NOTHING: u32 = 7;
/// From here on a call was refused.
pub const FIRST_REFUSAL: u32 = 10;
pub const CLOSED: u32 = 10;
pub const SHAPE: u32 = 13;
pub const MEMORY: u32 = 14;
pub const RANGE: u32 = 15;
pub const STATE: u32 = 16;
pub const HOLDING: u32 = 17;
pub const NO_PASS: u32 = 19;
pub const PASSES_OUT: u32 = 20;

// Why a book refuses a command, or stopped.
pub const UNKNOWN_PAGE: u32 = 32;
pub const ALREADY_REGISTERED: u32 = 33;
pub const NO_FRAME: u32 = 34;
pub const NOT_RUNNING: u32 = 35;
pub const SHARED_PAGES: u32 = 36;
pub const BAD_VALUE: u32 = 37;
pub const IN_USE: u32 = 38;
pub const CROSSES_NODES: u32 = 39;
pub const UNKNOWN_PLACE: u32 = 40;
pub const BAD_NODE: u32 = 41;

/// A command of a book.
#[repr(C)]
#[derive(Clone, Copy, Default)]
pub struct Request {
    pub kind: u16,
    pub guest: u16,
    pub page: u32,
    pub visits: u64,
    pub node: u32,
    pub value: u32,
    pub bytes: [u64; 8],
}

/// What a command did.
#[repr(C)]
#[derive(Clone, Copy, Default)]
pub struct Made {
    pub count: u64,
    pub stop: u32,
    pub node: u32,
}

/// How an audit's lookup of a place ended.
#[repr(C)]
#[derive(Clone, Copy, Default)]
pub struct Row {
    pub answer: u32,
    pub frame: u32,
    pub life: u64,
    pub words: [u64; 8],
}

/// A shared book.
#[repr(C)]
pub struct SharedHandle {
    inside: [u64; 32],
}

impl SharedHandle {
    /// One that is not open.
    pub const NONE: SharedHandle = SharedHandle { inside: [0; 32] };
}

/// A table, a book or a pass.
#[repr(C)]
pub struct Handle {
    at: *mut c_void,
    passes: *mut c_void,
    lock: u32,
    unused: u32,
}

impl Handle {
    /// One that is not open.
    pub const NONE: Handle = Handle { at: null_mut(), passes: null_mut(), lock: 0, unused: 0 };
}

extern "C" {
    pub fn ksm_version() -> u32;
    pub fn ksm_table_open(table: *mut Handle, nodes: u32, frames_per_node: u32, passes: u32, last_generation: u64, tries: u32) -> u32;
    pub fn ksm_table_close(table: *mut Handle) -> u32;
    pub fn ksm_pass_open(table: *mut Handle, pass: *mut Handle) -> u32;
    pub fn ksm_pass_close(table: *mut Handle, pass: *mut Handle) -> u32;
    pub fn ksm_raise(table: *mut Handle, frame: u32) -> u32;
    pub fn ksm_put(table: *mut Handle, frame: u32, i: usize, word: u64) -> u32;
    pub fn ksm_open_frame(table: *mut Handle, frame: u32) -> u32;
    pub fn ksm_publish(table: *mut Handle, place: u32, frame: u32) -> u32;
    pub fn ksm_replace(table: *mut Handle, place: u32, frame: u32) -> u32;
    pub fn ksm_withdraw(table: *mut Handle, place: u32) -> u32;
    pub fn ksm_add(table: *mut Handle, frame: u32) -> u32;
    pub fn ksm_sub(table: *mut Handle, frame: u32) -> u32;
    pub fn ksm_freeze(table: *mut Handle, frame: u32) -> u32;
    pub fn ksm_reap(table: *mut Handle, frame: u32) -> u32;
    pub fn ksm_reap_all(table: *mut Handle, frames: *mut u32, count: *mut usize) -> u32;
    pub fn ksm_load(table: *mut Handle, frame: u32, i: usize, word: *mut u64) -> u32;
    pub fn ksm_frame(table: *mut Handle, frame: u32, kind: *mut u32, references: *mut u64, life: *mut u64) -> u32;
    pub fn ksm_find(pass: *mut Handle, place: u32) -> u32;
    pub fn ksm_find_equal(pass: *mut Handle, place: u32, page: *const u64) -> u32;
    pub fn ksm_look_up(pass: *mut Handle, place: u32, words: *mut u64) -> u32;
    pub fn ksm_word(pass: *mut Handle, i: usize, word: *mut u64) -> u32;
    pub fn ksm_words(pass: *mut Handle, words: *mut u64) -> u32;
    pub fn ksm_held(pass: *mut Handle, place: *mut u32, frame: *mut u32, life: *mut u64) -> u32;
    pub fn ksm_leave(pass: *mut Handle) -> u32;
    pub fn ksm_book_open(book: *mut Handle, nodes: u32, frames_per_node: u32, passes: u32, last_generation: u64, tries: u32) -> u32;
    pub fn ksm_book_open_kept(book: *mut Handle, nodes: u32, frames_per_node: u32, passes: u32, last_generation: u64, tries: u32) -> u32;
    pub fn ksm_book_apply(book: *mut Handle, command: *const Request, made: *mut Made) -> u32;
    pub fn ksm_book_read(book: *mut Handle, guest: u16, page: u32, bytes: *mut u64) -> u32;
    pub fn ksm_book_ticket(book: *mut Handle, guest: u16, page: u32, place: *mut u32) -> u32;
    pub fn ksm_book_mappers(book: *mut Handle, place: u32, pages: *mut u64, room: usize, count: *mut u64) -> u32;
    pub fn ksm_book_counters(book: *mut Handle, counters: *mut Counters) -> u32;
    pub fn ksm_book_entries(book: *mut Handle, count: *mut u64) -> u32;
    pub fn ksm_book_entry(book: *mut Handle, number: u64, command: *mut Request, answer: *mut u32, made: *mut Made) -> u32;
    pub fn ksm_shared_open(book: *mut SharedHandle, nodes: u32, frames_per_node: u32, passes: u32, last_generation: u64, tries: u32) -> u32;
    pub fn ksm_shared_open_kept(book: *mut SharedHandle, nodes: u32, frames_per_node: u32, passes: u32, last_generation: u64, tries: u32) -> u32;
    pub fn ksm_shared_close(book: *mut SharedHandle) -> u32;
    pub fn ksm_shared_pass_open(book: *mut SharedHandle, pass: *mut Handle) -> u32;
    pub fn ksm_shared_pass_close(book: *mut SharedHandle, pass: *mut Handle) -> u32;
    pub fn ksm_shared_apply(book: *mut SharedHandle, command: *const Request, made: *mut Made) -> u32;
    pub fn ksm_shared_read(book: *mut SharedHandle, guest: u16, page: u32, bytes: *mut u64) -> u32;
    pub fn ksm_shared_ticket(book: *mut SharedHandle, guest: u16, page: u32, place: *mut u32) -> u32;
    pub fn ksm_shared_mappers(book: *mut SharedHandle, place: u32, pages: *mut u64, room: usize, count: *mut u64) -> u32;
    pub fn ksm_shared_counters(book: *mut SharedHandle, counters: *mut Counters) -> u32;
    pub fn ksm_shared_audit(book: *mut SharedHandle, threads: u32, rows: *mut Row, room: usize, count: *mut u64) -> u32;
    pub fn ksm_shared_entries(book: *mut SharedHandle, count: *mut u64) -> u32;
    pub fn ksm_shared_entry(book: *mut SharedHandle, number: u64, command: *mut Request, answer: *mut u32, made: *mut Made) -> u32;
}
