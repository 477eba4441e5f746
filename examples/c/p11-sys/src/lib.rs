//! The calls of `pdp1140.h` and `p11_more.h`, which say what each argument is, who owns it and what comes at an error.
#![no_std]
#![allow(non_camel_case_types)]
use core::ffi::{c_char, c_void};

pub const P11_DONE: i32 = 0;
pub const P11_NO_MEMORY: i32 = 1;
pub const P11_BAD_SIZE: i32 = 2;
pub const P11_BAD_FILES: i32 = 3;
pub const P11_TOO_SMALL: i32 = 4;
pub const P11_TOO_LONG: i32 = 5;
pub const P11_NO_MACHINE: i32 = 6;
pub const P11_NO_FILE: i32 = 7;
pub const P11_TOO_MANY: i32 = 8;
pub const P11_NO_WORDS: i32 = 9;

pub const P11_HALT: u16 = 0;
pub const P11_TURNS: u16 = 1;
pub const P11_IDLE: u16 = 2;
pub const P11_MEMORY: u16 = 3;
pub const P11_AT: u16 = 4;

pub const P11_READY: u16 = 0;
pub const P11_WAITING: u16 = 1;
pub const P11_HALTED: u16 = 2;

pub const P11_TYPED: u32 = 0;
pub const P11_GIVEN: u32 = 1;
pub const P11_BATCH: u32 = 2;
pub const P11_WANTS_STEP: u32 = 0;
pub const P11_WANTS_KEYS: u32 = 1;
pub const P11_WANTS_IDLE: u32 = 2;
pub const P11_WANTS_MEMORY: u32 = 3;
pub const P11_WANTS_FETCH: u32 = 4;
pub const P11_WANTS_PUT: u32 = 5;
pub const P11_WANTS_NAMES: u32 = 6;
pub const P11_WANTS_END: u32 = 7;
pub const P11_FILE_WRITTEN: u32 = 0;
pub const P11_FILE_THERE: u32 = 1;
pub const P11_FILE_MISSING: u32 = 2;
pub const P11_FILE_DENIED: u32 = 3;
pub const P11_FILE_FOLDER: u32 = 4;
pub const P11_FILE_PATH: u32 = 5;
pub const P11_FILE_LONG: u32 = 6;
pub const P11_FILE_MEMORY: u32 = 7;
pub const P11_FILE_FAULT: u32 = 8;

/// A machine or none. It begins as `p11_handle::NONE`, and no copy of it is used.
#[repr(C)]
#[derive(Debug)]
pub struct p11_handle {
    at: *mut c_void,
    machines: u32,
}

impl p11_handle {
    pub const NONE: p11_handle = p11_handle { at: core::ptr::null_mut(), machines: 0 };
}

/// A console or none. It begins as `p11_console::NONE`, and no copy of it is used.
#[repr(C)]
#[derive(Debug)]
pub struct p11_console {
    at: *mut c_void,
    consoles: u32,
}

impl p11_console {
    pub const NONE: p11_console = p11_console { at: core::ptr::null_mut(), consoles: 0 };
}

/// What a run came to.
#[repr(C)]
#[derive(Clone, Copy, Debug, Default)]
pub struct p11_run_told {
    pub turns: u32,
    pub reason: u16,
    pub pc: u16,
}

/// The registers of a machine.
#[repr(C)]
#[derive(Clone, Copy, Debug, Default)]
pub struct p11_registers {
    pub turns: u64,
    pub general: [u16; 6],
    pub kernel_sp: u16,
    pub user_sp: u16,
    pub pc: u16,
    pub status: u16,
    pub status_0: u16,
    pub status_2: u16,
    pub mark: u16,
}

// the sizes that pdp1140.h gives them
const _: () = assert!(size_of::<p11_console>() == 16 && size_of::<p11_handle>() == 16 && size_of::<p11_run_told>() == 8 && size_of::<p11_registers>() == 40);

extern "C" {
    pub fn p11_session(
        kwords: u32, lines: u32, script: *const u8, script_length: usize, files: *const u8, files_length: usize,
        answers: *mut u8, answers_capacity: usize, answers_length: *mut usize,
        files_out: *mut u8, files_capacity: usize, files_out_length: *mut usize,
    ) -> i32;
    pub fn p11_typed(
        kwords: u32, lines: u32, script: *const u8, script_length: usize, files: *const u8, files_length: usize,
        typed: *mut u8, typed_capacity: usize, typed_length: *mut usize,
        files_out: *mut u8, files_capacity: usize, files_out_length: *mut usize,
    ) -> i32;
    pub fn p11_new(kwords: u32, lines: u32, files: *const u8, files_length: usize, handle: *mut p11_handle) -> i32;
    pub fn p11_line(handle: *mut p11_handle, line: *const u8, length: usize) -> i32;
    pub fn p11_run(handle: *mut p11_handle, turns: u32, until_idle: u32, run: *mut p11_run_told) -> i32;
    pub fn p11_put_file(
        handle: *mut p11_handle, name: *const u8, name_length: usize, bytes: *const u8, bytes_length: usize,
    ) -> i32;
    pub fn p11_file(
        handle: *mut p11_handle, name: *const u8, name_length: usize, bytes: *mut u8, bytes_capacity: usize,
        bytes_length: *mut usize,
    ) -> i32;
    pub fn p11_forget(handle: *mut p11_handle, name: *const u8, name_length: usize) -> i32;
    pub fn p11_answer(handle: *mut p11_handle, answer: *mut u8, answer_capacity: usize, answer_length: *mut usize) -> i32;
    pub fn p11_typed_text(handle: *mut p11_handle, typed: *mut u8, typed_capacity: usize, typed_length: *mut usize) -> i32;
    pub fn p11_regs(handle: *mut p11_handle, regs: *mut p11_registers) -> i32;
    pub fn p11_keys_waiting(handle: *mut p11_handle, keys: *mut u32) -> i32;
    pub fn p11_files(handle: *mut p11_handle, files_out: *mut u8, files_capacity: usize, files_length: *mut usize) -> i32;
    pub fn p11_drop(handle: *mut p11_handle);
    pub fn p11_console_new(
        kwords: u32, lines: u32, manner: u32, strict: u32, saveless: u32, talk: u32, console: *mut p11_console,
    ) -> i32;
    pub fn p11_console_open(console: *mut p11_console, name: *const u8, length: usize) -> i32;
    pub fn p11_console_remember(console: *mut p11_console, line: *const u8, length: usize) -> i32;
    pub fn p11_console_keys(console: *mut p11_console, bytes: *const u8, length: usize) -> i32;
    pub fn p11_console_closed(console: *mut p11_console) -> i32;
    pub fn p11_console_paused(console: *mut p11_console) -> i32;
    pub fn p11_console_ticked(console: *mut p11_console) -> i32;
    pub fn p11_console_resized(console: *mut p11_console, columns: usize) -> i32;
    pub fn p11_console_redrawn(console: *mut p11_console) -> i32;
    pub fn p11_console_step(console: *mut p11_console, turns: u32, want: *mut u32) -> i32;
    pub fn p11_console_screen(console: *mut p11_console, bytes: *mut u8, capacity: usize, length: *mut usize) -> i32;
    pub fn p11_console_record(console: *mut p11_console, bytes: *mut u8, capacity: usize, length: *mut usize) -> i32;
    pub fn p11_console_past(console: *mut p11_console, bytes: *mut u8, capacity: usize, length: *mut usize) -> i32;
    pub fn p11_console_shown(console: *mut p11_console, count: usize) -> i32;
    pub fn p11_console_recorded(console: *mut p11_console, count: usize) -> i32;
    pub fn p11_console_kept(console: *mut p11_console, count: usize) -> i32;
    pub fn p11_console_errors(console: *mut p11_console, bytes: *mut u8, capacity: usize, length: *mut usize) -> i32;
    pub fn p11_console_told(console: *mut p11_console) -> i32;
    pub fn p11_console_name(console: *mut p11_console, bytes: *mut u8, capacity: usize, length: *mut usize) -> i32;
    pub fn p11_console_image(console: *mut p11_console, bytes: *mut u8, capacity: usize, length: *mut usize) -> i32;
    pub fn p11_console_request(console: *mut p11_console, replace: *mut u32, pack: *mut u32) -> i32;
    pub fn p11_console_fetched(console: *mut p11_console, bytes: *const u8, length: usize) -> i32;
    pub fn p11_console_missed(console: *mut p11_console, trouble: u32) -> i32;
    pub fn p11_console_put(console: *mut p11_console, trouble: u32) -> i32;
    pub fn p11_console_front(console: *mut p11_console, bytes: *mut u8, capacity: usize, length: *mut usize) -> i32;
    pub fn p11_console_names(console: *mut p11_console, names: *const u8, length: usize) -> i32;
    pub fn p11_console_status(console: *mut p11_console, status: *mut u32) -> i32;
    pub fn p11_console_regs(console: *mut p11_console, regs: *mut p11_registers) -> i32;
    pub fn p11_console_devices(console: *mut p11_console, text: *mut u8, text_capacity: usize, text_length: *mut usize) -> i32;
    pub fn p11_console_drop(console: *mut p11_console);
    /// `p11_more.h`, as the two calls behind it.
    pub fn p11_steps_until(
        handle: *mut p11_handle, addresses: *const u16, count: usize, most: u32, run: *mut p11_run_told,
    ) -> i32;
    pub fn p11_words(handle: *mut p11_handle, address: u32, words: *mut u16, count: usize, done: *mut usize) -> i32;
    pub fn p11_put_words(handle: *mut p11_handle, address: u32, words: *const u16, count: usize, done: *mut usize) -> i32;
    /// `p11_version.h`
    pub fn p11_version() -> *const c_char;
}
