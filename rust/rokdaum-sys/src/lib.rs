// SPDX-License-Identifier: Apache-2.0
//! `rokdaum.h` as Rust sees it; `rust/check_header` compares the two. The crate `rokdaum` is the safe one.
#![allow(non_camel_case_types)]

use std::os::raw::{c_char, c_int, c_void};

pub type rokdaum_code = c_int;

pub const ROKDAUM_OK: rokdaum_code = 0;
pub const ROKDAUM_RANGE: rokdaum_code = 3;
pub const ROKDAUM_TAKEN: rokdaum_code = 4;
pub const ROKDAUM_MISSING: rokdaum_code = 5;
pub const ROKDAUM_PARAMS: rokdaum_code = 6;
pub const ROKDAUM_ROOM: rokdaum_code = 7;
pub const ROKDAUM_BUSY: rokdaum_code = 8;
pub const ROKDAUM_COMMAND: rokdaum_code = 9;
pub const ROKDAUM_BAD_SIZE: rokdaum_code = 16;
pub const ROKDAUM_NO_MEMORY: rokdaum_code = 17;
pub const ROKDAUM_NOT_OPEN: rokdaum_code = 18;
pub const ROKDAUM_OPEN: rokdaum_code = 19;
pub const ROKDAUM_BAD_LENGTH: rokdaum_code = 20;
pub const ROKDAUM_BAD_KIND: rokdaum_code = 21;
pub const ROKDAUM_BAD_SPACE: rokdaum_code = 22;
pub const ROKDAUM_BAD_LAW: rokdaum_code = 23;
pub const ROKDAUM_NULL: rokdaum_code = 24;

pub const ROKDAUM_SPACE_WORDS: u32 = 65536;
pub const ROKDAUM_INSTANCES: usize = 64;
pub const ROKDAUM_GROUPS: usize = 8;
pub const ROKDAUM_CHANNELS: usize = 16;
pub const ROKDAUM_MEMBERS: usize = 8;
pub const ROKDAUM_BLOCK_SAMPLES: usize = 1024;
pub const ROKDAUM_PARAMETER_WORDS: usize = 72;
pub const ROKDAUM_COEFFICIENTS: usize = 64;
pub const ROKDAUM_MAP_BLOCKS: usize = 264;

/// A handle: all zeros is ROKDAUM_CLOSED. It isn't copied while it is open.
#[repr(C)]
#[derive(Debug)]
pub struct rokdaum {
    pub mark: u64,
    pub at: *mut c_void,
    pub allocator: *const c_void,
}

#[repr(C)]
#[derive(Debug, Clone, Copy)]
pub struct rokdaum_options {
    pub daram: u32,
    pub saram: u32,
    pub external: u32,
    pub channels: u8,
    pub poisoned: u8,
    pub poison: i16,
}

#[repr(C)]
#[derive(Debug, Clone, Copy, Default)]
pub struct rokdaum_block {
    pub scratch: u32,
    pub number: u32,
    pub record: u32,
    pub place: u32,
    pub size: u32,
    pub align: u32,
}

/// What makes digits of a detector's codes, and what it remembers of a line.
#[repr(C)]
#[derive(Debug, Clone, Copy)]
pub struct rokdaum_digits {
    pub frames_on: u32,
    pub frames_off: u32,
    pub last: i32,
    pub held: i32,
    pub run: u32,
    pub away: u32,
}

pub const ROKDAUM_DIGITS_A: rokdaum_digits = rokdaum_digits { frames_on: 2, frames_off: 2, last: -1, held: -1, run: 0, away: 0 };
pub const ROKDAUM_DIGITS_B: rokdaum_digits = rokdaum_digits { frames_on: 3, frames_off: 2, last: -1, held: -1, run: 0, away: 0 };

extern "C" {
    pub fn rokdaum_version() -> *const c_char;
    pub fn rokdaum_error_text(code: rokdaum_code) -> *const c_char;

    pub fn rokdaum_open(host: *mut rokdaum, options: *const rokdaum_options) -> rokdaum_code;
    pub fn rokdaum_close(host: *mut rokdaum) -> rokdaum_code;
    pub fn rokdaum_create(host: *mut rokdaum, instance: u8, kind: c_int, group: u8, parameters: *const i16, count: usize, full: *mut c_int) -> rokdaum_code;
    pub fn rokdaum_delete(host: *mut rokdaum, instance: u8) -> rokdaum_code;
    pub fn rokdaum_set(host: *mut rokdaum, instance: u8, words: *const i16, count: usize) -> rokdaum_code;
    pub fn rokdaum_reset(host: *mut rokdaum, instance: u8) -> rokdaum_code;
    pub fn rokdaum_get(host: *mut rokdaum, instance: u8, words: *mut i16, room: usize, count: *mut u32) -> rokdaum_code;
    pub fn rokdaum_chain(host: *mut rokdaum, channel: u8, members: *const u8, count: usize) -> rokdaum_code;
    pub fn rokdaum_unchain(host: *mut rokdaum, channel: u8) -> rokdaum_code;
    pub fn rokdaum_ready(host: *mut rokdaum, channel: u8) -> rokdaum_code;
    pub fn rokdaum_feed(host: *mut rokdaum, channel: u8, samples: *const i16, count: usize, out: *mut i16, room: usize, given: *mut u32) -> rokdaum_code;
    pub fn rokdaum_feed_all(host: *mut rokdaum, channel: u8, samples: *const i16, count: usize, out: *mut i16, room: usize, given: *mut usize) -> rokdaum_code;
    pub fn rokdaum_step(host: *mut rokdaum, space: c_int, moved: *mut u32) -> rokdaum_code;
    pub fn rokdaum_compact(host: *mut rokdaum, space: c_int, moved: *mut u32) -> rokdaum_code;
    pub fn rokdaum_copied(host: *mut rokdaum, words: *mut u64) -> rokdaum_code;
    pub fn rokdaum_map(host: *mut rokdaum, space: c_int, blocks: *mut rokdaum_block, room: usize, count: *mut u32) -> rokdaum_code;
    pub fn rokdaum_release(host: *mut rokdaum, group: u8, released: *mut u32) -> rokdaum_code;
    pub fn rokdaum_stat(host: *mut rokdaum, group: u8, active: *mut i32, activations: *mut u32) -> rokdaum_code;

    pub fn rokdaum_add(a: i16, b: i16) -> i16;
    pub fn rokdaum_l_mac(v: i32, a: i16, b: i16) -> i32;
    pub fn rokdaum_div_s(a: i16, b: i16, quotient: *mut i16) -> rokdaum_code;
    pub fn rokdaum_add_block(a: *const i16, b: *const i16, out: *mut i16, count: usize) -> rokdaum_code;
    pub fn rokdaum_sub_block(a: *const i16, b: *const i16, out: *mut i16, count: usize) -> rokdaum_code;
    pub fn rokdaum_mult_block(gain: i16, samples: *const i16, out: *mut i16, count: usize) -> rokdaum_code;
    pub fn rokdaum_shl_block(samples: *const i16, shift: i16, out: *mut i16, count: usize) -> rokdaum_code;
    pub fn rokdaum_shr_block(samples: *const i16, shift: i16, out: *mut i16, count: usize) -> rokdaum_code;
    pub fn rokdaum_l_mac_block(v: i32, a: *const i16, b: *const i16, count: usize, sum: *mut i32) -> rokdaum_code;
    pub fn rokdaum_fir(coefficients: *const i16, coefficient_count: usize, line: *const i16, length: usize, out: *mut i16, count: usize) -> rokdaum_code;
    pub fn rokdaum_g711_encode(law: c_int, samples: *const i16, codes: *mut u8, count: usize) -> rokdaum_code;
    pub fn rokdaum_g711_decode(law: c_int, codes: *const u8, samples: *mut i16, count: usize) -> rokdaum_code;
    pub fn rokdaum_dialled(digits: *mut rokdaum_digits, codes: *const i16, count: usize, dialled: *mut c_char, room: usize, given: *mut usize) -> rokdaum_code;
}
