//! The exports of libtd_c.a, as capi/td.h declares them.
use core::sync::atomic::AtomicU64;

#[repr(C)]
pub struct Handle {
    pub at: *mut u8,
    pub full: bool,
}

impl Handle {
    pub const fn closed() -> Handle {
        Handle { at: core::ptr::null_mut(), full: false }
    }
}

#[repr(C)]
pub struct Words {
    pub at: *const AtomicU64,
    pub count: usize,
}

#[repr(C)]
pub struct Piece {
    pub words: Words,
    pub count: usize,
    pub place: u32,
    pub size: u32,
}

#[repr(C)]
#[derive(Default)]
pub struct Fault {
    pub place: u64,
    pub rule: u32,
}

extern "C" {
    pub fn td_c_open_1(s: *mut Handle, full: bool, image: *const u8, size: usize, fault: *mut Fault) -> i32;
    pub fn td_c_again(s: *mut Handle, full: bool, other: *mut Handle, other_full: bool) -> i32;
    pub fn td_c_close(s: *mut Handle, full: bool);
    pub fn td_c_entry(s: *mut Handle, full: bool, name: *const u8, size: usize, number: *mut u32) -> i32;
    pub fn td_c_describe(s: *mut Handle, full: bool, entry: u32, told: *mut crate::EntryPoint) -> i32;
    pub fn td_c_param(s: *mut Handle, full: bool, entry: u32, place: usize, told: *mut crate::Part) -> i32;
    pub fn td_c_cell(s: *mut Handle, full: bool, entry: u32, place: usize, told: *mut crate::Part) -> i32;
    pub fn td_c_buffer(s: *mut Handle, full: bool, entry: u32, place: usize, told: *mut crate::CopyBuffer) -> i32;
    pub fn td_c_copy(s: *mut Handle, full: bool, place: usize, bytes: *mut u8, room: usize, size: *mut u64) -> i32;
    pub fn td_c_frame(s: *mut Handle, full: bool, place: usize, told: *mut crate::Frame) -> i32;
    pub fn td_c_name(s: *mut Handle, full: bool, number: u32, bytes: *mut u8, room: usize, size: *mut u64) -> i32;
    pub fn td_c_validate(
        s: *mut Handle,
        full: bool,
        call: *mut crate::Call,
        words: *mut Words,
        count: usize,
        loads: *mut crate::Load,
        room: usize,
    ) -> i32;
    pub fn td_c_validate_parts(
        s: *mut Handle,
        full: bool,
        call: *mut crate::Call,
        parts: *const crate::Stretch,
        part_count: usize,
        words: *mut Words,
        count: usize,
        loads: *mut crate::Load,
        room: usize,
    ) -> i32;
    pub fn td_c_room(s: *mut Handle, full: bool, count: usize) -> i32;
    pub fn td_c_validate_pieces(
        s: *mut Handle,
        full: bool,
        call: *mut crate::Call,
        pieces: *mut Piece,
        piece_count: usize,
        loads: *mut crate::Load,
        room: usize,
    ) -> i32;
    pub fn td_c_codes_1(s: *mut Handle, full: bool) -> i32;
    pub fn td_c_add(s: *mut Handle, full: bool, image: *const u8, size: usize, fault: *mut Fault) -> i32;
    pub fn td_c_begin(s: *mut Handle, full: bool) -> i32;
    pub fn td_c_publish(s: *mut Handle, full: bool, number: *mut u32) -> i32;
    pub fn td_c_seat(s: *mut Handle, full: bool, other: *mut Handle, other_full: bool) -> i32;
    pub fn td_c_current(s: *mut Handle, full: bool, number: *mut u32) -> i32;
    pub fn td_c_version(s: *mut Handle, full: bool, number: u32, other: *mut Handle, other_full: bool) -> i32;
}
