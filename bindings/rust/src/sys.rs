// SPDX-License-Identifier: MIT OR Apache-2.0
//! The calls of `cizhmolat.h`.

use std::ffi::c_void;

/// What `mps_line` and its like give where there was no memory for a text.
pub(crate) const NO_MEMORY: usize = usize::MAX;

/// The flag of `mps_open_file` by which the disk has stored each accepted command before its answer is told.
pub(crate) const SYNC: u32 = 1;

/// The flag of `mps_open_file` by which the room is that of `mps_open_full`.
pub(crate) const FULL_MERGING: u32 = 2;

/// The struct of one pointer that owns a room.
#[repr(C)]
pub(crate) struct Handle {
    pub(crate) at: *mut c_void,
}

/// `mps_open` or `mps_open_full`.
pub(crate) type Open =
    unsafe extern "C" fn(*const u8, usize, *mut Handle, *mut u32, *mut u64) -> bool;

extern "C" {
    pub(crate) fn mps_open(
        text: *const u8,
        length: usize,
        room: *mut Handle,
        fault: *mut u32,
        place: *mut u64,
    ) -> bool;
    pub(crate) fn mps_open_full(
        text: *const u8,
        length: usize,
        room: *mut Handle,
        fault: *mut u32,
        place: *mut u64,
    ) -> bool;
    pub(crate) fn mps_choice(
        text: *const u8,
        length: usize,
        number: u64,
        out: *mut u8,
        capacity: usize,
    ) -> usize;
    pub(crate) fn mps_open_file(
        text: *const u8,
        length: usize,
        path: *const u8,
        path_length: usize,
        session: u64,
        flags: u32,
        room: *mut Handle,
        fault: *mut u32,
        place: *mut u64,
    ) -> bool;
    pub(crate) fn mps_sync(room: *mut Handle) -> bool;
    pub(crate) fn mps_line(
        room: *mut Handle,
        role: *const u8,
        role_length: usize,
        line: *const u8,
        line_length: usize,
        out: *mut u8,
        capacity: usize,
    ) -> usize;
    pub(crate) fn mps_answer(room: *mut Handle, out: *mut u8, capacity: usize) -> usize;
    pub(crate) fn mps_would(
        room: *mut Handle,
        role: *const u8,
        role_length: usize,
        line: *const u8,
        line_length: usize,
        out: *mut u8,
        capacity: usize,
    ) -> usize;
    pub(crate) fn mps_expects(
        room: *mut Handle,
        role: *const u8,
        role_length: usize,
        out: *mut u8,
        capacity: usize,
    ) -> usize;
    pub(crate) fn mps_slot(
        room: *mut Handle,
        role: *const u8,
        role_length: usize,
        slot: *const u8,
        slot_length: usize,
        out: *mut u8,
        capacity: usize,
    ) -> usize;
    pub(crate) fn mps_entries(room: *mut Handle) -> u64;
    pub(crate) fn mps_entry(room: *mut Handle, k: u64, out: *mut u8, capacity: usize) -> usize;
    pub(crate) fn mps_close_at(at: *mut c_void);
}
