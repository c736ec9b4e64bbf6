//! Readable zeros without memory behind them, for lengths above 32 bits.

use std::{ffi::c_void, ptr, slice};

unsafe extern "C" {
    fn mmap(
        at: *mut c_void,
        len: usize,
        prot: i32,
        flags: i32,
        fd: i32,
        offset: i64,
    ) -> *mut c_void;
}

// Linux on x86-64, the only target of libentries.a.
const PROT_READ: i32 = 1;
const MAP_PRIVATE: i32 = 0x02;
const MAP_ANONYMOUS: i32 = 0x20;
const MAP_NORESERVE: i32 = 0x4000;
const MAP_FAILED: usize = usize::MAX;

/// `None` if the system grants no such range. It is never given back.
pub fn zeros(len: usize) -> Option<&'static [u8]> {
    let flags = MAP_PRIVATE | MAP_ANONYMOUS | MAP_NORESERVE;
    // SAFETY: a new private range at an address of the system's choice touches no memory in use.
    let at = unsafe { mmap(ptr::null_mut(), len, PROT_READ, flags, -1, 0) };
    if at as usize == MAP_FAILED {
        return None;
    }
    // SAFETY: the range has `len` readable bytes that stay zero, and is never unmapped.
    Some(unsafe { slice::from_raw_parts(at as *const u8, len) })
}
