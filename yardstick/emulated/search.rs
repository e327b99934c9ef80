//! The two searches for C, without Rust's standard library: so they run under the emulator beside ours.
#![no_std]

#[path = "../src/plain.rs"]
pub mod plain;
#[path = "../src/quick/mod.rs"]
pub mod quick;
#[path = "../src/table.rs"]
pub mod table;

use core::slice::{from_raw_parts, from_raw_parts_mut};

#[panic_handler]
fn panic(_: &core::panic::PanicInfo) -> ! {
    loop {}
}

/// The best split as own and shared mask in one number, above 2^32; 0 where there is none.
///
/// # Safety
/// Each pointer is valid for its length, and the two areas don't overlap.
#[no_mangle]
pub unsafe extern "C" fn yardstick_find(
    quickly: bool,
    n: u32,
    k: u32,
    t: *const u8,
    length: usize,
    work: *mut u8,
    work_length: usize,
) -> u64 {
    let search = if quickly { quick::find } else { plain::find };
    match table::over_counting(from_raw_parts(t, length), n, k, from_raw_parts_mut(work, work_length), search) {
        Some((own, shared)) => 1 << 32 | (own as u64) << 16 | shared as u64,
        None => 0,
    }
}
