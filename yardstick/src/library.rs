//! The proved search, through the library for C. The only place where this program is not safe Rust.

#[repr(C)]
struct Sought {
    number: u64,
    own: u64,
    shared: u64,
}

#[link(name = "pelzurivan", kind = "static")]
extern "C" {
    fn pelzurivan_find(
        n: u64,
        k: u64,
        table: *const u8,
        table_length: usize,
        work: *mut u8,
        work_length: usize,
    ) -> Sought;
}

/// The best split; none where the library answers 7 or 8.
pub fn find(t: &[u8], n: u32, k: u32, work: &mut [u8]) -> Option<(u16, u16)> {
    // Each pointer is valid for its length, and the two areas are two borrows, so they don't overlap.
    let sought = unsafe {
        pelzurivan_find(n as u64, k as u64, t.as_ptr(), t.len(), work.as_mut_ptr(), work.len())
    };
    match sought.number {
        0 => Some((sought.own as u16, sought.shared as u16)),
        7 | 8 => None,
        other => panic!("the library refused as {other}"),
    }
}
