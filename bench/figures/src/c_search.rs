//! The search of bench/search.c, over slices.

use archive::header::WITNESS_LENGTH;

/// What the search in C comes to, as bench/search.h has it.
#[repr(C)]
pub struct CAnswer {
    pub met: u64,
    pub no_room: u64,
    pub length: u64,
    pub states: u64,
    pub trials: u64,
}

extern "C" {
    fn machine_search(code: *const u8, code_length: usize, witness: *mut u8) -> CAnswer;
}

/// Searches with code that the library emitted.
pub fn search(code: &[u8], witness: &mut [u8; WITNESS_LENGTH]) -> CAnswer {
    // The witness buffer is long enough for any rule. Only one thread calls this.
    unsafe { machine_search(code.as_ptr(), code.len(), witness.as_mut_ptr()) }
}
