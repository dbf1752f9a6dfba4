//! The library's static archive and its header: the one binding of them.
//!
//! In C a buffer is a pointer and a length, in this order. The functions of the
//! archive are here as C has them; those that the benchmark times are here over slices
//! too.

/// What the header says of limits and lengths.
pub mod header {
    include!(concat!(env!("OUT_DIR"), "/constants.rs"));
}

/// Bytes that are read.
pub type Read = *const u8;
/// Bytes that may be written.
pub type Written = *mut u8;
/// A function that reads one buffer and writes one.
pub type OfOne = unsafe extern "C" fn(Read, usize, Written, usize) -> u64;
/// A function that reads two buffers and writes one.
pub type OfTwo = unsafe extern "C" fn(Read, usize, Read, usize, Written, usize) -> u64;

extern "C" {
    pub fn thistlecart_load(rule: Read, _: usize) -> u64;
    pub fn thistlecart_search(
        rule: Read,
        _: usize,
        table: Written,
        _: usize,
        witness: Written,
        _: usize,
    ) -> u64;
    pub fn thistlecart_emit(rule: Read, _: usize, out: Written, _: usize) -> u64;
    pub fn thistlecart_run(
        code: Read,
        _: usize,
        clip: Read,
        _: usize,
        out: Written,
        _: usize,
    ) -> u64;
    pub fn thistlecart_negate(rule: Read, _: usize, out: Written, _: usize) -> u64;
    pub fn thistlecart_next(rule: Read, _: usize, out: Written, _: usize) -> u64;
    pub fn thistlecart_both(
        first: Read,
        _: usize,
        second: Read,
        _: usize,
        out: Written,
        _: usize,
    ) -> u64;
    pub fn thistlecart_either(
        first: Read,
        _: usize,
        second: Read,
        _: usize,
        out: Written,
        _: usize,
    ) -> u64;
}

// In these calls the pointers and lengths are those of slices, which live through the
// call and of which no two overlap.

pub fn load(rule: &[u8]) -> u64 {
    unsafe { thistlecart_load(rule.as_ptr(), rule.len()) }
}

pub fn search(rule: &[u8], table: &mut [u8], witness: &mut [u8]) -> u64 {
    unsafe {
        thistlecart_search(
            rule.as_ptr(),
            rule.len(),
            table.as_mut_ptr(),
            table.len(),
            witness.as_mut_ptr(),
            witness.len(),
        )
    }
}

pub fn emit(rule: &[u8], out: &mut [u8]) -> u64 {
    unsafe { thistlecart_emit(rule.as_ptr(), rule.len(), out.as_mut_ptr(), out.len()) }
}

/// The header's accessors, which read an answer's word.
pub mod word {
    extern "C" {
        fn accessor_refusal(word: u64) -> u64;
        fn accessor_place(word: u64) -> u64;
        fn accessor_which(word: u64) -> u64;
        fn accessor_items(word: u64) -> u64;
        fn accessor_horizon(word: u64) -> u64;
        fn accessor_met(word: u64) -> u64;
        fn accessor_length(word: u64) -> u64;
        fn accessor_states(word: u64) -> u64;
    }

    /// The number of the refusal, 0 if there is none.
    pub fn refusal(word: u64) -> u8 {
        unsafe { accessor_refusal(word) as u8 }
    }

    pub fn place(word: u64) -> usize {
        unsafe { accessor_place(word) as usize }
    }

    pub fn which(word: u64) -> usize {
        unsafe { accessor_which(word) as usize }
    }

    pub fn items(word: u64) -> usize {
        unsafe { accessor_items(word) as usize }
    }

    pub fn horizon(word: u64) -> usize {
        unsafe { accessor_horizon(word) as usize }
    }

    pub fn met(word: u64) -> bool {
        unsafe { accessor_met(word) == 1 }
    }

    pub fn length(word: u64) -> usize {
        unsafe { accessor_length(word) as usize }
    }

    pub fn states(word: u64) -> usize {
        unsafe { accessor_states(word) as usize }
    }
}
