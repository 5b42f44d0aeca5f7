//! The proved reader, linked as a static library. These are the only calls
//! that leave safe Rust.

mod library {
    extern "C" {
        pub fn nisgrove_read(packet: *const u8, length: usize) -> u64;
        pub fn nisgrove_calls(
            calls: *const u8,
            calls_length: usize,
            first: *const u8,
            first_length: usize,
            second: *const u8,
            second_length: usize,
            buffer: *mut u8,
            buffer_length: usize,
        ) -> u64;
    }
}

/// The fold of the proved reader's answer.
#[inline(always)]
pub fn fold(packet: &[u8]) -> u64 {
    // SAFETY: the library reads `length` bytes from the pointer and keeps none.
    unsafe { library::nisgrove_read(packet.as_ptr(), packet.len()) }
}

/// Makes the calls that a string of bytes tells of on one association.
pub fn run(calls: &[u8], first: &[u8], second: &[u8], buffer: &mut [u8; 512]) -> u64 {
    // SAFETY: each pointer stands with the length of its slice, only the buffer
    // is written, and nothing is kept.
    unsafe {
        library::nisgrove_calls(
            calls.as_ptr(),
            calls.len(),
            first.as_ptr(),
            first.len(),
            second.as_ptr(),
            second.len(),
            buffer.as_mut_ptr(),
            buffer.len(),
        )
    }
}
