//! The proved readers, called through their C interface.

unsafe extern "C" {
    fn cct_read_bytes(bytes: *const u8, length: usize) -> u64;
    fn cct_read_text(text: *const u8, length: usize) -> u64;
}

/// The digest of a trace written as bytes.
pub fn read_bytes(bytes: &[u8]) -> u64 {
    // SAFETY: the pointer and the length are those of a slice, which the reader only reads.
    unsafe { cct_read_bytes(bytes.as_ptr(), bytes.len()) }
}

/// The digest of a trace written as text.
pub fn read_text(text: &[u8]) -> u64 {
    // SAFETY: as above.
    unsafe { cct_read_text(text.as_ptr(), text.len()) }
}
