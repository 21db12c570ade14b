//! The one place that calls the linked library.
//!
//! Its C interface is
//! `size_t endrusp_run(const uint8_t *input, size_t input_len, uint8_t *out, size_t out_len)`.

#![allow(unsafe_code)]

unsafe extern "C" {
    fn endrusp_run(input: *const u8, input_len: usize, out: *mut u8, out_len: usize) -> usize;
}

/// Runs a text. How many bytes of `out` were written, or `usize::MAX` where
/// `out` is shorter than 11 times the length of the input and 11 more; then
/// nothing is written.
pub(crate) fn run(input: &[u8], out: &mut [u8]) -> usize {
    // SAFETY: both slices are valid for their lengths for the whole call, the
    // first for reading and the second for reading and writing, and they do not
    // overlap, since the second is borrowed alone. The library keeps no pointer
    // after it returns, reads no byte outside the first and writes no byte
    // outside the second. A slice of length 0 has a pointer that is not null.
    unsafe { endrusp_run(input.as_ptr(), input.len(), out.as_mut_ptr(), out.len()) }
}
