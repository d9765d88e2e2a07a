//! The proved functions, as the static library exports them.

use crate::plain::{Counts, Refusal};

pub const WORDS: usize = 43_872;
pub const HOP_WORDS: usize = 18_440;

#[repr(C)]
struct Answer {
    number: u64,
    first: u64,
    second: u64,
}

#[repr(C)]
struct SequenceAnswer {
    built: u64,
    refusal: Answer,
}

extern "C" {
    fn foldzine_read_image(bytes: *const u8, length: usize, told: *mut [u64; 10]);
    fn foldzine_build(bytes: *const u8, length: usize, words: *mut [u64; WORDS]) -> Answer;
    fn foldzine_add_routes(
        words: *mut [u64; WORDS],
        bytes: *const u8,
        length: usize,
        hops: *mut [u64; HOP_WORDS],
    ) -> Answer;
    fn foldzine_sequence(
        bytes: *const u8,
        length: usize,
        words: *mut [u64; WORDS],
        hops: *mut [u64; HOP_WORDS],
    ) -> SequenceAnswer;
}

/// Whether the build of an image was not refused.
pub fn build(bytes: &[u8], words: &mut [u64; WORDS]) -> bool {
    // SAFETY: a slice passes as a pointer and a length, an array as a pointer.
    let answer = unsafe { foldzine_build(bytes.as_ptr(), bytes.len(), words) };
    answer.number == 0
}

/// Whether the addition of a route image was not refused.
pub fn add(words: &mut [u64; WORDS], bytes: &[u8], hops: &mut [u64; HOP_WORDS]) -> bool {
    // SAFETY: the same.
    let answer = unsafe { foldzine_add_routes(words, bytes.as_ptr(), bytes.len(), hops) };
    answer.number == 0
}

/// Whether the build of an image and the addition of its own routes, by one
/// call, were not refused.
pub fn sequence(bytes: &[u8], words: &mut [u64; WORDS], hops: &mut [u64; HOP_WORDS]) -> bool {
    // SAFETY: the same.
    let answer = unsafe { foldzine_sequence(bytes.as_ptr(), bytes.len(), words, hops) };
    answer.built == 1 && answer.refusal.number == 0
}

pub fn read_image(bytes: &[u8]) -> Result<Counts, Refusal> {
    let mut told = [0; 10];
    // The bytes are lent for the call, and `told` has the ten words that are written.
    unsafe { foldzine_read_image(bytes.as_ptr(), bytes.len(), &mut told) };
    let [number, offset, counts @ ..] = told;
    if number == 0 {
        Ok(counts)
    } else {
        Err(Refusal { number, offset })
    }
}
