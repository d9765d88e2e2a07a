//! What the static library exports, as `foldzine.h` declares it.

use crate::{HOP_WORDS, WORDS};

/// The longest line of a graph, and of a hop.
pub const LINE: usize = 256;
pub const HOP_LINE: usize = 10_816;

#[repr(C)]
pub struct Answer {
    pub number: u64,
    pub first: u64,
    pub second: u64,
}

/// Of a sequence with its own routes.
#[repr(C)]
pub struct SequenceAnswer {
    pub built: u64,
    pub refusal: Answer,
}

/// Of reached blocks, and of lines.
#[repr(C)]
pub struct Counted {
    pub number: u64,
    pub count: u64,
}

extern "C" {
    pub fn foldzine_build(image: *const u8, length: usize, words: *mut [u64; WORDS]) -> Answer;
    pub fn foldzine_add_routes(
        words: *mut [u64; WORDS],
        routes: *const u8,
        length: usize,
        hops: *mut [u64; HOP_WORDS],
    ) -> Answer;
    pub fn foldzine_sequence(
        image: *const u8,
        length: usize,
        words: *mut [u64; WORDS],
        hops: *mut [u64; HOP_WORDS],
    ) -> SequenceAnswer;
    pub fn foldzine_routes_at(image: *const u8, length: usize) -> usize;
    pub fn foldzine_reached(words: *const [u64; WORDS]) -> Counted;
    pub fn foldzine_line_count(words: *const [u64; WORDS]) -> Counted;
    pub fn foldzine_line(words: *const [u64; WORDS], line: usize, out: *mut [u8; LINE]) -> usize;
    pub fn foldzine_hop_lines(hops: *const [u64; HOP_WORDS], hop: usize) -> usize;
    pub fn foldzine_hop_line(
        hops: *const [u64; HOP_WORDS],
        routes: *const u8,
        length: usize,
        hop: usize,
        list: usize,
        out: *mut [u8; HOP_LINE],
    ) -> usize;
}
