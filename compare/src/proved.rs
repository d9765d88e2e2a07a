//! The proved functions, as the static library exports them.

use oracle::image::Refusal;

use crate::hops::HOP_WORDS;
use crate::words::WORDS;

/// Document 01's number and values; number 0 where nothing was refused.
#[repr(C)]
struct Answer {
    number: u64,
    first: u64,
    second: u64,
}

/// The same of a sequence with its own routes, and whether its graph was built.
#[repr(C)]
struct SequenceAnswer {
    built: u64,
    refusal: Answer,
}

/// How many blocks are reached, or lines there are; number 21 where the words
/// hold no graph.
#[repr(C)]
struct Counted {
    number: u64,
    count: u64,
}

extern "C" {
    fn foldzine_build(bytes: *const u8, length: usize, words: *mut [u64; WORDS]) -> Answer;
    fn foldzine_add_routes(
        words: *mut [u64; WORDS],
        bytes: *const u8,
        length: usize,
        hops: *mut [u64; HOP_WORDS],
    ) -> Answer;
    fn foldzine_sequence(
        bytes: *const u8,
        length: usize,
        words: *mut [u64; WORDS],
        hops: *mut [u64; HOP_WORDS],
    ) -> SequenceAnswer;
    fn foldzine_routes_at(bytes: *const u8, length: usize) -> usize;
    fn foldzine_reached(words: *const [u64; WORDS]) -> Counted;
    fn foldzine_line_count(words: *const [u64; WORDS]) -> Counted;
    fn foldzine_line(words: *const [u64; WORDS], line: usize, out: *mut [u8; LINE]) -> usize;
    fn foldzine_hop_lines(hops: *const [u64; HOP_WORDS], hop: usize) -> usize;
    fn foldzine_hop_line(
        hops: *const [u64; HOP_WORDS],
        bytes: *const u8,
        length: usize,
        hop: usize,
        list: usize,
        out: *mut [u8; HOP_LINE],
    ) -> usize;
    fn foldzine_read_image(bytes: *const u8, length: usize, told: *mut [u64; 10]);
    fn foldzine_read_routes(bytes: *const u8, length: usize, told: *mut [u64; 10]);
}

/// Bytes of the longest line of a graph, and of a hop.
const LINE: usize = 256;
const HOP_LINE: usize = 10_816;

impl Answer {
    fn result(self) -> Result<(), Refusal> {
        match self.number {
            0 => Ok(()),
            number => Err(Refusal::new(number as u8, self.first, self.second)),
        }
    }
}

impl Counted {
    fn result(self) -> Result<usize, Refusal> {
        match self.number {
            0 => Ok(self.count as usize),
            number => Err(Refusal::new(number as u8, 0, 0)),
        }
    }
}

/// Builds the graph of an image in lent words.
pub fn build(bytes: &[u8], words: &mut [u64; WORDS]) -> Result<(), Refusal> {
    // SAFETY: a slice passes as a pointer and a length, an array as a pointer; the contract asks nothing else.
    unsafe { foldzine_build(bytes.as_ptr(), bytes.len(), words) }.result()
}

/// Adds the routes of a route image to the graph that words hold, and leaves
/// the hops in words of their own.
pub fn add_routes(
    words: &mut [u64; WORDS],
    bytes: &[u8],
    hops: &mut [u64; HOP_WORDS],
) -> Result<(), Refusal> {
    // SAFETY: the same.
    unsafe { foldzine_add_routes(words, bytes.as_ptr(), bytes.len(), hops) }.result()
}

/// Builds the graph of an image in lent words, and adds the image's own routes;
/// refused, whether the graph was built.
pub fn sequence(
    bytes: &[u8],
    words: &mut [u64; WORDS],
    hops: &mut [u64; HOP_WORDS],
) -> Result<(), (bool, Refusal)> {
    // SAFETY: the same.
    let answer = unsafe { foldzine_sequence(bytes.as_ptr(), bytes.len(), words, hops) };
    answer.refusal.result().map_err(|refusal| (answer.built == 1, refusal))
}

/// The bytes of an image's own routes.
pub fn own_routes(bytes: &[u8]) -> &[u8] {
    // SAFETY: a slice passes as a pointer and a length, and is only read.
    &bytes[unsafe { foldzine_routes_at(bytes.as_ptr(), bytes.len()) }..]
}

/// How many blocks are reached in the graph that words hold.
pub fn reached(words: &[u64; WORDS]) -> Result<usize, Refusal> {
    // SAFETY: an array passes as a pointer, and is only read.
    unsafe { foldzine_reached(words) }.result()
}

/// The lines of the graph that words hold, up to the hops.
pub fn lines(words: &[u64; WORDS]) -> Result<String, Refusal> {
    // SAFETY: the same.
    let count = unsafe { foldzine_line_count(words) }.result()?;
    let (mut out, mut text) = ([0; LINE], String::new());
    for line in 0..count {
        // SAFETY: the same; a line is written to `out`.
        let length = unsafe { foldzine_line(words, line, &mut out) };
        text.extend(out[..length].iter().map(|&byte| char::from(byte)));
    }
    Ok(text)
}

/// The lines of hops, of which the first `count` are told.
pub fn hop_lines(hops: &[u64; HOP_WORDS], count: usize, bytes: &[u8]) -> String {
    let (mut out, mut text) = ([0; HOP_LINE], String::new());
    for hop in 0..count {
        // SAFETY: arrays pass as pointers, a slice as a pointer and a length; all but `out` are only read.
        for list in 0..unsafe { foldzine_hop_lines(hops, hop) } {
            let (at, length) = (bytes.as_ptr(), bytes.len());
            let length = unsafe { foldzine_hop_line(hops, at, length, hop, list, &mut out) };
            text.extend(out[..length].iter().map(|&byte| char::from(byte)));
        }
    }
    text
}

/// What the readers alone say of an image, and of a route image.
pub fn read_image(bytes: &[u8]) -> Result<(), Refusal> {
    told(|told| unsafe { foldzine_read_image(bytes.as_ptr(), bytes.len(), told) })
}

pub fn read_routes(bytes: &[u8]) -> Result<(), Refusal> {
    told(|told| unsafe { foldzine_read_routes(bytes.as_ptr(), bytes.len(), told) })
}

fn told(read: impl FnOnce(&mut [u64; 10])) -> Result<(), Refusal> {
    let mut told = [0; 10];
    read(&mut told);
    Answer { number: told[0], first: told[1], second: 0 }.result()
}
