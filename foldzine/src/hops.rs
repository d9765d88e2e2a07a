//! The hops of an addition: ways out of a block, each with the lists of calls
//! that may come before it.

use crate::raw;
use crate::section::{HOPS, LISTS};
use crate::{zeros, HOP_WORDS};

/// Words for the hops of one addition after another.
#[derive(Clone)]
pub struct HopBuffer {
    pub(crate) words: Box<[u64; HOP_WORDS]>,
}

impl HopBuffer {
    pub fn new() -> Self {
        Self { words: zeros() }
    }
}

impl Default for HopBuffer {
    fn default() -> Self {
        Self::new()
    }
}

/// The hops that an addition returned, sorted by source and end, `None` last.
#[derive(Clone, Copy)]
pub struct Hops<'h> {
    words: &'h [u64; HOP_WORDS],
    routes: &'h [u8],
    /// The steps of the route image: a call list is a run of them.
    steps: &'h [u8],
}

/// A way out of a block.
#[derive(Clone, Copy)]
pub struct Hop<'h> {
    pub source: usize,
    /// The block that it leads to, or none where it leaves the function.
    pub end: Option<usize>,
    /// The rows of its lists.
    lists: &'h [u64],
    steps: &'h [u8],
}

/// Bytes of a route, of a path and of a step.
const ROUTE: usize = 20;
const PATH: usize = 13;
const STEP: usize = 9;

impl<'h> Hops<'h> {
    /// Over a route image that was accepted.
    pub(crate) fn new(words: &'h [u64; HOP_WORDS], routes: &'h [u8]) -> Self {
        let paths = &routes[4 + ROUTE * count(routes)..];
        let steps = &paths[4 + PATH * count(paths)..];
        Self { words, routes, steps: &steps[4..] }
    }

    pub fn iter(&self) -> impl ExactSizeIterator<Item = Hop<'h>> {
        let Self { words, steps, .. } = *self;
        HOPS.rows(&words[..]).map(move |row| {
            let at = |list: u64| LISTS.base + LISTS.stride * list as usize;
            Hop {
                source: row[0] as usize,
                end: (row[1] == 1).then_some(row[2] as usize),
                lists: &words[at(row[3])..at(row[3] + row[4])],
                steps,
            }
        })
    }
}

impl Hops<'_> {
    /// The lines of document 01's chart, one for each call list.
    pub fn chart(&self) -> String {
        let (bytes, length) = (self.routes.as_ptr(), self.routes.len());
        let mut out = [0; raw::HOP_LINE];
        let mut text = String::new();
        for hop in 0..self.iter().len() {
            // SAFETY: arrays pass as pointers, a slice as a pointer and a length; all but `out` are only read.
            for list in 0..unsafe { raw::foldzine_hop_lines(self.words, hop) } {
                let length = unsafe {
                    raw::foldzine_hop_line(self.words, bytes, length, hop, list, &mut out)
                };
                text.extend(out[..length].iter().map(|&byte| char::from(byte)));
            }
        }
        text
    }
}

impl<'h> Hop<'h> {
    /// The distinct lists of call tags, sorted. A list may be empty.
    pub fn lists(&self) -> impl ExactSizeIterator<Item = Tags<'h>> {
        let steps = self.steps;
        self.lists.chunks_exact(LISTS.stride).map(move |row| {
            let (first, count) = (STEP * row[0] as usize, STEP * row[1] as usize);
            Tags { steps: &steps[first..first + count] }
        })
    }
}

/// The tags of a call list, in order.
#[derive(Clone, Copy)]
pub struct Tags<'h> {
    steps: &'h [u8],
}

impl Iterator for Tags<'_> {
    type Item = u32;

    fn next(&mut self) -> Option<u32> {
        let (step, rest) = self.steps.split_at_checked(STEP)?;
        self.steps = rest;
        // A code, and eight bytes of which a tag uses four.
        Some(little(&step[1..]))
    }
}

fn count(section: &[u8]) -> usize {
    little(section) as usize
}

fn little(bytes: &[u8]) -> u32 {
    u32::from_le_bytes([bytes[0], bytes[1], bytes[2], bytes[3]])
}
