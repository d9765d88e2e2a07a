//! The graph, in words that are lent to the proved functions.

use crate::hops::{HopBuffer, Hops};
use crate::raw;
use crate::records::{Block, Call, Edge, Handler, Instruction, Record, Region, Unresolved};
use crate::section::{Section, BLOCKS, CALLS, EDGES, ENTRY, HANDLERS, REGIONS, TABLE, UNRESOLVED};
use crate::{zeros, Refusal, Unrouted, WORDS};

/// A control flow graph. Its words always hold one: of a new graph, that of no
/// instruction, and then what `rebuild` and `add_routes` leave.
#[derive(Clone)]
pub struct Graph {
    words: Box<[u64; WORDS]>,
}

impl Graph {
    /// The graph of no instruction: one empty block.
    pub fn new() -> Self {
        let mut words = zeros();
        words[BLOCKS.count] = 1;
        Self { words }
    }

    /// The graph of a sequence image.
    pub fn build(image: &[u8]) -> Result<Self, Refusal> {
        let mut graph = Self::new();
        graph.rebuild(image)?;
        Ok(graph)
    }

    /// Puts the graph of a sequence image in the place of this one, which a
    /// refusal leaves as it was. No new words are taken.
    pub fn rebuild(&mut self, image: &[u8]) -> Result<(), Refusal> {
        // SAFETY: a slice passes as a pointer and a length, an array as a pointer; the contract asks nothing else.
        unsafe { raw::foldzine_build(image.as_ptr(), image.len(), &mut *self.words) }.result()
    }

    /// Adds the unwind routes of a route image. A refusal leaves the graph and
    /// the buffer as they were.
    pub fn add_routes<'h>(
        &mut self,
        routes: &'h [u8],
        buffer: &'h mut HopBuffer,
    ) -> Result<Hops<'h>, Refusal> {
        let (length, hops) = (routes.len(), &mut *buffer.words);
        // SAFETY: the same; no two of the three overlap, since two are lent to be changed.
        unsafe { raw::foldzine_add_routes(&mut *self.words, routes.as_ptr(), length, hops) }
            .result()?;
        Ok(Hops::new(&buffer.words, routes))
    }

    /// Puts the graph of a sequence image, with the image's own routes added, in
    /// the place of this one, and answers their hops: `rebuild` and `add_routes`
    /// in one, and faster. Of mode 0 there are none.
    pub fn rebuild_routed<'h>(
        &mut self,
        image: &'h [u8],
        buffer: &'h mut HopBuffer,
    ) -> Result<Hops<'h>, Unrouted> {
        let (at, length, hops) = (image.as_ptr(), image.len(), &mut *buffer.words);
        // SAFETY: the same.
        let answer = unsafe { raw::foldzine_sequence(at, length, &mut *self.words, hops) };
        let built = answer.built == 1;
        answer.refusal.result().map_err(|refusal| Unrouted { built, refusal })?;
        // SAFETY: a slice passes as a pointer and a length, and is only read.
        let routes = unsafe { raw::foldzine_routes_at(at, length) };
        Ok(Hops::new(&buffer.words, &image[routes..]))
    }

    /// How many blocks are reached from the entry.
    pub fn reached(&self) -> usize {
        // SAFETY: an array passes as a pointer, and is only read. The words hold a graph, so the number is 0.
        unsafe { raw::foldzine_reached(&*self.words) }.count as usize
    }

    /// The lines of document 01's chart up to the hops.
    pub fn chart(&self) -> String {
        // SAFETY: arrays pass as pointers; the words are only read. They hold a graph, so the number is 0.
        let lines = unsafe { raw::foldzine_line_count(&*self.words) }.count as usize;
        let mut out = [0; raw::LINE];
        let mut text = String::new();
        for line in 0..lines {
            // SAFETY: the same.
            let length = unsafe { raw::foldzine_line(&*self.words, line, &mut out) };
            text.extend(out[..length].iter().map(|&byte| char::from(byte)));
        }
        text
    }

    /// The entry block.
    pub fn entry(&self) -> usize {
        self.words[ENTRY] as usize
    }

    /// The table, by position.
    pub fn instructions(&self) -> impl ExactSizeIterator<Item = Instruction> + '_ {
        self.records(&TABLE)
    }

    /// The blocks, by number.
    pub fn blocks(&self) -> impl ExactSizeIterator<Item = Block> + '_ {
        self.records(&BLOCKS)
    }

    /// The edges, by number.
    pub fn edges(&self) -> impl ExactSizeIterator<Item = Edge> + '_ {
        self.records(&EDGES)
    }

    /// The regions, by number.
    pub fn regions(&self) -> impl ExactSizeIterator<Item = Region> + '_ {
        self.records(&REGIONS)
    }

    /// The handlers, by input index.
    pub fn handlers(&self) -> impl ExactSizeIterator<Item = Handler> + '_ {
        self.records(&HANDLERS)
    }

    /// The unresolved transfers.
    pub fn unresolved(&self) -> impl ExactSizeIterator<Item = Unresolved> + '_ {
        self.records(&UNRESOLVED)
    }

    /// The calls that were flattened.
    pub fn calls(&self) -> impl ExactSizeIterator<Item = Call> + '_ {
        self.records(&CALLS)
    }

    fn records<R: Record + 'static>(
        &self,
        section: &Section,
    ) -> impl ExactSizeIterator<Item = R> + '_ {
        section.rows(&self.words[..]).map(R::of)
    }
}

impl Default for Graph {
    fn default() -> Self {
        Self::new()
    }
}
