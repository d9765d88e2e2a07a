//! Control flow graphs of charging sequences, built by proved code.
//!
//! A sequence image goes in as bytes; [`Graph::build`] answers its graph or the
//! [`Refusal`] of document 01. [`Graph::add_routes`] adds unwind routes to a
//! graph, as often as one likes, and answers the [`Hops`] of that addition;
//! [`Graph::rebuild_routed`] does both for an image that carries its routes.
//!
//! The proved functions promise what they return and what they leave in the
//! words that they are lent, for any input whatever; nothing of that is tested
//! here again. A call needs no heap, and fits a thread with 2 MB of stack.

mod graph;
mod hops;
mod raw;
mod records;
mod section;

use std::fmt;

pub use graph::Graph;
pub use hops::{Hop, HopBuffer, Hops, Tags};
pub use records::{Block, Call, Edge, Handler, Instruction, Region, Unresolved};

/// How many words a graph has.
pub const WORDS: usize = 43_872;
/// How many words the hops of an addition have.
pub const HOP_WORDS: usize = 18_440;

/// A refusal: its number in document 01, and its two values.
#[derive(Debug, Clone, Copy, PartialEq, Eq)]
pub struct Refusal {
    pub number: u64,
    pub first: u64,
    pub second: u64,
}

impl fmt::Display for Refusal {
    fn fmt(&self, formatter: &mut fmt::Formatter<'_>) -> fmt::Result {
        write!(formatter, "refused {} {} {}", self.number, self.first, self.second)
    }
}

impl std::error::Error for Refusal {}

/// A sequence without its routes: `built` says whether its graph stands, whose
/// routes were refused then (18, 19 or 20, for want of room), or nothing was
/// built and all is as it was.
#[derive(Debug, Clone, Copy, PartialEq, Eq)]
pub struct Unrouted {
    pub built: bool,
    pub refusal: Refusal,
}

impl fmt::Display for Unrouted {
    fn fmt(&self, formatter: &mut fmt::Formatter<'_>) -> fmt::Result {
        self.refusal.fmt(formatter)
    }
}

impl std::error::Error for Unrouted {}

impl raw::Answer {
    fn result(self) -> Result<(), Refusal> {
        let Self { number, first, second } = self;
        if number == 0 {
            Ok(())
        } else {
            Err(Refusal { number, first, second })
        }
    }
}

/// Words on the heap, all 0.
fn zeros<const N: usize>() -> Box<[u64; N]> {
    vec![0; N].into_boxed_slice().try_into().expect("as many words")
}
